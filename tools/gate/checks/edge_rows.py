"""Runs at the ends of the ranges of instructions and of the host's actions, with the lines that an independent
interpreter printed. Each row of a module's table is `- NAME | TURNS | SCRIPT => LINES`."""

ACCESSES = bytes.fromhex(
    # (module (memory (export "m") 1) (func (export "load") (param i32) (result i32) local.get 0 i32.load)
    #   (func (export "byte") (param i32) (result i32) local.get 0 i32.load8_s offset=4294967295)
    #   (func (export "store") (param i32 i64) local.get 0 local.get 1 i64.store32 offset=2)
    #   (func (export "half") (param i32) (result i64) local.get 0 i64.load16_s)
    #   (data (i32.const 65532) "\01\02\03\84"))
    "0061736d0100000001100360017f017f60027f7e0060017f017e030504000001020503010001"
    "072205016d0200046c6f61640000046279746500010573746f726500020468616c660003"
    "0a2704070020002802000b0b0020002c00ffffffff0f0b0900200020013e02020b070020003201000b"
    "0b0c010041fcff030b0401020384"
)

CALLS = bytes.fromhex(
    # (module (type (func)) (type (func (result i32))) (type (func (result i32)))
    #   (type (func (param i32) (result i32))) (table (export "t") 3 funcref) (func (type 0))
    #   (func (type 1) i32.const 7) (func (export "call") (type 3) local.get 0 call_indirect (type 2))
    #   (elem (i32.const 0) 0 1))
    "0061736d010000000111046000006000017f6000017f60017f017f030403000103040401700003"
    "070c02017401000463616c6c00020908010041000b0200010a110302000b040041070b070020001102000b"
)

COPIES = bytes.fromhex(
    # (module (import "h" "f" (func (param i32 i32))) (memory (export "m") 1 2)
    #   (func (export "run") (result i64) i32.const 4 i32.const 2 call 0
    #     i32.const 4 i64.load memory.size i64.extend_i32_u i64.add) (data (i32.const 4) "\01\02\03\04\05"))
    "0061736d01000000010a0260027f7f006000017e02070101680166000003020101050401010102"
    "070b02016d02000372756e00010a1301110041044102100041042903003f00ad7c0b0b0b010041040b050102030405"
)

# A function that calls two imports in turn.
IN_TURN = bytes.fromhex(
    # (module (import "h" "f" (func (result i32))) (import "h" "g" (func (result i32)))
    #   (func (export "run") (result i32) call 0 call 1 call 0 call 1 i32.sub i32.sub i32.sub))
    "0061736d010000000105016000017f020d02016801660000016801670000030201000707010372756e0002"
    "0a0f010d0010001001100010016b6b6b0b"
)

# Modules with their runs.
RUNS = [
    (
        ACCESSES,
        """
- a load that ends at the last byte | 100 | {"main":[{"call":"load","args":[{"i32":65532}]}]}
  => host-call 0 i32:0000fffc; step 0 0 -> i32:0000fffc; step 0 1 i32:0000fffc -> i32:84030201;
  host-return 0 i32:84030201; ended
- a load that ends a byte past it | 100 | {"main":[{"call":"load","args":[{"i32":65533}]}]}
  => host-call 0 i32:0000fffd; step 0 0 -> i32:0000fffd; trap 0 1 memory i32:0000fffd found 1; trapped
- an address that does not wrap | 100 | {"main":[{"call":"byte","args":[{"i32":1}]}]}
  => host-call 1 i32:00000001; step 1 0 -> i32:00000001; trap 1 1 memory i32:00000001 found 1; trapped
- a store of the low bytes, and one past the end | 100 | {"main":[{"call":"store","args":[{"i32":65530},
  {"i64":-2}]},{"call":"half","args":[{"i32":65532}]},{"call":"store","args":[{"i32":65531},{"i64":0}]}]}
  => host-call 2 i32:0000fffa i64:fffffffffffffffe; step 2 0 -> i32:0000fffa; step 2 1 -> i64:fffffffffffffffe;
  step 2 2 i32:0000fffa i64:fffffffffffffffe ->; host-return 2; host-call 3 i32:0000fffc;
  step 3 0 -> i32:0000fffc; step 3 1 i32:0000fffc -> i64:fffffffffffffffe; host-return 3 i64:fffffffffffffffe;
  host-call 2 i32:0000fffb i64:0000000000000000; step 2 0 -> i32:0000fffb; step 2 1 -> i64:0000000000000000;
  trap 2 2 memory i32:0000fffb i64:0000000000000000 found 1; trapped
""",
    ),
    (
        CALLS,
        """
- a call through the table | 100 | {"main":[{"call":"call","args":[{"i32":1}]}]}
  => host-call 2 i32:00000001; step 2 0 -> i32:00000001; step 2 1 i32:00000001 -> found 1; enter 1;
  step 1 0 -> i32:00000007; exit 1 i32:00000007; host-return 2 i32:00000007; ended
- an index past the table | 100 | {"main":[{"call":"call","args":[{"i32":3}]}]}
  => host-call 2 i32:00000003; step 2 0 -> i32:00000003; trap 2 1 table i32:00000003 found 3; trapped
- an empty entry | 100 | {"main":[{"call":"call","args":[{"i32":2}]}]}
  => host-call 2 i32:00000002; step 2 0 -> i32:00000002; trap 2 1 empty i32:00000002; trapped
- a function of another type | 100 | {"main":[{"call":"call","args":[{"i32":0}]}]}
  => host-call 2 i32:00000000; step 2 0 -> i32:00000000; trap 2 1 signature i32:00000000 found 0; trapped
- a function that is put into the table and called there | 100 | {"main":[{"set_table":2,"func":"call"},
  {"call_table":2,"args":[{"i32":1}]}]}
  => host-call 2 i32:00000001; step 2 0 -> i32:00000001; step 2 1 i32:00000001 -> found 1; enter 1;
  step 1 0 -> i32:00000007; exit 1 i32:00000007; host-return 2 i32:00000007; ended
""",
    ),
    (
        bytes.fromhex(
            # (module (func (export "div_s") (param i32 i32) (result i32) local.get 0 local.get 1 i32.div_s)
            #   (func (export "rem_s") (param i64 i64) (result i64) local.get 0 local.get 1 i64.rem_s)
            #   (func (export "rem_u") (param i32 i32) (result i32) local.get 0 local.get 1 i32.rem_u))
            "0061736d01000000010d0260027f7f017f60027e7e017e030403000100"
            "071903056469765f7300000572656d5f7300010572656d5f750002"
            "0a19030700200020016d0b070020002001810b070020002001700b"
        ),
        """
- divisions | 100 | {"main":[{"call":"div_s","args":[{"i32":-7},{"i32":2}]},{"call":"rem_s","args":[{"i64":-7},
  {"i64":2}]},{"call":"rem_s","args":[{"i64":-9223372036854775808},{"i64":-1}]},{"call":"rem_u",
  "args":[{"i32":-1},{"i32":10}]}]}
  => host-call 0 i32:fffffff9 i32:00000002; step 0 0 -> i32:fffffff9; step 0 1 -> i32:00000002;
  step 0 2 i32:fffffff9 i32:00000002 -> i32:fffffffd; host-return 0 i32:fffffffd;
  host-call 1 i64:fffffffffffffff9 i64:0000000000000002; step 1 0 -> i64:fffffffffffffff9;
  step 1 1 -> i64:0000000000000002; step 1 2 i64:fffffffffffffff9 i64:0000000000000002 -> i64:ffffffffffffffff;
  host-return 1 i64:ffffffffffffffff; host-call 1 i64:8000000000000000 i64:ffffffffffffffff;
  step 1 0 -> i64:8000000000000000; step 1 1 -> i64:ffffffffffffffff;
  step 1 2 i64:8000000000000000 i64:ffffffffffffffff -> i64:0000000000000000;
  host-return 1 i64:0000000000000000; host-call 2 i32:ffffffff i32:0000000a; step 2 0 -> i32:ffffffff;
  step 2 1 -> i32:0000000a; step 2 2 i32:ffffffff i32:0000000a -> i32:00000005; host-return 2 i32:00000005;
  ended
- a division by zero | 100 | {"main":[{"call":"rem_u","args":[{"i32":1},{"i32":0}]}]}
  => host-call 2 i32:00000001 i32:00000000; step 2 0 -> i32:00000001; step 2 1 -> i32:00000000;
  trap 2 2 divide i32:00000001 i32:00000000; trapped
- a division that overflows | 100 | {"main":[{"call":"div_s","args":[{"i32":-2147483648},{"i32":-1}]}]}
  => host-call 0 i32:80000000 i32:ffffffff; step 0 0 -> i32:80000000; step 0 1 -> i32:ffffffff;
  trap 0 2 overflow i32:80000000 i32:ffffffff; trapped
""",
    ),
    (
        bytes.fromhex(
            # (module (func (export "switch") (param i32) (result i32) block (result i32) block (result i32)
            #     block (result i32) i32.const 10 local.get 0 br_table 0 1 2 end i32.const 1 i32.add end
            #     i32.const 2 i32.add end)
            #   (func (export "carry") (param i32) (result i64) i64.const 1 block (result i64)
            #     i64.const 2 i64.const 3 local.get 0 br_if 0 i64.add end i64.sub)
            #   (func (export "count") (param i32) (result i32) (local i32) loop
            #     local.get 1 i32.const 1 i32.add local.tee 1 local.get 0 i32.lt_u br_if 0 end local.get 1)
            #   (func (export "either") (param i32) (result f32) local.get 0 if (result f32) f32.const 1 else
            #     local.get 0 i32.eqz if f64.const -0 i64.reinterpret_f64 drop f32.const nan:0x200001 return end
            #     unreachable end))
            "0061736d0100000001100360017f017f60017f017e60017f017d03050400010002"
            "072304067377697463680000056361727279000105636f756e740002066569746865720003"
            "0a6a041a00027f027f027f410a20000e020001020b41016a0b41026a0b0b11004201027e4202420320000d007c0b7d0b1501"
            "017f0340200141016a22012000490d000b20010b25002000047d430000803f052000450440440000000000000080bd1a4301"
            "00a07f0f0b000b0b"
        ),
        """
- a table of branches, and past its end | 100 | {"main":[{"call":"switch","args":[{"i32":0}]},{"call":"switch",
  "args":[{"i32":1}]},{"call":"switch","args":[{"i32":2}]},{"call":"switch","args":[{"i32":-1}]}]}
  => host-call 0 i32:00000000; step 0 0 ->; step 0 1 ->; step 0 2 ->; step 0 3 -> i32:0000000a;
  step 0 4 -> i32:00000000; step 0 5 i32:00000000 ->; step 0 6 -> i32:00000001;
  step 0 7 i32:0000000a i32:00000001 -> i32:0000000b; step 0 8 -> i32:00000002;
  step 0 9 i32:0000000b i32:00000002 -> i32:0000000d; host-return 0 i32:0000000d; host-call 0 i32:00000001;
  step 0 0 ->; step 0 1 ->; step 0 2 ->; step 0 3 -> i32:0000000a; step 0 4 -> i32:00000001;
  step 0 5 i32:00000001 ->; step 0 8 -> i32:00000002; step 0 9 i32:0000000a i32:00000002 -> i32:0000000c;
  host-return 0 i32:0000000c; host-call 0 i32:00000002; step 0 0 ->; step 0 1 ->; step 0 2 ->;
  step 0 3 -> i32:0000000a; step 0 4 -> i32:00000002; step 0 5 i32:00000002 ->; host-return 0 i32:0000000a;
  host-call 0 i32:ffffffff; step 0 0 ->; step 0 1 ->; step 0 2 ->; step 0 3 -> i32:0000000a;
  step 0 4 -> i32:ffffffff; step 0 5 i32:ffffffff ->; host-return 0 i32:0000000a; ended
- a branch that carries a value over another | 100 | {"main":[{"call":"carry","args":[{"i32":1}]},
  {"call":"carry","args":[{"i32":0}]}]}
  => host-call 1 i32:00000001; step 1 0 -> i64:0000000000000001; step 1 1 ->; step 1 2 -> i64:0000000000000002;
  step 1 3 -> i64:0000000000000003; step 1 4 -> i32:00000001; step 1 5 i32:00000001 ->;
  step 1 7 i64:0000000000000001 i64:0000000000000003 -> i64:fffffffffffffffe;
  host-return 1 i64:fffffffffffffffe; host-call 1 i32:00000000; step 1 0 -> i64:0000000000000001; step 1 1 ->;
  step 1 2 -> i64:0000000000000002; step 1 3 -> i64:0000000000000003; step 1 4 -> i32:00000000;
  step 1 5 i32:00000000 ->; step 1 6 i64:0000000000000002 i64:0000000000000003 -> i64:0000000000000005;
  step 1 7 i64:0000000000000001 i64:0000000000000005 -> i64:fffffffffffffffc;
  host-return 1 i64:fffffffffffffffc; ended
- a loop | 100 | {"main":[{"call":"count","args":[{"i32":2}]}]}
  => host-call 2 i32:00000002; step 2 0 ->; step 2 1 -> i32:00000000; step 2 2 -> i32:00000001;
  step 2 3 i32:00000000 i32:00000001 -> i32:00000001; step 2 4 i32:00000001 -> i32:00000001;
  step 2 5 -> i32:00000002; step 2 6 i32:00000001 i32:00000002 -> i32:00000001; step 2 7 i32:00000001 ->;
  step 2 0 ->; step 2 1 -> i32:00000001; step 2 2 -> i32:00000001;
  step 2 3 i32:00000001 i32:00000001 -> i32:00000002; step 2 4 i32:00000002 -> i32:00000002;
  step 2 5 -> i32:00000002; step 2 6 i32:00000002 i32:00000002 -> i32:00000000; step 2 7 i32:00000000 ->;
  step 2 8 -> i32:00000002; host-return 2 i32:00000002; ended
- the parts of an if, and bits of floats | 100 | {"main":[{"call":"either","args":[{"i32":3}]},{"call":"either",
  "args":[{"i32":0}]}]}
  => host-call 3 i32:00000003; step 3 0 -> i32:00000003; step 3 1 i32:00000003 ->; step 3 2 -> f32:3f800000;
  host-return 3 f32:3f800000; host-call 3 i32:00000000; step 3 0 -> i32:00000000; step 3 1 i32:00000000 ->;
  step 3 3 -> i32:00000000; step 3 4 i32:00000000 -> i32:00000001; step 3 5 i32:00000001 ->;
  step 3 6 -> f64:8000000000000000; step 3 7 f64:8000000000000000 -> i64:8000000000000000;
  step 3 8 i64:8000000000000000 ->; step 3 9 -> f32:7fa00001; step 3 10 ->; host-return 3 f32:7fa00001; ended
""",
    ),
    (
        bytes.fromhex(
            # (module (global (mut i64) (i64.const 5)) (func global.get 0 i64.const 3 i64.shl global.set 0)
            #   (func (export "get") (result i64) global.get 0) (start 0))
            "0061736d010000000108026000006000017e03030200010606017e0142050b070701036765740001080100"
            "0a10020900230042038624000b040023000b"
        ),
        """
- a start function | 100 | {"main":[{"call":"get"}]}
  => host-call 0; step 0 0 -> i64:0000000000000005; step 0 1 -> i64:0000000000000003;
  step 0 2 i64:0000000000000005 i64:0000000000000003 -> i64:0000000000000028; step 0 3 i64:0000000000000028 ->;
  host-return 0; host-call 1; step 1 0 -> i64:0000000000000028; host-return 1 i64:0000000000000028; ended
""",
    ),
    (
        bytes.fromhex(
            # (module (import "h" "f" (func)) (func (export "g") call 0) (start 0))
            "0061736d0100000001040160000002070101680166000003020100070501016700010801000a0601040010000b"
        ),
        """
- a start function that is an import | 100 | {"imports":{"h":{"f":{"calls":[{"do":[]}]}}},"main":[{"call":"g"}]}
  => host-call 1; step 1 0 ->; import-call 0; import-return 0; host-return 1; ended
""",
    ),
    (
        IN_TURN,
        """
- each import's calls are counted apart, and the rest is answered alike | 100 |
  {"imports":{"h":{"f":{"calls":[{"return":{"i32":100}}],"rest":{"return":{"i32":20}}},
  "g":{"calls":[{"return":{"i32":3}},{"return":{"i32":4}}]}}},"main":[{"call":"run"}]}
  => host-call 2; step 2 0 ->; import-call 0; import-return 0 i32:00000064; step 2 1 ->; import-call 1;
  import-return 1 i32:00000003; step 2 2 ->; import-call 0; import-return 0 i32:00000014; step 2 3 ->;
  import-call 1; import-return 1 i32:00000004; step 2 4 i32:00000014 i32:00000004 -> i32:00000010;
  step 2 5 i32:00000003 i32:00000010 -> i32:fffffff3; step 2 6 i32:00000064 i32:fffffff3 -> i32:00000071;
  host-return 2 i32:00000071; ended
""",
    ),
    (
        COPIES,
        """
- a copy onto itself, a write and a growth | 100 | {"imports":{"h":{"f":{"calls":[{"do":[{"copy":{"arg":0,
  "plus":1},"from":{"arg":0},"count":4},{"write":{"arg":1,"plus":9},"bytes":"FF"},{"grow":1}]}]}}},
  "main":[{"call":"run"}]}
  => host-call 1; step 1 0 -> i32:00000004; step 1 1 -> i32:00000002; step 1 2 i32:00000004 i32:00000002 ->;
  import-call 0 i32:00000004 i32:00000002; import-return 0; step 1 3 -> i32:00000004;
  step 1 4 i32:00000004 -> i64:ff00000403020101; step 1 5 -> i32:00000002;
  step 1 6 i32:00000002 -> i64:0000000000000002;
  step 1 7 i64:ff00000403020101 i64:0000000000000002 -> i64:ff00000403020103;
  host-return 1 i64:ff00000403020103; ended
""",
    ),
]

# What is done, modules and scripts with an action that cannot be done, and the lines.
FAULTS = [
    (
        "a growth that is refused",
        COPIES,
        b'{"imports":{"h":{"f":{"calls":[{"do":[{"grow":1}]}],"rest":{"do":[{"grow":1}]}}}},'
        b'"main":[{"call":"run"},{"call":"run"}]}',
        "script fault: turn 15 grow refused",
    ),
    (
        "a call by the table of an empty entry",
        CALLS,
        b'{"main":[{"call_table":2}]}',
        "script fault: turn 1 empty entry",
    ),
    ("a call by the table past its end", CALLS, b'{"main":[{"call_table":3}]}', "script fault: turn 1 table outside"),
    (
        "a call by the table with an argument too many",
        CALLS,
        b'{"main":[{"call_table":1,"args":[{"i32":1}]}]}',
        "script fault: turn 1 entry type",
    ),
    (
        "a table that is set past its end",
        CALLS,
        b'{"main":[{"set_table":3,"func":null}]}',
        "script fault: turn 1 table outside",
    ),
    (
        "a write that ends at the memory's end, and one past it",
        ACCESSES,
        b'{"main":[{"write":65535,"bytes":"07"},{"write":65536,"bytes":""},{"copy":0,"from":65535,"count":2}]}',
        "script fault: turn 3 outside",
    ),
]

# A function that calls itself, each call within the one before, and a script that calls it 100,000 deep.
DEPTH = bytes.fromhex(
    # (module (func (export "depth") (param i32) (result i32) local.get 0 if (result i32)
    #     local.get 0 i32.const 1 i32.sub call 0 i32.const 1 i32.add else i32.const 0 end))
    "0061736d0100000001060160017f017f0302010007090105646570746800000a1601140020000"
    "47f200041016b100041016a0541000b0b"
)
DEPTH_SCRIPT = b'{"main":[{"call":"depth","args":[{"i32":100000}]}]}'
