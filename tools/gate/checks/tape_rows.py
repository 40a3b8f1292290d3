"""Tapes that were written by hand: the lines of the runs of their replay modules, worked out by hand too, and tapes
that `build` refuses."""
from modules import example

C_BUFFERS = example("c_buffers.wasm")
EMPTY = example("empty.wasm")
FLOAT_GLOBAL = example("float_global.wasm")
GROW_ACCESS = example("grow_access.wasm")
GROW_FAILED = example("grow_failed.wasm")
IMPORTED_OFFSET = example("imported_offset.wasm")
NESTED_CALL = example("nested_call.wasm")
NESTED_TRAP = example("nested_trap.wasm")
OVERWRITE = example("overwrite.wasm")
TABLE_ENTRY = example("table_entry.wasm")
TABLE_GROWTH = example("table_growth.wasm")
TWO_ANSWERS = example("two_answers.wasm")

# Modules with tapes. Each row of a module's table is `- NAME | SEGMENTS | SCRIPT => LINES`: the tape's segments and its
# end in hexadecimal, the script, and the lines that the run of the replay module shows, with `;` between them.
TAPES = [
    (
        EMPTY,
        """
- nothing to do | 0000222f | {}
  => ended
""",
    ),
    (
        TWO_ANSWERS,
        """
- an import that is never called | 0000222f | {}
  => ended
- two answers | 000020010001000021017f0500000001000021017f070000000200222f | {}
  => host-call 1; step 1 0 ->; import-call 0; import-return 0 i32:00000005; step 1 1 ->; import-call 0;
  import-return 0 i32:00000007; step 1 2 i32:00000005 i32:00000007 -> i32:0000000c; host-return 1 i32:0000000c;
  ended
- a trap of the host | 0000200100010000232f | {}
  => host-call 1; step 1 0 ->; import-call 0; host-trap; host-trapped
""",
    ),
    (
        OVERWRITE,
        """
- bytes that a load reads | 0000200100010001070a02ccdd21000200222f | {}
  => host-call 1; step 1 0 ->; import-call 0; import-return 0; step 1 1 -> i32:00000008; step 1 2 -> i32:00000001;
  step 1 3 i32:00000008 i32:00000001 ->; step 1 4 -> i32:00000008; step 1 5 i32:00000008 -> i32:ddcc0001;
  host-return 1 i32:ddcc0001; ended
- no effect | 000020010001000021000200222f | {}
  => host-call 1; step 1 0 ->; import-call 0; import-return 0; step 1 1 -> i32:00000008; step 1 2 -> i32:00000001;
  step 1 3 i32:00000008 i32:00000001 ->; step 1 4 -> i32:00000008; step 1 5 i32:00000008 -> i32:00000001;
  host-return 1 i32:00000001; ended
""",
    ),
    (
        GROW_ACCESS,
        """
- growth that a store sees | 0000200100010001050221000200222f | {}
  => host-call 1; step 1 0 ->; import-call 0; import-return 0; step 1 1 -> i32:00010000; step 1 2 -> i32:00000009;
  step 1 3 i32:00010000 i32:00000009 ->; host-return 1; ended
- no growth: the store traps | 000020010001000021002f | {}
  => host-call 1; step 1 0 ->; import-call 0; import-return 0; step 1 1 -> i32:00010000; step 1 2 -> i32:00000009;
  trap 1 3 memory i32:00010000 i32:00000009 found 1; trapped
""",
    ),
    (
        GROW_FAILED,
        """
- growth that a growth sees | 0000200100010001050821000200222f | {}
  => host-call 1; step 1 0 ->; import-call 0; import-return 0; step 1 1 -> i32:00000003;
  step 1 2 i32:00000003 -> i32:ffffffff found 8; host-return 1 i32:ffffffff; ended
""",
    ),
    (
        NESTED_CALL,
        """
- a call within an import | 000020010001000020020001000021017f0200000002010700010421017f010000000200222f | {}
  => host-call 1; step 1 0 ->; import-call 0; host-call 2; step 2 0 ->; import-call 0; import-return 0 i32:00000002;
  host-return 2 i32:00000002; import-return 0 i32:00000001; step 1 1 -> i32:00000000;
  step 1 2 i32:00000000 -> i32:00000004; step 1 3 i32:00000001 i32:00000004 -> i32:00000005;
  host-return 1 i32:00000005; ended
""",
    ),
    (
        NESTED_TRAP,
        """
- a trap within an import's call | 00002001000100002002002f | {}
  => host-call 1; step 1 0 ->; import-call 0; host-call 2; trap 2 0 unreachable; trapped
""",
    ),
    (
        TABLE_ENTRY,
        """
- an entry of another type | 00002001000100010800010321002f | {}
  => host-call 1; step 1 0 ->; import-call 0; import-return 0; step 1 1 -> i32:00000000;
  trap 1 2 signature i32:00000000 found 3; trapped
- an entry that is emptied | 000020010001000108000021002f | {}
  => host-call 1; step 1 0 ->; import-call 0; import-return 0; step 1 1 -> i32:00000000;
  trap 1 2 empty i32:00000000; trapped
""",
    ),
    (
        TABLE_GROWTH,
        """
- an entry of a table that grew | 00002001000100020a060805010321002f | {}
  => host-call 1; step 1 0 ->; import-call 0; import-return 0; step 1 1 -> i32:00000005;
  trap 1 2 signature i32:00000005 found 3; trapped
- past a table that grew | 00002001000100010a0421002f | {}
  => host-call 1; step 1 0 ->; import-call 0; import-return 0; step 1 1 -> i32:00000005;
  trap 1 2 table i32:00000005 found 4; trapped
""",
    ),
    (
        FLOAT_GLOBAL,
        """
- the bits of a global | 000020010001000109007d0100a07f21000200222f | {}
  => host-call 1; step 1 0 ->; import-call 0; import-return 0; step 1 1 -> f32:7fa00001; host-return 1 f32:7fa00001;
  ended
""",
    ),
    (
        IMPORTED_OFFSET,
        """
- an offset that is supplied | 00002000000200222f | {"globals":{"h":{"b":{"i32":16}}}}
  => host-call 0; step 0 0 -> i32:00000010; step 0 1 i32:00000010 -> i32:00000041; host-return 0 i32:00000041; ended
""",
    ),
    (
        C_BUFFERS,
        """
- buffers on a stack in memory | 000020010001000207f087040368690a07f88704010321017f000000000200222f | {}
  => host-call 1; step 1 0 -> i32:00010400; step 1 1 -> i32:00000010;
  step 1 2 i32:00010400 i32:00000010 -> i32:000103f0; step 1 3 i32:000103f0 -> i32:000103f0;
  step 1 4 i32:000103f0 ->; step 1 5 -> i32:000103f0; step 1 6 -> i32:00000004; step 1 7 -> i32:000103f0;
  step 1 8 -> i32:00000008; step 1 9 i32:000103f0 i32:00000008 -> i32:000103f8;
  step 1 10 i32:000103f0 i32:00000004 i32:000103f8 ->; import-call 0 i32:000103f0 i32:00000004 i32:000103f8;
  import-return 0 i32:00000000; step 1 11 i32:00000000 ->; step 1 12 -> i32:000103f0;
  step 1 13 i32:000103f0 -> i32:000a6968; step 1 14 -> i32:000103f0; step 1 15 i32:000103f0 -> i32:00000003;
  step 1 16 i32:000a6968 i32:00000003 -> i32:000a696b; step 1 17 -> i32:00000001;
  step 1 18 i32:000a696b i32:00000001 -> found 2; enter 2; step 2 0 -> i32:000a696b; step 2 1 -> i32:00000001;
  step 2 2 i32:000a696b i32:00000001 -> i32:0014d2d6; exit 2 i32:0014d2d6; step 1 19 -> i32:000103f0;
  step 1 20 -> i32:00000010; step 1 21 i32:000103f0 i32:00000010 -> i32:00010400; step 1 22 i32:00010400 ->;
  host-return 1 i32:0014d2d6; ended
""",
    ),
]

# Tapes that are refused: a name, a module, a script, the segments with what follows them, and the status and the line.
# A tape begins with 37 bytes of a header.
REFUSED = [
    ("no segments", TWO_ANSWERS, b"{}", bytes.fromhex("2f"), 17, "tape: segment 0"),
    ("it does not begin at the beginning", TWO_ANSWERS, b"{}", bytes.fromhex("0200222f"), 17, "tape: segment 0"),
    ("a call of an import", TWO_ANSWERS, b"{}", bytes.fromhex("00002000002f"), 17, "tape: segment 0"),
    (
        "a result of another type",
        TWO_ANSWERS,
        b"{}",
        bytes.fromhex("000020010001000021017e05000000000000000200222f"),
        17,
        "tape: segment 1",
    ),
    (
        "bytes of a module without a memory",
        TWO_ANSWERS,
        b"{}",
        bytes.fromhex("000107000101222f"),
        17,
        "tape: segment 0",
    ),
    ("effects out of order", OVERWRITE, b"{}", bytes.fromhex("0002070001010502222f"), 17, "tape: segment 0"),
    ("more pages than a memory may have", GROW_ACCESS, b"{}", bytes.fromhex("0001058120222f"), 17, "tape: segment 0"),
    ("cut within a segment", TWO_ANSWERS, b"{}", bytes.fromhex("000020010001000021017f05"), 15, "trace: bad at 42"),
    ("the script is no text", TWO_ANSWERS, b"{", bytes.fromhex("2f"), 9, "script: not json"),
    ("a global is not supplied", IMPORTED_OFFSET, b"{}", bytes.fromhex("2f"), 10, "link: missing import 0"),
    (
        "a segment passes the memory",
        IMPORTED_OFFSET,
        b'{"globals":{"h":{"b":{"i32":65536}}}}',
        bytes.fromhex("2f"),
        10,
        "link: segment 0",
    ),
]

# The bytes of the tape of two answers, and the lengths at which its header ends, and each of its segments.
LENGTH = 66
WHOLE_PARTS = [37, 42, 52, 62, 65]

# A replay module that was written section by section (Core 1.0, 5.5; the declared segment: Core 2.0, 5.5.12). Function
# 0 is in place of an import; it calls function 2, which gives seven more each time. Function 1 doubles what it gives.
# (module (type (func (result i32))) (type (func)) (table 1 funcref) (memory 1 2)
#   (global i32 (i32.const 8)) (global (mut i32) (i32.const 8)) (global (mut i32) (i32.const 14))
#   (export "_start" (func 3)) (elem declare func 1) (func (type 0) call 2)
#   (func (type 0) (local i32) call 0 local.tee 0 local.get 0 i32.add)
#   (func (type 0) global.get 2 i32.const 7 i32.add global.set 2 global.get 2)
#   (func (type 1) i32.const 0 ref.func 1 table.set 0 call 1 drop i32.const 0 call_indirect (type 0) drop)
#   (data (i32.const 8) "A")), with a custom section "r3.layout" of the bytes 01 01 at the end
HANDMADE = bytes.fromhex(
    "0061736d01000000"
    "0108026000017f600000"
    "03050400000001"
    "040401700001"
    "050401010102"
    "0610037f0041080b7f0141080b7f01410e0b"
    "070a01065f73746172740003"
    "09050103000101"
    "0a3004040010020b0b01017f1000220020006a0b"
    "0b00230241076a240223020b11004100d201260010011a41001100001a0b"
    "0b07010041080b0141"
    "000c0972332e6c61796f75740101"
)

# The lines that its run shows: the import answers 21, and then 28.
HANDMADE_LINES = b"""host-call 1
step 1 0 ->
import-call 0
import-return 0 i32:00000015
step 1 1 i32:00000015 -> i32:00000015
step 1 2 -> i32:00000015
step 1 3 i32:00000015 i32:00000015 -> i32:0000002a
host-return 1 i32:0000002a
host-call 1
step 1 0 ->
import-call 0
import-return 0 i32:0000001c
step 1 1 i32:0000001c -> i32:0000001c
step 1 2 -> i32:0000001c
step 1 3 i32:0000001c i32:0000001c -> i32:00000038
host-return 1 i32:00000038
ended
"""
