"""Runs and their lines, and modules in the form of replay modules that were written by hand, with the lines that they
show of the function in place of the original's. All lines were worked out by hand; there is `;` between them."""
from call_rows import ANSWERS
from edge_rows import IN_TURN
from modules import example
from replay_bytes import DIVISION, TWO_ANSWERS

# A function that calls another one with an argument, which calls the import, and then calls the import itself.
# (module (import "h" "f" (func (result i32))) (func (export "g") (result i32) i32.const 3 call 2 call 0 i32.add)
#   (func (param i32) (result i32) local.get 0 call 0 i32.add))
WITHIN = bytes.fromhex(
    "0061736d01000000"
    "010a026000017f60017f017f"
    "020701016801660000"
    "0303020001"
    "07050101670001"
    "0a130209004103100210006a0b0700200010006a0b"
)

# A function `g` that calls `k` twice; `k` calls the import, and the host may call it too.
# (module (import "h" "f" (func (result i32))) (func (export "g") (result i32) call 2 call 2 i32.sub)
#   (func (export "k") (result i32) call 0))
BOTH = bytes.fromhex(
    "0061736d01000000"
    "0105016000017f"
    "020701016801660000"
    "0303020000"
    "07090201670001016b0002"
    "0a0e020700100210026b0b040010000b"
)

# The lines of two answers.
ADDED = """
host-call 1; step 1 0 ->; import-call 0; import-return 0 i32:00000005; step 1 1 ->; import-call 0;
import-return 0 i32:00000007; step 1 2 i32:00000005 i32:00000007 -> i32:0000000c; host-return 1 i32:0000000c;
ended
"""

# A name, a module and a script, the turns that the run takes, and the lines.
RUNS = [
    ("two answers", TWO_ANSWERS, ANSWERS, "4", ADDED),
    ("a host that calls nothing", TWO_ANSWERS, b'{"main":[]}', "1", "ended"),
    (
        "two calls of the host",
        TWO_ANSWERS,
        (
            b'{"imports":{"h":{"f":{"calls":[{"return":{"i32":5}},{"return":{"i32":7}},{"return":{"i32":-1}},'
            b'{"return":{"i32":2}}]}}},"main":[{"call":"g"},{"call":"g"}]}'
        ),
        "8",
        """
        host-call 1; step 1 0 ->; import-call 0; import-return 0 i32:00000005; step 1 1 ->; import-call 0;
        import-return 0 i32:00000007; step 1 2 i32:00000005 i32:00000007 -> i32:0000000c; host-return 1 i32:0000000c;
        host-call 1; step 1 0 ->; import-call 0; import-return 0 i32:ffffffff; step 1 1 ->; import-call 0;
        import-return 0 i32:00000002; step 1 2 i32:ffffffff i32:00000002 -> i32:00000001; host-return 1 i32:00000001;
        ended
        """,
    ),
    (
        "a trap",
        DIVISION,
        b'{"imports":{"h":{"f":{"calls":[{"return":{"i32":0}}]}}},"main":[{"call":"g"}]}',
        "4",
        """
        host-call 1; step 1 0 -> i32:00000064; step 1 1 ->; import-call 0; import-return 0 i32:00000000;
        trap 1 2 divide i32:00000064 i32:00000000; trapped
        """,
    ),
    (
        "a function that calls another one with an argument, and an import within",
        WITHIN,
        ANSWERS,
        "8",
        """
        host-call 1; step 1 0 -> i32:00000003; step 1 1 i32:00000003 ->; enter 2; step 2 0 -> i32:00000003;
        step 2 1 ->; import-call 0; import-return 0 i32:00000005; step 2 2 i32:00000003 i32:00000005 -> i32:00000008;
        exit 2 i32:00000008; step 1 2 ->; import-call 0; import-return 0 i32:00000007;
        step 1 3 i32:00000008 i32:00000007 -> i32:0000000f; host-return 1 i32:0000000f; ended
        """,
    ),
    (
        "a function that the host calls, and then the module",
        BOTH,
        (
            b'{"imports":{"h":{"f":{"calls":[{"return":{"i32":9}},{"return":{"i32":4}},{"return":{"i32":6}}]}}},'
            b'"main":[{"call":"k"},{"call":"g"}]}'
        ),
        "8",
        """
        host-call 2; step 2 0 ->; import-call 0; import-return 0 i32:00000009; host-return 2 i32:00000009;
        host-call 1; step 1 0 ->; enter 2; step 2 0 ->; import-call 0; import-return 0 i32:00000004;
        exit 2 i32:00000004; step 1 1 ->; enter 2; step 2 0 ->; import-call 0; import-return 0 i32:00000006;
        exit 2 i32:00000006; step 1 2 i32:00000004 i32:00000006 -> i32:fffffffe; host-return 1 i32:fffffffe; ended
        """,
    ),
    (
        "two imports in turn",
        IN_TURN,
        (
            b'{"imports":{"h":{"f":{"calls":[{"return":{"i32":1}},{"return":{"i32":2}}]},'
            b'"g":{"calls":[{"return":{"i32":10}},{"return":{"i32":20}}]}}},"main":[{"call":"run"}]}'
        ),
        "8",
        """
        host-call 2; step 2 0 ->; import-call 0; import-return 0 i32:00000001; step 2 1 ->; import-call 1;
        import-return 1 i32:0000000a; step 2 2 ->; import-call 0; import-return 0 i32:00000002; step 2 3 ->;
        import-call 1; import-return 1 i32:00000014; step 2 4 i32:00000002 i32:00000014 -> i32:ffffffee;
        step 2 5 i32:0000000a i32:ffffffee -> i32:0000001c; step 2 6 i32:00000001 i32:0000001c -> i32:ffffffe5;
        host-return 2 i32:ffffffe5; ended
        """,
    ),
]

# A name, a module and the lines. Each module has a function 0 in the place of an import, the original 1, and `_start`,
# which is 2, and declares this in a custom section.
BY_HAND = [
    ("it counts the calls and answers 5 and 7", example("replay_two_answers.wasm"), ADDED),
    (
        "it answers 5 and 8",
        # (module (type (func (result i32))) (type (func)) (global (mut i32) (i32.const 0))
        #   (func (type 0) global.get 0 global.get 0 i32.const 1 i32.add global.set 0 if (result i32)
        #     i32.const 8 else i32.const 5 end) (func (type 0) call 0 call 0 i32.add) (func (type 1) call 1 drop)
        #   (export "_start" (func 2))), with a custom section "r3.layout" of the bytes 01 01 at the end
        bytes.fromhex(
            "0061736d010000000108026000017f6000000304030000010606017f0141000b070a01065f737461727400020a2303130023002300"
            "41016a2400047f41080541050b0b0700100010006a0b050010011a0b000c0972332e6c61796f75740101"
        ),
        """
        host-call 1; step 1 0 ->; import-call 0; import-return 0 i32:00000005; step 1 1 ->; import-call 0;
        import-return 0 i32:00000008; step 1 2 i32:00000005 i32:00000008 -> i32:0000000d; host-return 1 i32:0000000d;
        ended
        """,
    ),
    (
        "its import is `unreachable`",
        # (module (type (func (result i32))) (type (func)) (global (mut i32) (i32.const 0))
        #   (func (type 0) unreachable) (func (type 0) call 0 call 0 i32.add) (func (type 1) call 1 drop)
        #   (export "_start" (func 2))), with a custom section "r3.layout" of the bytes 01 01 at the end
        bytes.fromhex(
            "0061736d010000000108026000017f6000000304030000010606017f0141000b070a01065f737461727400020a13030300000b0700"
            "100010006a0b050010011a0b000c0972332e6c61796f75740101"
        ),
        "host-call 1; step 1 0 ->; import-call 0; host-trap; host-trapped",
    ),
    (
        "its original gives 12 without a call",
        # (module (type (func (result i32))) (type (func)) (global (mut i32) (i32.const 0))
        #   (func (type 0) global.get 0 global.get 0 i32.const 1 i32.add global.set 0 if (result i32)
        #     i32.const 7 else i32.const 5 end) (func (type 0) i32.const 12) (func (type 1) call 1 drop)
        #   (export "_start" (func 2))), with a custom section "r3.layout" of the bytes 01 01 at the end
        bytes.fromhex(
            "0061736d010000000108026000017f6000000304030000010606017f0141000b070a01065f737461727400020a2003130023002300"
            "41016a2400047f41070541050b0b0400410c0b050010011a0b000c0972332e6c61796f75740101"
        ),
        "host-call 1; step 1 0 -> i32:0000000c; host-return 1 i32:0000000c; ended",
    ),
    (
        "its `_start` traps in the end",
        # (module (type (func (result i32))) (type (func)) (global (mut i32) (i32.const 0))
        #   (func (type 0) global.get 0 global.get 0 i32.const 1 i32.add global.set 0 if (result i32)
        #     i32.const 7 else i32.const 5 end) (func (type 0) call 0 call 0 i32.add)
        #   (func (type 1) call 1 drop unreachable)
        #   (export "_start" (func 2))), with a custom section "r3.layout" of the bytes 01 01 at the end
        bytes.fromhex(
            "0061736d010000000108026000017f6000000304030000010606017f0141000b070a01065f737461727400020a2403130023002300"
            "41016a2400047f41070541050b0b0700100010006a0b060010011a000b000c0972332e6c61796f75740101"
        ),
        """
        host-call 1; step 1 0 ->; import-call 0; import-return 0 i32:00000005; step 1 1 ->; import-call 0;
        import-return 0 i32:00000007; step 1 2 i32:00000005 i32:00000007 -> i32:0000000c; host-return 1 i32:0000000c;
        host-trap; host-trapped
        """,
    ),
]
