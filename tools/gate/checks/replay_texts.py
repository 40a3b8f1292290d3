"""Modules in the form of replay modules, or in a similar form: what `replay` prints for each, or why it prints nothing.
The lines were worked out by hand; there is `;` between them."""
from modules import custom, example
from replay_rows import ADDED

# The name of the custom section that declares how many functions the original imports and defines.
LAYOUT = "r3.layout"

# Sections that declare such numbers.
NONE = custom(LAYOUT, b"\0\0")
ONE_DEFINED = custom(LAYOUT, b"\0\1")
TWO_DEFINED = custom(LAYOUT, b"\0\2")
ONE_AND_ONE = custom(LAYOUT, b"\1\1")
ONE_AND_TWO = custom(LAYOUT, b"\1\2")

# The section that marks a guarded replay.
GUARD = custom("r3.guard", b"")

# Modules without the section that declares their layout.

# The body 0 of an import, which counts its calls and answers 5 and 7, the original 1, which adds two of its answers,
# and `_start`, 2.
TWO_ANSWERS = example("replay_two_answers.wasm").removesuffix(ONE_AND_ONE)

# The original of `TWO_ANSWERS`, which imports a function.
ORIGINAL = example("two_answers.wasm")

# One function, `_start`, which does nothing.
# (module (func (export "_start")))
EMPTY = bytes.fromhex("0061736d0100000001040160000003020100070a01065f737461727400000a040102000b")

# A function with one `nop`, which is the start function, and `_start`, which calls it.
# (module (func nop) (func (export "_start") call 0) (start 0))
START = bytes.fromhex("0061736d010000000104016000000303020000070a01065f737461727400010801000a0a020300010b040010000b")

# One function, `_start`, which traps.
# (module (func (export "_start") unreachable))
TRAP = bytes.fromhex("0061736d0100000001040160000003020100070a01065f737461727400000a05010300000b")

# One function, `_start`, which traps in its second instruction.
# (module (func (export "_start") nop unreachable))
LATE_TRAP = bytes.fromhex("0061736d0100000001040160000003020100070a01065f737461727400000a0601040001000b")

# `_start`, and an exported global after it.
# (module (global i32 i32.const 0) (func (export "_start")) (export "passed" (global 0)))
WITH_GLOBAL = bytes.fromhex(
    "0061736d01000000010401600000030201000606017f0041000b071302065f73746172740000067061737365640300" "0a040102000b"
)

# `_start` under another name, and an exported global.
# (module (global i32 i32.const 0) (func (export "start")) (export "passed" (global 0)))
OTHER_NAME_WITH_GLOBAL = bytes.fromhex(
    "0061736d01000000010401600000030201000606017f0041000b07120205737461727400000670617373656403000a040102000b"
)

# An exported global alone.
# (module (global i32 i32.const 0) (func) (export "passed" (global 0)))
GLOBAL_ALONE = bytes.fromhex("0061736d01000000010401600000030201000606017f0041000b070a010670617373656403000a040102000b")

# A name, a module, the section behind it that declares its layout, the turns, and the lines.
SHOWN = [
    ("two answers", TWO_ANSWERS, ONE_AND_ONE, "19", ADDED),
    (
        "`_start` is an original too",
        TWO_ANSWERS,
        ONE_AND_TWO,
        "19",
        """
        host-call 2; step 2 0 ->; enter 1; step 1 0 ->; import-call 0; import-return 0 i32:00000005; step 1 1 ->;
        import-call 0; import-return 0 i32:00000007; step 1 2 i32:00000005 i32:00000007 -> i32:0000000c;
        exit 1 i32:0000000c; step 2 1 i32:0000000c ->; host-return 2; ended
        """,
    ),
    ("nothing to do", EMPTY, NONE, "1", "ended"),
    ("an original that does nothing", EMPTY, ONE_DEFINED, "1", "host-call 0; host-return 0; ended"),
    (
        "a start function",
        START,
        ONE_DEFINED,
        "3",
        "host-call 0; step 0 0 ->; host-return 0; host-call 0; step 0 0 ->; host-return 0; ended",
    ),
    (
        "a start function that an original calls too",
        START,
        TWO_DEFINED,
        "3",
        """
        host-call 0; step 0 0 ->; host-return 0; host-call 1; step 1 0 ->; enter 0; step 0 0 ->; exit 0;
        host-return 1; ended
        """,
    ),
    (
        "references",
        # (module (table 1 funcref) (func (export "_start")
        #   i32.const 0 ref.null func table.set 0 i32.const 0 ref.func 0 table.set 0))
        bytes.fromhex(
            "0061736d0100000001040160000003020100040401700001070a01065f737461727400000a10010e004100d07026004100d2002600"
            "0b"
        ),
        ONE_DEFINED,
        "6",
        """
        host-call 0; step 0 0 -> i32:00000000; step 0 1 -> funcref:0000000000000000;
        step 0 2 i32:00000000 funcref:0000000000000000 ->; step 0 3 -> i32:00000000;
        step 0 4 -> funcref:0000000000000001; step 0 5 i32:00000000 funcref:0000000000000001 ->; host-return 0; ended
        """,
    ),
    (
        "a call within an import, and a helper",
        # (module (type (func (param i32) (result i32))) (func (type 0) local.get 0 call 2)
        #   (func i32.const 7 call 0 drop) (func (type 0) local.get 0 call 3) (func (type 0) local.get 0)
        #   (func (export "_start") call 1))
        bytes.fromhex(
            "0061736d0100000001090260017f017f6000000306050001000001070a01065f737461727400040a21050600200010020b07004107"
            "10001a0b0600200010030b040020000b040010010b"
        ),
        ONE_AND_TWO,
        "9",
        """
        host-call 1; step 1 0 -> i32:00000007; step 1 1 i32:00000007 ->; import-call 0 i32:00000007;
        host-call 2 i32:00000007; step 2 0 -> i32:00000007; step 2 1 i32:00000007 ->; host-return 2 i32:00000007;
        import-return 0 i32:00000007; step 1 2 i32:00000007 ->; host-return 1; ended
        """,
    ),
    (
        "an original through a table",
        # (module (type (func (param i32))) (table 1 funcref) (elem (i32.const 0) 1)
        #   (func i32.const 9 i32.const 0 call_indirect (type 0)) (func (type 0) nop) (func (export "_start") call 0))
        bytes.fromhex(
            "0061736d0100000001080260017f00600000030403010001040401700001070a01065f737461727400020907010041000b01010a14"
            "030900410941001100000b0300010b040010000b"
        ),
        TWO_DEFINED,
        "5",
        """
        host-call 0; step 0 0 -> i32:00000009; step 0 1 -> i32:00000000;
        step 0 2 i32:00000009 i32:00000000 -> found 1; enter 1; step 1 0 ->; exit 1; host-return 0; ended
        """,
    ),
    (
        "an import through a table",
        # (module (type (func (param i32))) (table 1 funcref) (elem (i32.const 0) 0)
        #   (func (type 0) nop) (func i32.const 9 i32.const 0 call_indirect (type 0)) (func (export "_start") call 1))
        bytes.fromhex(
            "0061736d0100000001080260017f00600000030403000101040401700001070a01065f737461727400020907010041000b01000a14"
            "030300010b0900410941001100000b040010010b"
        ),
        ONE_AND_ONE,
        "5",
        """
        host-call 1; step 1 0 -> i32:00000009; step 1 1 -> i32:00000000;
        step 1 2 i32:00000009 i32:00000000 -> found 0; import-call 0 i32:00000009; import-return 0; host-return 1;
        ended
        """,
    ),
    ("a trap of an original", TRAP, ONE_DEFINED, "1", "host-call 0; trap 0 0 unreachable; trapped"),
    ("a trap outside", TRAP, NONE, "1", "host-trap; host-trapped"),
    ("a trap outside in the last turn", LATE_TRAP, NONE, "2", "host-trap; host-trapped"),
    ("another section beside it", EMPTY, custom("r3", b"\0\1") + ONE_DEFINED, "9", "host-call 0; host-return 0; ended"),
    ("a guarded replay", WITH_GLOBAL, ONE_DEFINED + GUARD, "1", "host-call 0; host-return 0; ended"),
    ("a guarded replay without a global", EMPTY, GUARD + ONE_DEFINED, "1", "host-call 0; host-return 0; ended"),
    (
        "a guarded replay that is marked twice, once with bytes",
        WITH_GLOBAL,
        GUARD + ONE_DEFINED + custom("r3.guard", b"\1"),
        "1",
        "host-call 0; host-return 0; ended",
    ),
    (
        "a guarded replay with a global before `_start`",
        # (module (global i32 i32.const 0) (global i32 i32.const 0) (export "begun" (global 0)) (func (export "_start"))
        #   (export "passed" (global 1)))
        bytes.fromhex(
            "0061736d0100000001040160000003020100060b027f0041000b7f0041000b071b0305626567756e0300065f737461727400000670"
            "617373656403010a040102000b"
        ),
        ONE_DEFINED + GUARD,
        "1",
        "host-call 0; host-return 0; ended",
    ),
]

# Modules that `replay` refuses, with the same parts before the status and the line of error.
REFUSED = [
    ("a turn too few", TWO_ANSWERS, ONE_AND_ONE, "18", 12, "turns spent: 18"),
    ("no turn", TWO_ANSWERS, ONE_AND_ONE, "0", 2, "usage"),
    ("a turn alone", TWO_ANSWERS, ONE_AND_ONE, "1", 12, "turns spent: 1"),
    ("a start function, and a turn too few", START, ONE_DEFINED, "2", 12, "turns spent: 2"),
    ("a start function, and turns for it alone", START, ONE_DEFINED, "1", 12, "turns spent: 1"),
    ("no turn for a trap", TRAP, NONE, "0", 2, "usage"),
    ("a turn too few for a trap", LATE_TRAP, NONE, "1", 12, "turns spent: 1"),
    ("no layout", EMPTY, b"", "9", 17, "replay: layout"),
    ("no layout, and imports", ORIGINAL, b"", "9", 17, "replay: layout"),
    ("two layouts", EMPTY, ONE_DEFINED * 2, "9", 17, "replay: layout"),
    ("more functions than there are", EMPTY, ONE_AND_ONE, "9", 17, "replay: layout"),
    ("one function more than there are", TWO_ANSWERS, custom(LAYOUT, b"\1\3"), "19", 17, "replay: layout"),
    ("no numbers", EMPTY, custom(LAYOUT, b""), "9", 17, "replay: layout"),
    ("one number", EMPTY, custom(LAYOUT, b"\0"), "9", 17, "replay: layout"),
    ("a third number", EMPTY, custom(LAYOUT, b"\0\1\0"), "9", 17, "replay: layout"),
    ("a first number that is longer than it has to be", EMPTY, custom(LAYOUT, b"\x80\0\1"), "9", 17, "replay: layout"),
    ("a second one", EMPTY, custom(LAYOUT, b"\0\x81\0"), "9", 17, "replay: layout"),
    ("a number of six bytes", EMPTY, custom(LAYOUT, b"\0\x81\x80\x80\x80\x80\0"), "9", 17, "replay: layout"),
    ("numbers whose sum passes 32 bits", EMPTY, custom(LAYOUT, b"\xff\xff\xff\xff\x0f\2"), "9", 17, "replay: layout"),
    ("a longer name", EMPTY, custom("r3.layouts", b"\0\1"), "9", 17, "replay: layout"),
    ("an imported function", ORIGINAL, ONE_AND_ONE, "9", 17, "replay: imports"),
    (
        "an imported memory",
        # (module (import "h" "m" (memory 1)) (func (export "_start")))
        bytes.fromhex("0061736d010000000104016000000208010168016d02000103020100070a01065f737461727400000a040102000b"),
        ONE_DEFINED,
        "9",
        17,
        "replay: imports",
    ),
    (
        "an import from `r3`",
        # (module (import "r3" "m" (memory 1)))
        bytes.fromhex("0061736d01000000020901027233016d020001"),
        NONE,
        "9",
        8,
        "reserved: import 0",
    ),
    (
        "no export",
        # (module (func))
        bytes.fromhex("0061736d01000000010401600000030201000a040102000b"),
        ONE_DEFINED,
        "9",
        17,
        "replay: entry",
    ),
    (
        "two exports",
        # (module (func (export "_start") (export "again")))
        bytes.fromhex("0061736d0100000001040160000003020100071202065f7374617274000005616761696e00000a040102000b"),
        ONE_DEFINED,
        "9",
        17,
        "replay: entry",
    ),
    ("an exported global", WITH_GLOBAL, ONE_DEFINED, "9", 17, "replay: entry"),
    ("a longer mark", WITH_GLOBAL, ONE_DEFINED + custom("r3.guards", b""), "9", 17, "replay: entry"),
    ("a shorter mark", WITH_GLOBAL, ONE_DEFINED + custom("r3.guar", b""), "9", 17, "replay: entry"),
    ("a guarded replay without a layout", WITH_GLOBAL, GUARD, "9", 17, "replay: layout"),
    ("a guarded replay without a function", GLOBAL_ALONE, ONE_DEFINED + GUARD, "9", 17, "replay: entry"),
    ("a guarded replay of another name", OTHER_NAME_WITH_GLOBAL, ONE_DEFINED + GUARD, "9", 17, "replay: entry"),
    (
        "a global `_start` of a guarded replay",
        # (module (global i32 i32.const 0) (func) (export "_start" (global 0)))
        bytes.fromhex("0061736d01000000010401600000030201000606017f0041000b070a01065f737461727403000a040102000b"),
        ONE_DEFINED + GUARD,
        "9",
        17,
        "replay: entry",
    ),
    (
        "a guarded replay with a memory",
        # (module (memory 1) (func (export "_start")) (export "memory" (memory 0)))
        bytes.fromhex(
            "0061736d01000000010401600000030201000503010001071302065f73746172740000066d656d6f727902000a040102000b"
        ),
        ONE_DEFINED + GUARD,
        "9",
        17,
        "replay: entry",
    ),
    (
        "a guarded replay with two functions",
        # (module (global i32 i32.const 0) (func (export "_start") (export "again")) (export "passed" (global 0)))
        bytes.fromhex(
            "0061736d01000000010401600000030201000606017f0041000b071b03065f7374617274000005616761696e0000067061737365"
            "6403000a040102000b"
        ),
        ONE_DEFINED + GUARD,
        "9",
        17,
        "replay: entry",
    ),
    (
        "another name",
        # (module (func (export "start")))
        bytes.fromhex("0061736d010000000104016000000302010007090105737461727400000a040102000b"),
        ONE_DEFINED,
        "9",
        17,
        "replay: entry",
    ),
    (
        "a memory",
        # (module (func) (memory (export "_start") 1))
        bytes.fromhex("0061736d01000000010401600000030201000503010001070a01065f737461727402000a040102000b"),
        ONE_DEFINED,
        "9",
        17,
        "replay: entry",
    ),
    (
        "a result",
        # (module (func (export "_start") (result i32) i32.const 0))
        bytes.fromhex("0061736d010000000105016000017f03020100070a01065f737461727400000a0601040041000b"),
        ONE_DEFINED,
        "9",
        17,
        "replay: entry",
    ),
    (
        "a parameter",
        # (module (func (export "_start") (param i32)))
        bytes.fromhex("0061736d0100000001050160017f0003020100070a01065f737461727400000a040102000b"),
        ONE_DEFINED,
        "9",
        17,
        "replay: entry",
    ),
    (
        "a data segment",
        # (module (memory 1) (func (export "_start")) (data (i32.const 0) "A") (data (i32.const 65536) "A"))
        bytes.fromhex(
            "0061736d01000000010401600000030201000503010001070a01065f737461727400000a040102000b0b0f020041000b0141004180"
            "80040b0141"
        ),
        ONE_DEFINED,
        "9",
        10,
        "link: segment 1",
    ),
    (
        "an element segment",
        # (module (table 1 funcref) (memory 1) (func (export "_start")) (elem (i32.const 1) 0)
        #   (data (i32.const 65536) "A"))
        bytes.fromhex(
            "0061736d01000000010401600000030201000404017000010503010001070a01065f737461727400000907010041010b01000a0401"
            "02000b0b090100418080040b0141"
        ),
        ONE_DEFINED,
        "9",
        10,
        "link: segment 0",
    ),
    (
        "a data segment, and no export",
        # (module (memory 1) (func) (data (i32.const 65536) "A"))
        bytes.fromhex("0061736d010000000104016000000302010005030100010a040102000b0b090100418080040b0141"),
        ONE_DEFINED,
        "9",
        17,
        "replay: entry",
    ),
    # malformed: four bytes of eight
    ("half a header", bytes.fromhex("0061736d"), b"", "9", 5, "malformed: at 0"),
    (
        "a body that is not valid",
        # (module (func (export "_start") i32.const 0))
        bytes.fromhex("0061736d0100000001040160000003020100070a01065f737461727400000a0601040041000b"),
        ONE_DEFINED,
        "9",
        6,
        "invalid: function 0",
    ),
    (
        "an instruction that is refused",
        # (module (func (export "_start") f32.const 0 f32.abs drop))
        bytes.fromhex("0061736d0100000001040160000003020100070a01065f737461727400000a0b01090043000000008b1a0b"),
        ONE_DEFINED,
        "9",
        7,
        "unsupported: function 0 instruction 1 float arithmetic",
    ),
    (
        "a large memory",
        # (module (memory 4097))
        bytes.fromhex("0061736d01000000050401008120"),
        NONE,
        "9",
        8,
        "limit: memory 4097",
    ),
]
