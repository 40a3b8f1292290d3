"""Modules of pairs, each of which is for one side."""
from modules import example

FLOAT_BODY = example("float_body.wasm")
OVERWRITE = example("overwrite.wasm")
TABLE_ENTRY = example("table_entry.wasm")
TWO_ANSWERS = example("two_answers.wasm")

# It adds what two calls of the right module's `f` give.
# (module (type (func (result i32))) (import "right" "f" (func (type 0)))
#   (func (type 0) call 0 call 0 i32.add) (export "g" (func 1)))
LEFT_ADDER = bytes.fromhex(
    "0061736d010000000105016000017f020b010572696768740166000003020100070501016700010a09010700100010006a0b"
)

# It adds 1 to what the host gives.
# (module (type (func (result i32))) (import "h" "f" (func (type 0)))
#   (func (type 0) call 0 i32.const 1 i32.add) (export "f" (func 1)))
RIGHT_ADDER = bytes.fromhex(
    "0061736d010000000105016000017f02070101680166000003020100070501016600010a09010700100041016a0b"
)

# It adds 1 to what the right module's `run` gives; its `back` calls the right module's `four`.
# (module (type (func (result i32))) (import "right" "run" (func (type 0))) (import "right" "four" (func (type 0)))
#   (func (type 0) call 0 i32.const 1 i32.add) (func (type 0) call 1)
#   (export "g" (func 2)) (export "back" (func 3)))
CALLS_RUN = bytes.fromhex(
    "0061736d010000000105016000017f021a020572696768740372756e000005726967687404666f757200000303020000070c02016700"
    "02046261636b00030a0e020700100041016a0b040010010b"
)

# Its `run` calls the host, and its `four` returns 4.
# (module (type (func (result i32))) (import "h" "f" (func (type 0))) (func (type 0) call 0)
#   (func (type 0) i32.const 4) (export "run" (func 1)) (export "four" (func 2)))
CALLS_HOST = bytes.fromhex(
    "0061736d010000000105016000017f0207010168016600000303020000070e020372756e000104666f757200020a0b02040010000b04"
    "0041040b"
)

# It calls the right module's `f` with 7.
# (module (type (func (param i32) (result i32))) (type (func (result i32))) (import "right" "f" (func (type 0)))
#   (func (type 1) i32.const 7 call 0) (export "g" (func 1)))
PASSES_SEVEN = bytes.fromhex(
    "0061736d01000000010a0260017f017f6000017f020b010572696768740166000003020101070501016700010a08010600410710000b"
)

# It traps after its first instruction.
# (module (type (func (param i32) (result i32))) (func (type 0) local.get 0 unreachable) (export "f" (func 0)))
TRAPS_LATE = bytes.fromhex("0061736d0100000001060160017f017f03020100070501016600000a070105002000000b")

# It has a mutable global, which the right module's `bump` changes, and an immutable one.
# (module (type (func)) (type (func (result i32))) (import "right" "bump" (func (type 0)))
#   (func (type 1) call 0 global.get 0) (global (mut i32) (i32.const 10)) (global i32 (i32.const 3))
#   (export "g" (func 1)) (export "count" (global 0)) (export "step" (global 1)))
HAS_COUNTER = bytes.fromhex(
    "0061736d010000000108026000006000017f020e010572696768740462756d70000003020101060b027f01410a0b7f0041030b071403"
    "0167000105636f756e740300047374657003010a08010600100023000b"
)

# It adds a global of its own, which begins as the left module's immutable one, to the mutable one.
# (module (type (func)) (import "left" "count" (global (mut i32))) (import "left" "step" (global i32))
#   (func (type 0) global.get 0 global.get 2 i32.add global.set 0) (global (mut i32) (global.get 1))
#   (export "bump" (func 0)))
ADDS_STEP = bytes.fromhex(
    "0061736d01000000010401600000021c02046c65667405636f756e74037f01046c6566740473746570037f00030201000606017f0123"
    "010b0708010462756d7000000a0b010900230023026a24000b"
)

# It has a table with its one function, which returns 7.
# (module (type (func (result i32))) (func (type 0) i32.const 7) (table 2 funcref) (export "t" (table 0))
#   (elem (i32.const 0) 0))
HAS_TABLE = bytes.fromhex(
    "0061736d010000000105016000017f03020100040401700002070501017401000907010041000b01000a0601040041070b"
)

# It puts its one function second into the left module's table; it calls what is first there, by its second type.
# (module (type (func)) (type (func (result i32))) (import "left" "t" (table 1 funcref))
#   (func (type 1) i32.const 0 call_indirect (type 1)) (elem (i32.const 1) 0))
CALLS_FIRST = bytes.fromhex(
    "0061736d010000000108026000006000017f020c01046c656674017401700001030201010907010041010b01000a0901070041001101"
    "000b"
)

# It calls the right module's `a`; its `b` is the right module's `c`.
# (module (type (func (result i32))) (import "right" "a" (func (type 0))) (import "right" "c" (func (type 0)))
#   (func (type 0) call 0) (export "b" (func 1)) (export "g" (func 2)))
PASSES_ON_C = bytes.fromhex(
    "0061736d010000000105016000017f02150205726967687401610000057269676874016300000302010007090201620001016700020a"
    "0601040010000b"
)

# Its `a` is the left module's `b`, and its `c` returns 8.
# (module (type (func (result i32))) (import "left" "b" (func (type 0))) (func (type 0) i32.const 8)
#   (export "a" (func 0)) (export "c" (func 1)))
PASSES_ON_B = bytes.fromhex(
    "0061736d010000000105016000017f020a01046c656674016200000302010007090201610000016300010a0601040041080b"
)

# It has a memory, into which the right module's `put` stores.
# (module (type (func (param i32))) (type (func (result i32))) (import "right" "put" (func (type 0)))
#   (func (type 1) i32.const 5 call 0 i32.const 8 i32.load) (memory 1)
#   (export "m" (memory 0)) (export "g" (func 1)) (data (i32.const 8) "\01\02\03"))
HAS_MEMORY = bytes.fromhex(
    "0061736d0100000001090260017f006000017f020d01057269676874037075740000030201010503010001070902016d020001670001"
    "0a0d010b004105100041082802000b0b09010041080b03010203"
)

# It stores one byte into the left module's memory, of which it sets another one by a segment.
# (module (type (func (param i32))) (import "left" "m" (memory 1))
#   (func (type 0) i32.const 8 local.get 0 i32.store8) (export "put" (func 0)) (data (i32.const 9) "\07"))
STORES_BYTE = bytes.fromhex(
    "0061736d0100000001050160017f00020b01046c656674016d020001030201000707010370757400000a0b010900410820003a00000b"
    "0b07010041090b0107"
)

# It has a byte in its memory at an offset that is the right module's global.
# (module (type (func (result i32))) (import "right" "base" (global i32))
#   (func (type 0) i32.const 16 i32.load8_u) (memory 1) (export "g" (func 0)) (data (global.get 0) "\2a"))
OFFSET_MEMORY = bytes.fromhex(
    "0061736d010000000105016000017f020f010572696768740462617365037f00030201000503010001070501016700000a0901070041"
    "102d00000b0b07010023000b012a"
)

# It passes on a global of the host's.
# (module (import "h" "b" (global i32)) (export "base" (global 0)))
PASSES_OFFSET = bytes.fromhex("0061736d0100000002080101680162037f0007080104626173650300")

# It starts with a function of the left module's, which is the host's.
# (module (type (func)) (import "left" "f" (func (type 0))) (func (type 0) call 0) (start 1))
STARTS_LEFT = bytes.fromhex("0061736d01000000010401600000020a01046c65667401660000030201000801010a0601040010000b")

# It passes on a function of the host's, and calls another import of these names.
# (module (type (func)) (import "h" "f" (func (type 0))) (import "h" "f" (func (type 0))) (func (type 0) call 1)
#   (export "f" (func 0)) (export "g" (func 2)))
PASSES_HOST = bytes.fromhex(
    "0061736d01000000010401600000020d020168016600000168016600000302010007090201660000016700020a0601040010010b"
)

# It has a start function.
# (module (type (func)) (func (type 0)) (start 0))
STARTS = bytes.fromhex("0061736d01000000010401600000030201000801000a040102000b")

# Its `f` is the right module's `f`, its second import.
# (module (type (func (result i32))) (import "h" "f" (func (type 0))) (import "right" "f" (func (type 0)))
#   (export "f" (func 1)))
SECOND_PASSED_ON = bytes.fromhex("0061736d010000000105016000017f0211020168016600000572696768740166000007050101660001")

# Its `f` is the left module's `f`.
# (module (type (func (result i32))) (import "left" "f" (func (type 0))) (export "f" (func 0)))
PASSED_BACK = bytes.fromhex("0061736d010000000105016000017f020a01046c6566740166000007050101660000")

# It has a global that begins as one of the host's.
# (module (import "h" "x" (global i32)) (global i32 (global.get 0)) (export "x" (global 1)))
NO_CONSTANT = bytes.fromhex("0061736d0100000002080101680178037f000606017f0023000b07050101780301")

# It imports an immutable global.
# (module (import "left" "x" (global i32)))
WANTS_GLOBAL = bytes.fromhex("0061736d01000000020b01046c6566740178037f00")

# It adds what two calls of the right module's `f` give, of another type.
# (module (type (func (result i64))) (import "right" "f" (func (type 0)))
#   (func (type 0) call 0 call 0 i64.add) (export "g" (func 1)))
LONG_ADDER = bytes.fromhex(
    "0061736d010000000105016000017e020b010572696768740166000003020100070501016700010a09010700100010007c0b"
)

# It imports the left module's memory with two pages.
# (module (import "left" "m" (memory 2)))
WANTS_PAGES = bytes.fromhex("0061736d01000000020b01046c656674016d020002")

# It imports a function of another type, and one that is not there.
# (module (type (func)) (import "right" "f" (func (type 0))) (import "right" "x" (func (type 0))))
WANTS_NOTHING_THERE = bytes.fromhex("0061736d010000000104016000000215020572696768740166000005726967687401780000")

# It exports a global as `f`.
# (module (global i32 (i32.const 0)) (export "f" (global 0)))
HAS_F_GLOBAL = bytes.fromhex("0061736d010000000606017f0041000b07050101660300")

# It exports a memory of one page.
# (module (memory 1) (export "m" (memory 0)))
ONE_PAGE = bytes.fromhex("0061736d010000000503010001070501016d0200")

# It has a memory, a table and a start function.
# (module (type (func)) (func (type 0)) (table 0 funcref) (memory 0) (start 0))
ALL_TWICE = bytes.fromhex("0061736d010000000104016000000302010004040170000005030100000801000a040102000b")

# It has a table with its one function, and an empty memory into which it puts a byte.
# (module (type (func)) (func (type 0)) (table 1 funcref) (memory 0) (export "t" (table 0))
#   (elem (i32.const 0) 0) (data (i32.const 0) "\01"))
PAST_MEMORY = bytes.fromhex(
    "0061736d01000000010401600000030201000404017000010503010000070501017401000907010041000b01000a040102000b0b0701"
    "0041000b0101"
)

# It puts its function into the left module's table, and then twice, where there is one entry.
# (module (type (func)) (import "left" "t" (table 1 funcref)) (func (type 0)) (elem (i32.const 0) 0)
#   (elem (i32.const 0) 0 0))
PAST_TABLE = bytes.fromhex(
    "0061736d01000000010401600000020c01046c65667401740170000103020100090e020041000b01000041000b0200000a040102000b"
)
