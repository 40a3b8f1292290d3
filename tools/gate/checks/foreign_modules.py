"""Modules whose table a host fills with functions of its own."""
from modules import example

FLOAT_BODY = example("float_body.wasm")
TABLE_ENTRY = example("table_entry.wasm")

# It lets the host fill its table and calls the first entry of the type `[] -> [i32]`; its second function calls its
# third.
# (module (type (func)) (type (func (result i32))) (import "h" "f" (func (type 0))) (table 2 funcref)
#   (func (type 1) call 0 i32.const 0 call_indirect (type 1))
#   (func (type 1) call 3 i32.const 1 i32.add) (func (type 1) i32.const 7)
#   (export "g" (func 1)) (export "e" (func 2)) (export "t" (table 0)))
CALLED_BACK = bytes.fromhex(
    "0061736d010000000108026000006000017f020701016801660000030403010101040401700002070d03016700010165000201740100"
    "0a18030900100041001101000b0700100341016a0b040041070b"
)

# It imports its table, puts its one function first, and calls what is second in the table.
# (module (type (func (param i32) (result i32))) (type (func (result i32))) (import "h" "t" (table 1 funcref))
#   (func (type 1) i32.const 5 i32.const 1 call_indirect (type 0)) (export "g" (func 0)) (elem (i32.const 0) 0))
IMPORTED_TABLE = bytes.fromhex(
    "0061736d01000000010a0260017f017f6000017f020901016801740170000103020101070501016700000907010041000b01000a0b01"
    "0900410541011100000b"
)

# It imports a function from `foreign`.
# (module (type (func)) (import "foreign" "f" (func (type 0))))
FOREIGN_IMPORT = bytes.fromhex("0061736d01000000010401600000020d0107666f726569676e01660000")
