"""Which quantities and imports of valid modules are accepted: the greatest that are, the least that are not, and which
of several faults comes first."""
from module_faults import TAKEN, limit, reserved

# The least of each quantity that is not taken.
LARGE_MEMORY = limit("memory", 4097)
LARGE_TABLE = limit("table", 1000001)
MANY_LOCALS = limit("locals", 50001)

QUANTITIES = [
    # (module (memory 4096))
    ("a memory of 4,096 pages", "0061736d01000000050401008020", TAKEN),
    # (module (memory 4097))
    ("a memory of 4,097 pages", "0061736d01000000050401008120", LARGE_MEMORY),
    # (module (memory 65536))
    ("a memory of 65,536 pages", "0061736d0100000005050100808004", limit("memory", 65536)),
    # (module (table 1000000 funcref))
    ("a table of 1,000,000 entries", "0061736d010000000406017000c0843d", TAKEN),
    # (module (table 1000001 funcref))
    ("a table of 1,000,001 entries", "0061736d010000000406017000c1843d", LARGE_TABLE),
    # (module (table 4294967295 funcref))
    ("a table of 2^32 - 1 entries", "0061736d010000000408017000ffffffff0f", limit("table", 4294967295)),
    # (module (func)), but with 50,000 locals of type i64
    ("50,000 locals", "0061736d01000000010401600000030201000a08010601d086037e0b", TAKEN),
    # (module (func)), but with 25,000 locals of type i32 and 25,000 of type i64
    ("50,000 locals in two runs", "0061736d01000000010401600000030201000a0c010a02a8c3017fa8c3017e0b", TAKEN),
    # (module (func)), but with 25,000 locals of type i32 and 25,001 of type i64
    ("50,001 locals in two runs", "0061736d01000000010401600000030201000a0c010a02a8c3017fa9c3017e0b", MANY_LOCALS),
    # (module (func (param i32))), but with 50,000 locals of type i64
    ("50,000 locals and a parameter", "0061736d0100000001050160017f00030201000a08010601d086037e0b", TAKEN),
    # (module (func)), but with 2^32 - 1 locals of type f32
    ("2^32 - 1 locals", "0061736d01000000010401600000030201000a0a010801ffffffff0f7d0b", limit("locals", 4294967295)),
    (
        "the first of two functions with too many locals",
        # (module (func) (func) (func)), but the second has 50,002 locals of type i32, and the third 50,001
        "0061736d010000000104016000000304030000000a120302000b0601d286037f0b0601d186037f0b",
        limit("locals", 50002),
    ),
    (
        "50,000 locals in each of two functions",
        # (module (func) (func)), but with 50,000 locals of type i32 in each
        "0061736d0100000001040160000003030200000a0f020601d086037f0b0601d086037f0b",
        TAKEN,
    ),
    # (module (memory 4097) (func)), but with 50,001 locals of type i32
    ("a memory before locals", "0061736d01000000010401600000030201000504010081200a08010601d186037f0b", LARGE_MEMORY),
    # (module (table 1000001 funcref) (memory 4097))
    ("a table before a memory", "0061736d010000000406017000c1843d050401008120", LARGE_TABLE),
    (
        "a memory before an import that is reserved",
        # (module (import "r3" "f" (func)) (memory 4097))
        "0061736d0100000001040160000002080102723301660000050401008120",
        LARGE_MEMORY,
    ),
    (
        "an import that is reserved",
        # (module (import "r3" "f" (func (result i32))) (func (export "g") (result i32) call 0 call 0 i32.add))
        "0061736d010000000105016000017f0208010272330166000003020100070501016700010a09010700100010006a0b",
        reserved(0),
    ),
    # (module (import "h" "f" (func)) (import "r3" "f" (func)))
    ("the second import is reserved", "0061736d01000000010401600000020e0201680166000002723301660000", reserved(1)),
    (
        "the first of two that are reserved",
        # (module (import "h" "f" (func)) (import "r3" "f" (global i32)) (import "r3" "f" (func)))
        "0061736d010000000104016000000216030168016600000272330166037f0002723301660000",
        reserved(1),
    ),
    # (module (import "r3" "f" (memory 0)))
    ("a memory that is reserved", "0061736d010000000209010272330166020000", reserved(0)),
    (
        "modules with other names",
        # (module (import "r" "f" (func)) (import "r33" "f" (func)) (import "R3" "f" (func)) (import "" "f" (func))
        #   (import "h" "r3" (func)))
        "0061736d01000000010401600000022205017201660000037233330166000002523301660000000166000001680272330000",
        TAKEN,
    ),
]

IMPORTED = [
    # (module (import "h" "f" (table 1000000 funcref)))
    ("an imported table of 1,000,000 entries at least", "0061736d01000000020b0101680166017000c0843d", TAKEN),
    (
        "an imported table of 1,000,001 entries at least",
        # (module (import "h" "f" (table 1000001 funcref)))
        "0061736d01000000020b0101680166017000c1843d",
        limit("table", 1000001),
    ),
    # (module (import "h" "f" (memory 4096)))
    ("an imported memory of 4,096 pages at least", "0061736d010000000209010168016602008020", TAKEN),
    # (module (import "h" "f" (memory 4097)))
    ("an imported memory of 4,097 pages at least", "0061736d010000000209010168016602008120", limit("memory", 4097)),
]

# One local more than a module may have, which an instrumented module may have.
# (module (func)), but with 50,001 locals of type i64
MORE_LOCALS = "0061736d01000000010401600000030201000a08010601d186037e0b"

# One local more than an instrumented module may have.
# (module (func)), but with 50,006 locals of type i64
TOO_MANY_LOCALS = "0061736d01000000010401600000030201000a08010601d686037e0b"

PARAMETERS = [
    # (module (type (func))), but with 1,000 parameters, which follow these bytes
    ("1,000 parameters of type i32", "0061736d0100000001ed070160e807" + "7f" * 1000 + "00", TAKEN),
    # (module (type (func))), but with 1,001 parameters, which follow these bytes
    ("1,001 parameters of type i32", "0061736d0100000001ee070160e907" + "7f" * 1001 + "00", limit("parameters", 1001)),
    # A table of 1,000,001 entries comes later.
    (
        "1,001 parameters of type i32 before a table",
        # (module (type (func))), but with 1,001 parameters, which follow these bytes
        "0061736d0100000001ee070160e907" + "7f" * 1001 + "000406017000c1843d",
        limit("parameters", 1001),
    ),
    # (module (type (func))), but with 1,000 parameters, which follow these bytes
    ("1,000 parameters of type i64", "0061736d0100000001ed070160e807" + "7e" * 1000 + "00", TAKEN),
    # (module (type (func))), but with 1,001 parameters, which follow these bytes
    ("1,001 parameters of type i64", "0061736d0100000001ee070160e907" + "7e" * 1001 + "00", limit("parameters", 1001)),
]
