"""Indices that do not exist (Core 1.0, 3.4), and the place of a module with several faults."""
from module_faults import OUTSIDE, TAKEN, invalid
from modules import example

INDICES = [
    # (module (type (func)) (import "h" "f" (func (type 1))))
    ("an imported function of a type that is not there", "0061736d01000000010401600000020701016801660001", OUTSIDE),
    (
        "a second import of a type that is not there",
        # (module (import "h" "f" (func)) (import "h" "f" (func (type 1))))
        "0061736d01000000010401600000020d02016801660000016801660001",
        OUTSIDE,
    ),
    # (module (type (func)) (func (type 1)))
    ("a function of a type that is not there", "0061736d01000000010401600000030201010a040102000b", OUTSIDE),
    (
        "a second function of a type that is not there",
        # (module (func) (func (type 1)))
        "0061736d0100000001040160000003030200010a070202000b02000b",
        OUTSIDE,
    ),
    # (module (func (type 0)))
    ("a function of a type without types", "0061736d01000000030201000a040102000b", OUTSIDE),
    # (module (export "a" (func 0)))
    ("an export of a function without one", "0061736d0100000007050101610000", OUTSIDE),
    # (module (export "a" (table 0)))
    ("an export of a table without one", "0061736d0100000007050101610100", OUTSIDE),
    # (module (export "a" (memory 0)))
    ("an export of a memory without one", "0061736d0100000007050101610200", OUTSIDE),
    # (module (export "a" (global 0)))
    ("an export of a global without one", "0061736d0100000007050101610300", OUTSIDE),
    (
        "exports of the last of each kind",
        # (module (import "h" "f" (func)) (import "h" "f" (global i32)) (table 0 funcref) (memory 0)
        #   (global i32 (i32.const 0)) (func) (export "a" (func 1)) (export "b" (table 0)) (export "c" (memory 0))
        #   (export "d" (global 1)))
        "0061736d01000000010401600000020e0201680166000001680166037f00030201000404017000000503010000"
        "0606017f0041000b071104016100010162010001630200016403010a040102000b",
        TAKEN,
    ),
    (
        "an export of a function after the last",
        # (module (import "h" "f" (func)) (import "h" "f" (global i32)) (table 0 funcref) (memory 0)
        #   (global i32 (i32.const 0)) (func) (export "a" (func 2)))
        "0061736d01000000010401600000020e0201680166000001680166037f00030201000404017000000503010000"
        "0606017f0041000b070501016100020a040102000b",
        OUTSIDE,
    ),
    (
        "an export of a table after the last",
        # (module (import "h" "f" (func)) (import "h" "f" (global i32)) (table 0 funcref) (memory 0)
        #   (global i32 (i32.const 0)) (func) (export "a" (table 1)))
        "0061736d01000000010401600000020e0201680166000001680166037f00030201000404017000000503010000"
        "0606017f0041000b070501016101010a040102000b",
        OUTSIDE,
    ),
    (
        "an export of a memory after the last",
        # (module (import "h" "f" (func)) (import "h" "f" (global i32)) (table 0 funcref) (memory 0)
        #   (global i32 (i32.const 0)) (func) (export "a" (memory 1)))
        "0061736d01000000010401600000020e0201680166000001680166037f00030201000404017000000503010000"
        "0606017f0041000b070501016102010a040102000b",
        OUTSIDE,
    ),
    (
        "an export of a global after the last",
        # (module (import "h" "f" (func)) (import "h" "f" (global i32)) (table 0 funcref) (memory 0)
        #   (global i32 (i32.const 0)) (func) (export "a" (global 2)))
        "0061736d01000000010401600000020e0201680166000001680166037f00030201000404017000000503010000"
        "0606017f0041000b070501016103020a040102000b",
        OUTSIDE,
    ),
    (
        "exports of imports",
        # (module (import "h" "f" (func)) (import "h" "f" (table 0 funcref)) (import "h" "f" (memory 0))
        #   (import "h" "f" (global (mut i32))) (export "a" (func 0)) (export "b" (table 0)) (export "c" (memory 0))
        #   (export "d" (global 0)))
        "0061736d01000000010401600000021d0401680166000001680166017000000168016602000001680166037f01"
        "07110401610000016201000163020001640300",
        TAKEN,
    ),
    # (module (start 0))
    ("a start function that is not there", "0061736d01000000080100", OUTSIDE),
    # (module (func) (start 1))
    ("a start function after the last", "0061736d01000000010401600000030201000801010a040102000b", OUTSIDE),
    # (module (elem (i32.const 0)))
    ("a table of an element segment that is not there", "0061736d010000000906010041000b00", OUTSIDE),
    # (module (table 1 funcref) (elem (i32.const 0))), but the segment is of table 1
    ("a second table of an element segment", "0061736d010000000404017000010906010141000b00", OUTSIDE),
    (
        "a function of an element segment that is not there",
        # (module (table 1 funcref) (func) (elem (i32.const 0) 1))
        "0061736d01000000010401600000030201000404017000010907010041000b01010a040102000b",
        OUTSIDE,
    ),
    (
        "a last function of an element segment that is not there",
        # (module (table 3 funcref) (func) (elem (i32.const 0) 0 0 1))
        "0061736d01000000010401600000030201000404017000030909010041000b030000010a040102000b",
        OUTSIDE,
    ),
    (
        "functions of an element segment",
        # (module (import "h" "f" (func)) (table 3 funcref) (func) (elem (i32.const 0) 0 1 0))
        "0061736d01000000010401600000020701016801660000030201000404017000030909010041000b030001000a040102000b",
        TAKEN,
    ),
    # (module (data (i32.const 0)))
    ("a memory of a data segment that is not there", "0061736d010000000b06010041000b00", OUTSIDE),
    # (module (memory 1) (data (i32.const 0))), but the segment is of memory 1
    ("a second memory of a data segment", "0061736d0100000005030100010b06010141000b00", OUTSIDE),
    # (module (global i32 (global.get 1)))
    ("a global of a constant expression that is not there", "0061736d010000000606017f0023010b", OUTSIDE),
    (
        "a global of the offset of an element segment that is not there",
        # (module (table 1 funcref) (elem (global.get 0)))
        "0061736d010000000404017000010906010023000b00",
        OUTSIDE,
    ),
    (
        "a global of the offset of a data segment that is not there",
        # (module (memory 1) (data (global.get 0)))
        "0061736d0100000005030100010b06010023000b00",
        OUTSIDE,
    ),
]

FAULTS = [
    # (module (func drop))
    ("a faulty body alone", "0061736d01000000010401600000030201000a050103001a0b", invalid(0)),
    # (module (memory 2 1) (func drop))
    ("a faulty body and limits of a memory", "0061736d01000000010401600000030201000504010102010a050103001a0b", OUTSIDE),
    (
        "a faulty body and a type with two results",
        # (module (type (func)) (type (func (result i32 i32))) (func (type 0) drop))
        "0061736d010000000109026000006000027f7f030201000a050103001a0b",
        OUTSIDE,
    ),
    (
        "a faulty body and an export name twice",
        # (module (func (export "a") (export "a") drop))
        "0061736d010000000104016000000302010007090201610000016100000a050103001a0b",
        OUTSIDE,
    ),
    (
        "a faulty body and a start function that is not there",
        # (module (func drop) (start 1))
        "0061736d01000000010401600000030201000801010a050103001a0b",
        OUTSIDE,
    ),
    (
        "a faulty body and a constant expression of another type",
        # (module (global i32 (i64.const 0)) (func drop))
        "0061736d01000000010401600000030201000606017f0042000b0a050103001a0b",
        OUTSIDE,
    ),
    # (module (memory 0) (memory 0) (func drop))
    ("a faulty body and two memories", "0061736d0100000001040160000003020100050502000000000a050103001a0b", OUTSIDE),
    # (module (table 0 funcref) (table 0 funcref) (func drop))
    ("a faulty body and two tables", "0061736d01000000010401600000030201000407027000007000000a050103001a0b", OUTSIDE),
    (
        "a faulty body and a data segment without a memory",
        # (module (func drop) (data (i32.const 0)))
        "0061736d01000000010401600000030201000a050103001a0b0b06010041000b00",
        OUTSIDE,
    ),
    (
        "a faulty body and a later function of a type that is not there",
        # (module (func drop) (func (type 1)))
        "0061736d0100000001040160000003030200010a080203001a0b02000b",
        OUTSIDE,
    ),
    # (module (import "h" "f" (func (result i32))) (func (export "g") (result i32) call 0 call 0 i32.add))
    ("two answers that are added", example("two_answers.wasm").hex(), TAKEN),
    (
        "one answer is missing",
        # (module (import "h" "f" (func (result i32))) (func (export "g") (result i32) call 0 nop nop i32.add))
        "0061736d010000000105016000017f02070101680166000003020100070501016700010a09010700100001016a0b",
        invalid(1),
    ),
    (
        "the second and the third of three bodies are faulty",
        # (module (func) (func drop) (func drop))
        "0061736d010000000104016000000304030000000a0c0302000b03001a0b03001a0b",
        invalid(1),
    ),
    (
        "the first and the last of three bodies are faulty",
        # (module (func drop) (func) (func drop))
        "0061736d010000000104016000000304030000000a0c0303001a0b02000b03001a0b",
        invalid(0),
    ),
    (
        "the last of three bodies is faulty",
        # (module (func) (func) (func drop))
        "0061736d010000000104016000000304030000000a0b0302000b02000b03001a0b",
        invalid(2),
    ),
    (
        "two faulty bodies after imports of each kind",
        # (module (import "h" "f" (func)) (import "h" "f" (table 0 funcref)) (import "h" "f" (func))
        #   (import "h" "f" (memory 0)) (import "h" "f" (global i32)) (func) (func drop) (func drop))
        "0061736d01000000010401600000"
        "02230501680166000001680166017000000168016600000168016602000001680166037f00030403000000"
        "0a0c0302000b03001a0b03001a0b",
        invalid(3),
    ),
    (
        "an invalid body after one with float arithmetic",
        # (module (func f32.const 0 f32.abs drop) (func drop))
        "0061736d0100000001040160000003030200000a0f02090043000000008b1a0b03001a0b",
        invalid(1),
    ),
    # (module (func i32.const 0 f32.abs drop))
    ("an invalid body with float arithmetic", "0061736d01000000010401600000030201000a0801060041008b1a0b", invalid(0)),
    (
        "an invalid body and a memory of 4,097 pages",
        # (module (memory 4097) (func drop))
        "0061736d01000000010401600000030201000504010081200a050103001a0b",
        invalid(0),
    ),
    (
        "an invalid body and an import that is reserved",
        # (module (import "r3" "f" (func)) (func drop))
        "0061736d0100000001040160000002080102723301660000030201000a050103001a0b",
        invalid(1),
    ),
]
