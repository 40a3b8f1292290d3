"""All but bodies and indices (Core 1.0, 3.2 and 3.4), each condition kept and broken."""
from module_faults import OUTSIDE, TAKEN
from modules import example

ROWS = [
    # (module)
    ("no sections", example("empty.wasm").hex(), TAKEN),
    # (module (type (func (result i32 i32))))
    ("a type with two results", "0061736d010000000106016000027f7f", OUTSIDE),
    # (module (type (func (param i32) (result i64))) (type (func (result i32 i64))))
    ("a second type with two results", "0061736d01000000010b0260017f017e6000027f7e", OUTSIDE),
    # (module (memory 2 1))
    ("a memory whose minimum is past its maximum", "0061736d01000000050401010201", OUTSIDE),
    # (module (table 2 1 funcref))
    ("a table whose minimum is past its maximum", "0061736d0100000004050170010201", OUTSIDE),
    # (module (import "h" "f" (memory 2 1)))
    ("an imported memory whose minimum is past its maximum", "0061736d010000000209010168016602010201", OUTSIDE),
    # (module (import "h" "f" (table 2 1 funcref)))
    ("an imported table whose minimum is past its maximum", "0061736d01000000020a01016801660170010201", OUTSIDE),
    # (module (table 2 2 funcref) (memory 2 2))
    ("limits whose minimum is the maximum", "0061736d0100000004050170010202050401010202", TAKEN),
    # (module (memory 0 65536))
    ("a memory whose maximum is 65,536 pages", "0061736d010000000506010100808004", TAKEN),
    # (module (memory 0 65537))
    ("a memory whose maximum is 65,537 pages", "0061736d010000000506010100818004", OUTSIDE),
    # (module (memory 65537))
    ("a memory whose minimum is 65,537 pages", "0061736d0100000005050100818004", OUTSIDE),
    # (module (import "h" "f" (memory 0 65537)))
    ("an imported memory whose maximum is 65,537 pages", "0061736d01000000020b0101680166020100818004", OUTSIDE),
    # (module (import "h" "f" (memory 65537)))
    ("an imported memory whose minimum is 65,537 pages", "0061736d01000000020a01016801660200818004", OUTSIDE),
    # (module (table 0 4294967295 funcref))
    ("a table whose maximum is 2^32 - 1 entries", "0061736d01000000040901700100ffffffff0f", TAKEN),
    # (module (memory 0) (memory 0))
    ("two memories", "0061736d0100000005050200000000", OUTSIDE),
    # (module (import "h" "f" (memory 0)) (memory 0))
    ("an imported memory and one of its own", "0061736d01000000020801016801660200000503010000", OUTSIDE),
    # (module (import "h" "f" (memory 0)) (import "h" "f" (memory 0)))
    ("two imported memories", "0061736d01000000020f020168016602000001680166020000", OUTSIDE),
    # (module (table 0 funcref) (table 0 funcref))
    ("two tables", "0061736d01000000040702700000700000", OUTSIDE),
    # (module (import "h" "f" (table 0 funcref)) (table 0 funcref))
    ("an imported table and one of its own", "0061736d010000000209010168016601700000040401700000", OUTSIDE),
    # (module (import "h" "f" (table 0 funcref)) (import "h" "f" (table 0 funcref)))
    ("two imported tables", "0061736d0100000002110201680166017000000168016601700000", OUTSIDE),
    # (module (func (export "a") (export "a")))
    ("one export name twice", "0061736d010000000104016000000302010007090201610000016100000a040102000b", OUTSIDE),
    (
        "one export name for two kinds",
        # (module (memory 0) (func) (export "a" (func 0)) (export "b" (func 0)) (export "a" (memory 0)))
        "0061736d01000000010401600000030201000503010000070d030161000001620000016102000a040102000b",
        OUTSIDE,
    ),
    # (module (func (export "") (export "")))
    ("the empty export name twice", "0061736d01000000010401600000030201000707020000000000000a040102000b", OUTSIDE),
    (
        "one function by two names",
        # (module (func (export "a") (export "aa") (export "") (export "A")))
        "0061736d0100000001040160000003020100071104016100000261610000000000014100000a040102000b",
        TAKEN,
    ),
    # (module (import "h" "f" (func)) (import "h" "f" (func)))
    ("one import name twice", "0061736d01000000010401600000020d02016801660000016801660000", TAKEN),
    # (module (func) (start 0))
    ("a start function", "0061736d01000000010401600000030201000801000a040102000b", TAKEN),
    # (module (import "h" "f" (func)) (start 0))
    ("an imported start function", "0061736d01000000010401600000020701016801660000080100", TAKEN),
    # (module (func (param i32)) (start 0))
    ("a start function with a parameter", "0061736d0100000001050160017f00030201000801000a040102000b", OUTSIDE),
    # (module (func (result i32) i32.const 0) (start 0))
    ("a start function with a result", "0061736d010000000105016000017f030201000801000a0601040041000b", OUTSIDE),
    # (module (import "h" "f" (func (param i32))) (start 0))
    ("an imported start function with a parameter", "0061736d0100000001050160017f00020701016801660000080100", OUTSIDE),
    (
        "globals of each type",
        # (module (global i32 (i32.const 0)) (global (mut i64) (i64.const 0)) (global f32 (f32.const 0))
        #   (global (mut f64) (f64.const 0)))
        "0061736d01000000061f047f0041000b7e0142000b7d0043000000000b7c014400000000000000000b",
        TAKEN,
    ),
    # (module (global i32))
    ("an empty constant expression", "0061736d010000000604017f000b", OUTSIDE),
    # (module (global i32 i32.const 0 i32.const 0))
    ("a constant expression of two constants", "0061736d010000000608017f00410041000b", OUTSIDE),
    # (module (global i32 i32.const 0 i32.eqz))
    ("a constant expression with an operation", "0061736d010000000607017f004100450b", OUTSIDE),
    # (module (global i32 nop i32.const 0))
    ("a constant expression with nop", "0061736d010000000607017f000141000b", OUTSIDE),
    # (module (global i32 block (result i32) i32.const 0 end))
    ("a constant expression with a block", "0061736d010000000609017f00027f41000b0b", OUTSIDE),
    # (module (global i32 (unreachable)))
    ("a constant expression of unreachable", "0061736d010000000605017f00000b", OUTSIDE),
    (
        "a constant expression that calls",
        # (module (global i32 (call 0)) (func (result i32) i32.const 0))
        "0061736d010000000105016000017f030201000606017f0010000b0a0601040041000b",
        OUTSIDE,
    ),
    # (module (global i32 (i64.const 0)))
    ("a constant expression of another type", "0061736d010000000606017f0042000b", OUTSIDE),
    (
        "a second global whose constant expression is of another type",
        # (module (global i32 (i32.const 0)) (global f32 (f64.const 0)))
        "0061736d010000000612027f0041000b7d004400000000000000000b",
        OUTSIDE,
    ),
    # (module (import "h" "f" (global i32)) (global (mut i32) (global.get 0)))
    ("a constant expression of an imported global", "0061736d0100000002080101680166037f000606017f0123000b", TAKEN),
    (
        "a constant expression of a mutable imported global",
        # (module (import "h" "f" (global (mut i32))) (global (mut i32) (global.get 0)))
        "0061736d0100000002080101680166037f010606017f0123000b",
        OUTSIDE,
    ),
    (
        "a constant expression of an imported global of another type",
        # (module (import "h" "f" (global i64)) (global (mut i32) (global.get 0)))
        "0061736d0100000002080101680166037e000606017f0123000b",
        OUTSIDE,
    ),
    # (module (global i32 (i32.const 0)) (global i32 (global.get 0)))
    ("a constant expression of a global of its own", "0061736d01000000060b027f0041000b7f0023000b", OUTSIDE),
    (
        "a constant expression of a global of its own after an imported one",
        # (module (import "h" "f" (global i32)) (global i32 (i32.const 0)) (global i32 (global.get 1)))
        "0061736d0100000002080101680166037f00060b027f0041000b7f0023010b",
        OUTSIDE,
    ),
    # (module (global i32 (global.get 0)))
    ("a constant expression of itself", "0061736d010000000606017f0023000b", OUTSIDE),
    (
        "a constant expression of the second imported global",
        # (module (import "h" "f" (global (mut i64))) (import "h" "f" (func)) (import "h" "f" (global i32))
        #   (global i32 (global.get 1)))
        "0061736d0100000001040160000002150301680166037e0101680166000001680166037f000606017f0023010b",
        TAKEN,
    ),
    (
        "segments with offsets of an imported global",
        # (module (import "h" "f" (global i32)) (table 1 funcref) (memory 1) (func) (elem (global.get 0) 0)
        #   (data (global.get 0) "a"))
        "0061736d0100000001040160000002080101680166037f000302010004040170000105030100010907010023000b0100"
        "0a040102000b0b07010023000b0161",
        TAKEN,
    ),
    (
        "segments past the table and the memory",
        # (module (table 0 funcref) (memory 0) (func) (elem (i32.const -1) 0) (data (i32.const -1) "a"))
        "0061736d0100000001040160000003020100040401700000050301000009070100417f0b01000a040102000b0b070100417f0b0161",
        TAKEN,
    ),
    # (module (table 1 funcref) (elem (i64.const 0)))
    ("the offset of an element segment of another type", "0061736d010000000404017000010906010042000b00", OUTSIDE),
    # (module (memory 1) (data (i64.const 0)))
    ("the offset of a data segment of another type", "0061736d0100000005030100010b06010042000b00", OUTSIDE),
    # (module (table 1 funcref) (elem (offset)))
    ("an element segment without an offset", "0061736d01000000040401700001090401000b00", OUTSIDE),
    # (module (memory 1) (data (offset)))
    ("a data segment without an offset", "0061736d0100000005030100010b0401000b00", OUTSIDE),
    (
        "the offset of an element segment by a mutable global",
        # (module (import "h" "f" (global (mut i32))) (table 1 funcref) (elem (global.get 0)))
        "0061736d0100000002080101680166037f010404017000010906010023000b00",
        OUTSIDE,
    ),
    (
        "the offset of a data segment by a mutable global",
        # (module (import "h" "f" (global (mut i32))) (memory 1) (data (global.get 0)))
        "0061736d0100000002080101680166037f0105030100010b06010023000b00",
        OUTSIDE,
    ),
    (
        "the offset of an element segment by a global of the module",
        # (module (table 1 funcref) (global i32 (i32.const 0)) (elem (global.get 0)))
        "0061736d010000000404017000010606017f0041000b0906010023000b00",
        OUTSIDE,
    ),
    (
        "the offset of a data segment by a global of the module",
        # (module (memory 1) (global i32 (i32.const 0)) (data (global.get 0)))
        "0061736d0100000005030100010606017f0041000b0b06010023000b00",
        OUTSIDE,
    ),
]
