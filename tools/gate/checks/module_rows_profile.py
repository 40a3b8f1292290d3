"""Which instructions of valid modules are accepted, and which are refused at their places."""
from module_faults import TAKEN, unsupported
from modules import example

# Float arithmetic in the second instruction of the first function, and a float conversion there.
ARITHMETIC = unsupported(0, 1, "float arithmetic")
CONVERSION = unsupported(0, 1, "float conversion")

# A comparison in the third one, and float arithmetic there.
COMPARISON = unsupported(0, 2, "float comparison")
ARITHMETIC_OF_TWO = unsupported(0, 2, "float arithmetic")

INSTRUCTIONS = [
    # (module (func f32.const 0 f32.const 0 f32.eq drop))
    ("f32.eq", "0061736d01000000010401600000030201000a10010e00430000000043000000005b1a0b", COMPARISON),
    # (module (func f32.const 0 f32.const 0 f32.ge drop))
    ("f32.ge", "0061736d01000000010401600000030201000a10010e0043000000004300000000601a0b", COMPARISON),
    # (module (func f64.const 0 f64.const 0 f64.eq drop))
    ("f64.eq", "0061736d01000000010401600000030201000a18011600440000000000000000440000000000000000611a0b", COMPARISON),
    # (module (func f64.const 0 f64.const 0 f64.ge drop))
    ("f64.ge", "0061736d01000000010401600000030201000a18011600440000000000000000440000000000000000661a0b", COMPARISON),
    # (module (func f32.const 0 f32.abs drop))
    ("f32.abs", "0061736d01000000010401600000030201000a0b01090043000000008b1a0b", ARITHMETIC),
    # (module (func f32.const 0 f32.sqrt drop))
    ("f32.sqrt", "0061736d01000000010401600000030201000a0b0109004300000000911a0b", ARITHMETIC),
    # (module (func f32.const 0 f32.const 0 f32.add drop))
    ("f32.add", "0061736d01000000010401600000030201000a10010e0043000000004300000000921a0b", ARITHMETIC_OF_TWO),
    # (module (func f32.const 0 f32.const 0 f32.copysign drop))
    ("f32.copysign", "0061736d01000000010401600000030201000a10010e0043000000004300000000981a0b", ARITHMETIC_OF_TWO),
    # (module (func f64.const 0 f64.abs drop))
    ("f64.abs", "0061736d01000000010401600000030201000a0f010d00440000000000000000991a0b", ARITHMETIC),
    # (module (func f64.const 0 f64.sqrt drop))
    ("f64.sqrt", "0061736d01000000010401600000030201000a0f010d004400000000000000009f1a0b", ARITHMETIC),
    (
        "f64.add",
        # (module (func f64.const 0 f64.const 0 f64.add drop))
        "0061736d01000000010401600000030201000a18011600440000000000000000440000000000000000a01a0b",
        ARITHMETIC_OF_TWO,
    ),
    (
        "f64.copysign",
        # (module (func f64.const 0 f64.const 0 f64.copysign drop))
        "0061736d01000000010401600000030201000a18011600440000000000000000440000000000000000a61a0b",
        ARITHMETIC_OF_TWO,
    ),
    # (module (func f32.const 0 i32.trunc_f32_s drop))
    ("i32.trunc_f32_s", "0061736d01000000010401600000030201000a0b0109004300000000a81a0b", CONVERSION),
    # (module (func f32.const 0 i32.trunc_f32_u drop))
    ("i32.trunc_f32_u", "0061736d01000000010401600000030201000a0b0109004300000000a91a0b", CONVERSION),
    # (module (func f64.const 0 i32.trunc_f64_s drop))
    ("i32.trunc_f64_s", "0061736d01000000010401600000030201000a0f010d00440000000000000000aa1a0b", CONVERSION),
    # (module (func f64.const 0 i32.trunc_f64_u drop))
    ("i32.trunc_f64_u", "0061736d01000000010401600000030201000a0f010d00440000000000000000ab1a0b", CONVERSION),
    # (module (func f32.const 0 i64.trunc_f32_s drop))
    ("i64.trunc_f32_s", "0061736d01000000010401600000030201000a0b0109004300000000ae1a0b", CONVERSION),
    # (module (func f32.const 0 i64.trunc_f32_u drop))
    ("i64.trunc_f32_u", "0061736d01000000010401600000030201000a0b0109004300000000af1a0b", CONVERSION),
    # (module (func f64.const 0 i64.trunc_f64_s drop))
    ("i64.trunc_f64_s", "0061736d01000000010401600000030201000a0f010d00440000000000000000b01a0b", CONVERSION),
    # (module (func f64.const 0 i64.trunc_f64_u drop))
    ("i64.trunc_f64_u", "0061736d01000000010401600000030201000a0f010d00440000000000000000b11a0b", CONVERSION),
    # (module (func i32.const 0 f32.convert_i32_s drop))
    ("f32.convert_i32_s", "0061736d01000000010401600000030201000a080106004100b21a0b", CONVERSION),
    # (module (func i32.const 0 f32.convert_i32_u drop))
    ("f32.convert_i32_u", "0061736d01000000010401600000030201000a080106004100b31a0b", CONVERSION),
    # (module (func i64.const 0 f32.convert_i64_s drop))
    ("f32.convert_i64_s", "0061736d01000000010401600000030201000a080106004200b41a0b", CONVERSION),
    # (module (func i64.const 0 f32.convert_i64_u drop))
    ("f32.convert_i64_u", "0061736d01000000010401600000030201000a080106004200b51a0b", CONVERSION),
    # (module (func f64.const 0 f32.demote_f64 drop))
    ("f32.demote_f64", "0061736d01000000010401600000030201000a0f010d00440000000000000000b61a0b", CONVERSION),
    # (module (func i32.const 0 f64.convert_i32_s drop))
    ("f64.convert_i32_s", "0061736d01000000010401600000030201000a080106004100b71a0b", CONVERSION),
    # (module (func i32.const 0 f64.convert_i32_u drop))
    ("f64.convert_i32_u", "0061736d01000000010401600000030201000a080106004100b81a0b", CONVERSION),
    # (module (func i64.const 0 f64.convert_i64_s drop))
    ("f64.convert_i64_s", "0061736d01000000010401600000030201000a080106004200b91a0b", CONVERSION),
    # (module (func i64.const 0 f64.convert_i64_u drop))
    ("f64.convert_i64_u", "0061736d01000000010401600000030201000a080106004200ba1a0b", CONVERSION),
    # (module (func f32.const 0 f64.promote_f32 drop))
    ("f64.promote_f32", "0061736d01000000010401600000030201000a0b0109004300000000bb1a0b", CONVERSION),
    # (module (func unreachable f32.neg drop))
    ("f32.neg after unreachable", "0061736d01000000010401600000030201000a07010500008c1a0b", ARITHMETIC),
    # (module (func f32.const 0 i32.trunc_f32_s drop f32.const 0 f32.abs drop))
    ("the first of two", "0061736d01000000010401600000030201000a120110004300000000a81a43000000008b1a0b", CONVERSION),
    (
        "floats that are kept, loaded and stored",
        # (module (memory 1) (func i32.const 0 i32.const 0 f32.load f32.store f64.const 0 drop))
        "0061736d010000000104016000000302010005030100010a18011600410041002a02003802004400000000000000001a0b",
        TAKEN,
    ),
]

# The functions and the numbers of instructions that are refused, and their classes.
PLACES = [
    (
        "else and end have no number",
        # (module (func i32.const 0 if nop else nop end f32.const 0 f32.abs drop))
        "0061736d01000000010401600000030201000a13011100410004400105010b43000000008b1a0b",
        unsupported(0, 5, "float arithmetic"),
    ),
    (
        "block and loop have numbers",
        # (module (func block loop f32.const 0 f32.abs drop end end))
        "0061736d01000000010401600000030201000a11010f000240034043000000008b1a0b0b0b",
        unsupported(0, 3, "float arithmetic"),
    ),
    (
        "the first function of two",
        # (module (func nop nop f32.const 0 f32.abs drop) (func f32.const 0 i32.trunc_f32_s drop))
        "0061736d0100000001040160000003030200000a17020b00010143000000008b1a0b09004300000000a81a0b",
        unsupported(0, 3, "float arithmetic"),
    ),
    (
        "imported functions are counted",
        # (module (import "h" "f" (func)) (import "h" "f" (global i32)) (import "h" "f" (func)) (func)
        #   (func f32.const 0 i32.trunc_f32_s drop))
        "0061736d0100000001040160000002140301680166000001680166037f000168016600000303020000"
        "0a0e0202000b09004300000000a81a0b",
        unsupported(3, 1, "float conversion"),
    ),
    (
        "an instruction before a quantity and a reserved import",
        # (module (import "r3" "f" (func)) (memory 4097) (func f32.const 0 f32.abs drop))
        "0061736d0100000001040160000002080102723301660000030201000504010081200a0b01090043000000008b1a0b",
        unsupported(1, 1, "float arithmetic"),
    ),
    (
        "sign extensions before float arithmetic",
        # (module (func i32.const 0 i32.extend8_s i32.extend16_s drop i64.const 0 i64.extend8_s i64.extend16_s
        #   i64.extend32_s drop f32.const 0 f32.abs drop))
        "0061736d01000000010401600000030201000a160114004100c0c11a4200c2c3c41a43000000008b1a0b",
        unsupported(0, 10, "float arithmetic"),
    ),
    (
        "memory.copy and memory.fill before a float conversion",
        # (module (memory 1) (func i32.const 0 i32.const 0 i32.const 0 memory.copy i32.const 0 i32.const 0 i32.const 0
        #   memory.fill f32.const 0 i32.trunc_f32_s drop))
        "0061736d01000000010401600000030201000503010001"
        "0a1e011c00410041004100fc0a0000410041004100fc0b004300000000a81a0b",
        unsupported(0, 9, "float conversion"),
    ),
    # (module (func) (func) (func nop f64.const 0 f64.const 0 f64.add drop))
    ("f64.add in the third function", example("float_body.wasm").hex(), unsupported(2, 3, "float arithmetic")),
]
