"""Instructions of memories (Core 1.0, 3.3.4; Core 2.0, 3.3.7), each rule kept and broken."""
from module_faults import TAKEN, invalid

ROWS = [
    (
        "each load aligned as its width",
        # (module (memory 1) (func i32.const 0 i32.load drop i32.const 0 i64.load drop i32.const 0 f32.load drop
        #     i32.const 0 f64.load drop i32.const 0 i32.load8_s drop i32.const 0 i32.load8_u drop
        #     i32.const 0 i32.load16_s drop i32.const 0 i32.load16_u drop i32.const 0 i64.load8_s drop
        #     i32.const 0 i64.load8_u drop i32.const 0 i64.load16_s drop i32.const 0 i64.load16_u drop
        #     i32.const 0 i64.load32_s drop i32.const 0 i64.load32_u drop))
        "0061736d01000000010401600000030201000503010001"
        "0a5801560041002802001a41002903001a41002a02001a41002b03001a41002c00001a41002d00001a41002e01001a41002f"
        "01001a41003000001a41003100001a41003201001a41003301001a41003402001a41003502001a0b",
        TAKEN,
    ),
    (
        "each store aligned as its width",
        # (module (memory 1) (func i32.const 0 i32.const 0 i32.store i32.const 0 i64.const 0 i64.store
        #     i32.const 0 f32.const 0 f32.store i32.const 0 f64.const 0 f64.store i32.const 0 i32.const 0 i32.store8
        #     i32.const 0 i32.const 0 i32.store16 i32.const 0 i64.const 0 i64.store8
        #     i32.const 0 i64.const 0 i64.store16 i32.const 0 i64.const 0 i64.store32))
        "0061736d01000000010401600000030201000503010001"
        "0a4d014b004100410036020041004200370300410043000000003802004100440000000000000000390300410041003a0000"
        "410041003b0100410042003c0000410042003d0100410042003e02000b",
        TAKEN,
    ),
    (
        "i32.load aligned past its width",
        # (module (memory 1) (func i32.const 0 i32.load align=8 drop))
        "0061736d010000000104016000000302010005030100010a0a01080041002803001a0b",
        invalid(0),
    ),
    (
        "i64.load aligned past its width",
        # (module (memory 1) (func i32.const 0 i64.load align=16 drop))
        "0061736d010000000104016000000302010005030100010a0a01080041002904001a0b",
        invalid(0),
    ),
    (
        "f32.load aligned past its width",
        # (module (memory 1) (func i32.const 0 f32.load align=8 drop))
        "0061736d010000000104016000000302010005030100010a0a01080041002a03001a0b",
        invalid(0),
    ),
    (
        "f64.load aligned past its width",
        # (module (memory 1) (func i32.const 0 f64.load align=16 drop))
        "0061736d010000000104016000000302010005030100010a0a01080041002b04001a0b",
        invalid(0),
    ),
    (
        "i32.load8_s aligned past its width",
        # (module (memory 1) (func i32.const 0 i32.load8_s align=2 drop))
        "0061736d010000000104016000000302010005030100010a0a01080041002c01001a0b",
        invalid(0),
    ),
    (
        "i32.load8_u aligned past its width",
        # (module (memory 1) (func i32.const 0 i32.load8_u align=2 drop))
        "0061736d010000000104016000000302010005030100010a0a01080041002d01001a0b",
        invalid(0),
    ),
    (
        "i32.load16_s aligned past its width",
        # (module (memory 1) (func i32.const 0 i32.load16_s align=4 drop))
        "0061736d010000000104016000000302010005030100010a0a01080041002e02001a0b",
        invalid(0),
    ),
    (
        "i32.load16_u aligned past its width",
        # (module (memory 1) (func i32.const 0 i32.load16_u align=4 drop))
        "0061736d010000000104016000000302010005030100010a0a01080041002f02001a0b",
        invalid(0),
    ),
    (
        "i64.load8_s aligned past its width",
        # (module (memory 1) (func i32.const 0 i64.load8_s align=2 drop))
        "0061736d010000000104016000000302010005030100010a0a01080041003001001a0b",
        invalid(0),
    ),
    (
        "i64.load8_u aligned past its width",
        # (module (memory 1) (func i32.const 0 i64.load8_u align=2 drop))
        "0061736d010000000104016000000302010005030100010a0a01080041003101001a0b",
        invalid(0),
    ),
    (
        "i64.load16_s aligned past its width",
        # (module (memory 1) (func i32.const 0 i64.load16_s align=4 drop))
        "0061736d010000000104016000000302010005030100010a0a01080041003202001a0b",
        invalid(0),
    ),
    (
        "i64.load16_u aligned past its width",
        # (module (memory 1) (func i32.const 0 i64.load16_u align=4 drop))
        "0061736d010000000104016000000302010005030100010a0a01080041003302001a0b",
        invalid(0),
    ),
    (
        "i64.load32_s aligned past its width",
        # (module (memory 1) (func i32.const 0 i64.load32_s align=8 drop))
        "0061736d010000000104016000000302010005030100010a0a01080041003403001a0b",
        invalid(0),
    ),
    (
        "i64.load32_u aligned past its width",
        # (module (memory 1) (func i32.const 0 i64.load32_u align=8 drop))
        "0061736d010000000104016000000302010005030100010a0a01080041003503001a0b",
        invalid(0),
    ),
    (
        "i32.store aligned past its width",
        # (module (memory 1) (func i32.const 0 i32.const 0 i32.store align=8))
        "0061736d010000000104016000000302010005030100010a0b010900410041003603000b",
        invalid(0),
    ),
    (
        "i64.store aligned past its width",
        # (module (memory 1) (func i32.const 0 i64.const 0 i64.store align=16))
        "0061736d010000000104016000000302010005030100010a0b010900410042003704000b",
        invalid(0),
    ),
    (
        "f32.store aligned past its width",
        # (module (memory 1) (func i32.const 0 f32.const 0 f32.store align=8))
        "0061736d010000000104016000000302010005030100010a0e010c00410043000000003803000b",
        invalid(0),
    ),
    (
        "f64.store aligned past its width",
        # (module (memory 1) (func i32.const 0 f64.const 0 f64.store align=16))
        "0061736d010000000104016000000302010005030100010a1201100041004400000000000000003904000b",
        invalid(0),
    ),
    (
        "i32.store8 aligned past its width",
        # (module (memory 1) (func i32.const 0 i32.const 0 i32.store8 align=2))
        "0061736d010000000104016000000302010005030100010a0b010900410041003a01000b",
        invalid(0),
    ),
    (
        "i32.store16 aligned past its width",
        # (module (memory 1) (func i32.const 0 i32.const 0 i32.store16 align=4))
        "0061736d010000000104016000000302010005030100010a0b010900410041003b02000b",
        invalid(0),
    ),
    (
        "i64.store8 aligned past its width",
        # (module (memory 1) (func i32.const 0 i64.const 0 i64.store8 align=2))
        "0061736d010000000104016000000302010005030100010a0b010900410042003c01000b",
        invalid(0),
    ),
    (
        "i64.store16 aligned past its width",
        # (module (memory 1) (func i32.const 0 i64.const 0 i64.store16 align=4))
        "0061736d010000000104016000000302010005030100010a0b010900410042003d02000b",
        invalid(0),
    ),
    (
        "i64.store32 aligned past its width",
        # (module (memory 1) (func i32.const 0 i64.const 0 i64.store32 align=8))
        "0061736d010000000104016000000302010005030100010a0b010900410042003e03000b",
        invalid(0),
    ),
    # (module (memory 1) (func i32.const 0 i32.load align=2147483648 drop))
    ("an alignment of 2^31", "0061736d010000000104016000000302010005030100010a0a0108004100281f001a0b", invalid(0)),
    # (module (memory 1) (func i32.const 0 i32.load drop)), but aligned to 2^32 bytes
    ("an alignment of 2^32", "0061736d010000000104016000000302010005030100010a0a01080041002820001a0b", invalid(0)),
    # (module (func i32.const 0 i32.load drop))
    ("a load without a memory", "0061736d01000000010401600000030201000a0a01080041002802001a0b", invalid(0)),
    # (module (func i32.const 0 i32.const 0 i32.store))
    ("a store without a memory", "0061736d01000000010401600000030201000a0b010900410041003602000b", invalid(0)),
    # (module (func memory.size drop))
    ("memory.size without a memory", "0061736d01000000010401600000030201000a070105003f001a0b", invalid(0)),
    # (module (func i32.const 0 memory.grow drop))
    ("memory.grow without a memory", "0061736d01000000010401600000030201000a09010700410040001a0b", invalid(0)),
    # (module (memory 1) (func i64.const 0 i32.load drop))
    ("a load by another type", "0061736d010000000104016000000302010005030100010a0a01080042002802001a0b", invalid(0)),
    # (module (memory 1) (func i32.load drop))
    ("a load by nothing", "0061736d010000000104016000000302010005030100010a080106002802001a0b", invalid(0)),
    # (module (memory 1) (func i32.const 0 i32.load i64.eqz drop))
    ("a load as another type", "0061736d010000000104016000000302010005030100010a0b0109004100280200501a0b", invalid(0)),
    # (module (memory 1) (func i64.const 0 i32.const 0 i32.store))
    ("a store by another type", "0061736d010000000104016000000302010005030100010a0b010900420041003602000b", invalid(0)),
    # (module (memory 1) (func i32.const 0 i64.const 0 i32.store))
    ("a store of another type", "0061736d010000000104016000000302010005030100010a0b010900410042003602000b", invalid(0)),
    # (module (memory 1) (func i32.const 0 i32.store))
    ("a store of nothing", "0061736d010000000104016000000302010005030100010a0901070041003602000b", invalid(0)),
    # (module (memory 1) (func i64.const 0 memory.grow drop))
    ("memory.grow by another type", "0061736d010000000104016000000302010005030100010a09010700420040001a0b", invalid(0)),
    # (module (memory 1) (func memory.size i64.eqz drop))
    ("memory.size as another type", "0061736d010000000104016000000302010005030100010a080106003f00501a0b", invalid(0)),
    (
        "memory.grow as another type",
        # (module (memory 1) (func i32.const 0 memory.grow i64.eqz drop))
        "0061736d010000000104016000000302010005030100010a0a01080041004000501a0b",
        invalid(0),
    ),
    (
        "a load with an imported memory",
        # (module (import "h" "f" (memory 1)) (func i32.const 0 i32.load drop))
        "0061736d0100000001040160000002080101680166020001030201000a0a01080041002802001a0b",
        TAKEN,
    ),
    # (module (memory 1) (func i32.const 0 i32.const 0 i32.const 0 memory.copy))
    ("memory.copy", "0061736d010000000104016000000302010005030100010a0e010c00410041004100fc0a00000b", TAKEN),
    (
        "memory.copy with an imported memory",
        # (module (import "h" "f" (memory 1)) (func i32.const 0 i32.const 0 i32.const 0 memory.copy))
        "0061736d0100000001040160000002080101680166020001030201000a0e010c00410041004100fc0a00000b",
        TAKEN,
    ),
    (
        "memory.copy without a memory",
        # (module (func i32.const 0 i32.const 0 i32.const 0 memory.copy))
        "0061736d01000000010401600000030201000a0e010c00410041004100fc0a00000b",
        invalid(0),
    ),
    (
        "memory.copy with a target of another type",
        # (module (memory 1) (func i64.const 0 i32.const 0 i32.const 0 memory.copy))
        "0061736d010000000104016000000302010005030100010a0e010c00420041004100fc0a00000b",
        invalid(0),
    ),
    (
        "memory.copy with a source of another type",
        # (module (memory 1) (func i32.const 0 i64.const 0 i32.const 0 memory.copy))
        "0061736d010000000104016000000302010005030100010a0e010c00410042004100fc0a00000b",
        invalid(0),
    ),
    (
        "memory.copy with a count of another type",
        # (module (memory 1) (func i32.const 0 i32.const 0 i64.const 0 memory.copy))
        "0061736d010000000104016000000302010005030100010a0e010c00410041004200fc0a00000b",
        invalid(0),
    ),
    (
        "memory.copy of two operands",
        # (module (memory 1) (func i32.const 0 i32.const 0 memory.copy))
        "0061736d010000000104016000000302010005030100010a0c010a0041004100fc0a00000b",
        invalid(0),
    ),
    (
        "memory.copy of an operand below the block",
        # (module (memory 1) (func i32.const 0 block i32.const 0 i32.const 0 memory.copy end))
        "0061736d010000000104016000000302010005030100010a11010f004100024041004100fc0a00000b0b",
        invalid(0),
    ),
    (
        "memory.copy of three operands and one left over",
        # (module (memory 1) (func i32.const 0 i32.const 0 i32.const 0 i32.const 0 memory.copy))
        "0061736d010000000104016000000302010005030100010a10010e004100410041004100fc0a00000b",
        invalid(0),
    ),
    (
        "memory.copy as a result",
        # (module (memory 1) (func (result i32) i32.const 0 i32.const 0 i32.const 0 memory.copy))
        "0061736d010000000105016000017f0302010005030100010a0e010c00410041004100fc0a00000b",
        invalid(0),
    ),
    # (module (memory 1) (func i32.const 0 i32.const 0 i32.const 0 memory.fill))
    ("memory.fill", "0061736d010000000104016000000302010005030100010a0d010b00410041004100fc0b000b", TAKEN),
    (
        "memory.fill with an imported memory",
        # (module (import "h" "f" (memory 1)) (func i32.const 0 i32.const 0 i32.const 0 memory.fill))
        "0061736d0100000001040160000002080101680166020001030201000a0d010b00410041004100fc0b000b",
        TAKEN,
    ),
    # (module (func i32.const 0 i32.const 0 i32.const 0 memory.fill))
    ("memory.fill without a memory", "0061736d01000000010401600000030201000a0d010b00410041004100fc0b000b", invalid(0)),
    (
        "memory.fill with a target of another type",
        # (module (memory 1) (func i64.const 0 i32.const 0 i32.const 0 memory.fill))
        "0061736d010000000104016000000302010005030100010a0d010b00420041004100fc0b000b",
        invalid(0),
    ),
    (
        "memory.fill with a byte of another type",
        # (module (memory 1) (func i32.const 0 i64.const 0 i32.const 0 memory.fill))
        "0061736d010000000104016000000302010005030100010a0d010b00410042004100fc0b000b",
        invalid(0),
    ),
    (
        "memory.fill with a count of another type",
        # (module (memory 1) (func i32.const 0 i32.const 0 i64.const 0 memory.fill))
        "0061736d010000000104016000000302010005030100010a0d010b00410041004200fc0b000b",
        invalid(0),
    ),
    (
        "memory.fill of two operands",
        # (module (memory 1) (func i32.const 0 i32.const 0 memory.fill))
        "0061736d010000000104016000000302010005030100010a0b01090041004100fc0b000b",
        invalid(0),
    ),
    (
        "memory.fill of an operand below the block",
        # (module (memory 1) (func i32.const 0 block i32.const 0 i32.const 0 memory.fill end))
        "0061736d010000000104016000000302010005030100010a10010e004100024041004100fc0b000b0b",
        invalid(0),
    ),
    (
        "memory.fill of three operands and one left over",
        # (module (memory 1) (func i32.const 0 i32.const 0 i32.const 0 i32.const 0 memory.fill))
        "0061736d010000000104016000000302010005030100010a0f010d004100410041004100fc0b000b",
        invalid(0),
    ),
    (
        "memory.fill as a result",
        # (module (memory 1) (func (result i32) i32.const 0 i32.const 0 i32.const 0 memory.fill))
        "0061736d010000000105016000017f0302010005030100010a0d010b00410041004100fc0b000b",
        invalid(0),
    ),
]
