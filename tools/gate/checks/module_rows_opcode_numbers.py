"""Opcodes that contain a number (Core 2.0, 5.4.5 to 5.4.7): numbers longer than they need be, and opcodes
that an input does not have."""
from module_faults import TAKEN, malformed

ROWS = [
    (
        "memory.copy by a number of two bytes",
        # (module (memory 1) (func i32.const 0 i32.const 0 i32.const 0 memory.copy)), with the number 10 of
        #   `memory.copy` in two bytes
        "0061736d010000000104016000000302010005030100010a0f010d00410041004100fc8a0000000b",
        TAKEN,
    ),
    (
        "memory.copy by a number of five bytes",
        # (module (memory 1) (func i32.const 0 i32.const 0 i32.const 0 memory.copy)), with the number 10 of
        #   `memory.copy` in five bytes
        "0061736d010000000104016000000302010005030100010a12011000410041004100fc8a8080800000000b",
        TAKEN,
    ),
    (
        "memory.fill by a number of three bytes",
        # (module (memory 1) (func i32.const 0 i32.const 0 i32.const 0 memory.fill)), with the number 11 of
        #   `memory.fill` in three bytes
        "0061736d010000000104016000000302010005030100010a0f010d00410041004100fc8b8000000b",
        TAKEN,
    ),
    (
        "memory.fill by a number of four bytes",
        # (module (memory 1) (func i32.const 0 i32.const 0 i32.const 0 memory.fill)), with the number 11 of
        #   `memory.fill` in four bytes
        "0061736d010000000104016000000302010005030100010a10010e00410041004100fc8b808000000b",
        TAKEN,
    ),
    (
        "memory.fill by a number of five bytes",
        # (module (memory 1) (func i32.const 0 i32.const 0 i32.const 0 memory.fill)), with the number 11 of
        #   `memory.fill` in five bytes
        "0061736d010000000104016000000302010005030100010a11010f00410041004100fc8b80808000000b",
        TAKEN,
    ),
    (
        "memory.copy by a number of six bytes",
        # malformed: the number 10 of `memory.copy` is in six bytes, `8a 80 80 80 80 00`
        "0061736d010000000104016000000302010005030100010a13011100410041004100fc8a808080800000000b",
        malformed(23),
    ),
    (
        "memory.fill by a number of six bytes",
        # malformed: the number 11 of `memory.fill` is in six bytes, `8b 80 80 80 80 00`
        "0061736d010000000104016000000302010005030100010a12011000410041004100fc8b8080808000000b",
        malformed(23),
    ),
    (
        "a number past 32 bits",
        # malformed: `8a 80 80 80 10` is 2^32 + 10
        "0061736d010000000104016000000302010005030100010a12011000410041004100fc8a8080801000000b",
        malformed(23),
    ),
    (
        "a number with a bit past 32",
        # malformed: `8b 80 80 80 40` has a bit past 32 that is set
        "0061736d010000000104016000000302010005030100010a11010f00410041004100fc8b80808040000b",
        malformed(23),
    ),
    (
        "a number of 2^7 + 10",
        # malformed: no instruction is `fc 8a 01`
        "0061736d010000000104016000000302010005030100010a0f010d00410041004100fc8a0100000b",
        malformed(23),
    ),
    (
        "memory.copy to another memory",
        # malformed: the byte after `fc 0a` is 1
        "0061736d010000000104016000000302010005030100010a0e010c00410041004100fc0a01000b",
        malformed(23),
    ),
    (
        "memory.copy from another memory",
        # malformed: the second byte after `fc 0a` is 1
        "0061736d010000000104016000000302010005030100010a0e010c00410041004100fc0a00010b",
        malformed(23),
    ),
    (
        "memory.copy to a memory in two bytes",
        # malformed: `fc 0a 80 00 00`, with the memory 0 in two bytes
        "0061736d010000000104016000000302010005030100010a0f010d00410041004100fc0a8000000b",
        malformed(23),
    ),
    (
        "memory.copy of one memory",
        # malformed: `fc 0a 00` is followed by the end of the body
        "0061736d010000000104016000000302010005030100010a0d010b00410041004100fc0a000b",
        malformed(23),
    ),
    (
        "memory.fill of another memory",
        # malformed: the byte after `fc 0b` is 1
        "0061736d010000000104016000000302010005030100010a0d010b00410041004100fc0b010b",
        malformed(23),
    ),
    (
        "memory.fill of a memory in two bytes",
        # malformed: `fc 0b 80 00`, with the memory 0 in two bytes
        "0061736d010000000104016000000302010005030100010a0e010c00410041004100fc0b80000b",
        malformed(23),
    ),
    (
        "memory.fill of no memory",
        # malformed: `fc 0b` is followed by the end of the body
        "0061736d010000000104016000000302010005030100010a0c010a00410041004100fc0b0b",
        malformed(23),
    ),
    # (module (table 1 funcref) (func i32.const 0 i32.const 0 nop nop nop drop)), but with `fc 0f 00`,
    #   `table.grow`, in place of the three `nop`s
    ("table.grow", "0061736d01000000010401600000030201000404017000010a0c010a0041004100fc0f001a0b", malformed(24)),
    # (module (table 1 funcref) (func nop nop nop drop)), but with `fc 10 00`, `table.size`, in place of the three
    #   `nop`s
    ("table.size", "0061736d01000000010401600000030201000404017000010a08010600fc10001a0b", malformed(24)),
    # (module (table 1 funcref) (func i32.const 0 i32.const 0 i32.const 0 nop nop nop)), but with `fc 11 00`,
    #   `table.fill`, in place of the three `nop`s
    ("table.fill", "0061736d01000000010401600000030201000404017000010a0d010b00410041004100fc11000b", malformed(24)),
    # (module (table 1 funcref) (func i32.const 0 i32.const 0 i32.const 0 nop nop nop nop)), but with `fc 0e 00
    #   00`, `table.copy`, in place of the four `nop`s
    ("table.copy", "0061736d01000000010401600000030201000404017000010a0e010c00410041004100fc0e00000b", malformed(24)),
    # (module (table 1 funcref) (func i32.const 0 i32.const 0 i32.const 0 nop nop nop nop)), but with `fc 0c 00
    #   00`, `table.init`, in place of the four `nop`s
    ("table.init", "0061736d01000000010401600000030201000404017000010a0e010c00410041004100fc0c00000b", malformed(24)),
    # (module (table 1 funcref) (func nop nop nop)), but with `fc 0d 00`, `elem.drop`, in place of the three `nop`s
    ("elem.drop", "0061736d01000000010401600000030201000404017000010a07010500fc0d000b", malformed(24)),
    # (module (memory 1) (func i32.const 0 i32.const 0 i32.const 0 nop nop nop nop)), but with `fc 08 00 00`,
    #   `memory.init`, in place of the four `nop`s
    ("memory.init", "0061736d010000000104016000000302010005030100010a0e010c00410041004100fc0800000b", malformed(23)),
    # (module (memory 1) (func nop nop nop)), but with `fc 09 00`, `data.drop`, in place of the three `nop`s
    ("data.drop", "0061736d010000000104016000000302010005030100010a07010500fc09000b", malformed(23)),
    # (module (func f32.const 0 nop nop drop)), but with `fc 00`, `i32.trunc_sat_f32_s`, in place of the two `nop`s
    ("i32.trunc_sat_f32_s", "0061736d01000000010401600000030201000a0c010a004300000000fc001a0b", malformed(18)),
    # (module (func f64.const 0 nop nop drop)), but with `fc 07`, `i64.trunc_sat_f64_u`, in place of the two `nop`s
    ("i64.trunc_sat_f64_u", "0061736d01000000010401600000030201000a10010e00440000000000000000fc071a0b", malformed(18)),
    # malformed: no instruction is `fc 12`
    ("the number 18", "0061736d01000000010401600000030201000a07010500fc12000b", malformed(18)),
    # malformed: no instruction is `fc ff ff ff ff 0f`
    ("the number 2^32 - 1", "0061736d01000000010401600000030201000a0a010800fcffffffff0f0b", malformed(18)),
    # malformed: no instruction is `c5`
    ("the opcode after the sign extensions", "0061736d01000000010401600000030201000a080106004100c51a0b", malformed(18)),
    # malformed: no instruction is `fc 12`, after `unreachable` too
    ("behind unreachable", "0061736d01000000010401600000030201000a0801060000fc12000b", malformed(18)),
    (
        "behind other sections and before one",
        # malformed: no instruction is `c5`; an export is before the bodies, and data after them
        "0061736d01000000010401600000030201000503010001070501016700000a080106004100c51a0b0b07010041000b0161",
        malformed(30),
    ),
    (
        "in the second body",
        # malformed: the byte after `fc 0b` is 1, in the second of two bodies
        "0061736d01000000010401600000030302000005030100010a11020300000b0b00410041004100fc0b010b",
        malformed(24),
    ),
    (
        "before a body with a fault of its own",
        # malformed: no instruction is `fc 12`; the first body has an operand too few
        "0061736d0100000001040160000003030200000a0b0203001a0b0500fc12000b",
        malformed(19),
    ),
]
