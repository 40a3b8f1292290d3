"""Bodies that break one rule (Core 1.0, 3.3): operands, blocks, branches, `drop` and `select`."""
from module_faults import TAKEN, invalid

ROWS = [
    # (module (func i64.const 0 i32.eqz drop))
    ("an operand of another type", "0061736d01000000010401600000030201000a080106004200451a0b", invalid(0)),
    # (module (func i64.const 0 i32.const 0 i32.add drop))
    ("a first operand of another type", "0061736d01000000010401600000030201000a0a010800420041006a1a0b", invalid(0)),
    # (module (func i32.const 0 i64.const 0 i32.add drop))
    ("a second operand of another type", "0061736d01000000010401600000030201000a0a010800410042006a1a0b", invalid(0)),
    # (module (func i32.const 0 i32.add drop))
    ("an operand is missing", "0061736d01000000010401600000030201000a0801060041006a1a0b", invalid(0)),
    # (module (func i32.eqz drop))
    ("no operand", "0061736d01000000010401600000030201000a06010400451a0b", invalid(0)),
    # (module (func drop))
    ("drop of nothing", "0061736d01000000010401600000030201000a050103001a0b", invalid(0)),
    # (module (func i32.const 0 block drop end))
    ("drop of what is below the block", "0061736d01000000010401600000030201000a0a010800410002401a0b0b", invalid(0)),
    (
        "a result from an operand below the block",
        # (module (func i32.const 0 block (result i32) i32.eqz end drop drop))
        "0061736d01000000010401600000030201000a0c010a004100027f450b1a1a0b",
        invalid(0),
    ),
    # (module (func i32.const 0 loop drop end))
    ("drop of what is below the loop", "0061736d01000000010401600000030201000a0a010800410003401a0b0b", invalid(0)),
    # (module (func i32.const 0 i32.const 0 if drop end))
    ("drop of what is below the if", "0061736d01000000010401600000030201000a0c010a004100410004401a0b0b", invalid(0)),
    (
        "drop of what is below the else",
        # (module (func i32.const 0 i32.const 0 if else drop end))
        "0061736d01000000010401600000030201000a0d010b00410041000440051a0b0b",
        invalid(0),
    ),
    # (module (func (result i32)))
    ("a result is missing", "0061736d010000000105016000017f030201000a040102000b", invalid(0)),
    # (module (func (result i32) i64.const 0))
    ("a result of another type", "0061736d010000000105016000017f030201000a0601040042000b", invalid(0)),
    # (module (func i32.const 0))
    ("a result left over", "0061736d01000000010401600000030201000a0601040041000b", invalid(0)),
    # (module (func (result i32) i32.const 0 i32.const 0))
    ("two for one result", "0061736d010000000105016000017f030201000a08010600410041000b", invalid(0)),
    # (module (func block (result i32) end drop))
    ("a result of a block is missing", "0061736d01000000010401600000030201000a08010600027f0b1a0b", invalid(0)),
    (
        "a result of a block has another type",
        # (module (func block (result i32) i64.const 0 end drop))
        "0061736d01000000010401600000030201000a0a010800027f42000b1a0b",
        invalid(0),
    ),
    # (module (func block i32.const 0 end))
    ("a result of a block left over", "0061736d01000000010401600000030201000a09010700024041000b0b", invalid(0)),
    (
        "a result of a block used as another type",
        # (module (func block (result i64) i64.const 0 end i32.eqz drop))
        "0061736d01000000010401600000030201000a0b010900027e42000b451a0b",
        invalid(0),
    ),
    # (module (func loop (result i32) end drop))
    ("a result of a loop is missing", "0061736d01000000010401600000030201000a08010600037f0b1a0b", invalid(0)),
    # (module (func loop i32.const 0 end))
    ("a result of a loop left over", "0061736d01000000010401600000030201000a09010700034041000b0b", invalid(0)),
    # (module (func i32.const 0 if (result i32) i32.const 0 end drop))
    ("if without else with a result", "0061736d01000000010401600000030201000a0c010a004100047f41000b1a0b", invalid(0)),
    # (module (func i64.const 0 if end))
    ("a condition of an if of another type", "0061736d01000000010401600000030201000a09010700420004400b0b", invalid(0)),
    # (module (func if end))
    ("a condition of an if is missing", "0061736d01000000010401600000030201000a0701050004400b0b", invalid(0)),
    (
        "the first arm of another type",
        # (module (func i32.const 0 if (result i32) i64.const 0 else i32.const 0 end drop))
        "0061736d01000000010401600000030201000a0f010d004100047f42000541000b1a0b",
        invalid(0),
    ),
    (
        "the second arm of another type",
        # (module (func i32.const 0 if (result i32) i32.const 0 else i64.const 0 end drop))
        "0061736d01000000010401600000030201000a0f010d004100047f41000542000b1a0b",
        invalid(0),
    ),
    # (module (func i32.const 0 if (result i32) else i32.const 0 end drop))
    ("the first arm without result", "0061736d01000000010401600000030201000a0d010b004100047f0541000b1a0b", invalid(0)),
    # (module (func i32.const 0 if (result i32) i32.const 0 end drop)), with an `else` before nothing
    ("the second arm without result", "0061736d01000000010401600000030201000a0d010b004100047f4100050b1a0b", invalid(0)),
    (
        "the first arm with a result left over",
        # (module (func i32.const 0 if i32.const 0 end)), with an `else` before nothing
        "0061736d01000000010401600000030201000a0c010a00410004404100050b0b",
        invalid(0),
    ),
    (
        "the second arm with a result left over",
        # (module (func i32.const 0 if else i32.const 0 end))
        "0061736d01000000010401600000030201000a0c010a00410004400541000b0b",
        invalid(0),
    ),
    # (module (func (result i32) i64.const 0 br 0))
    ("br with a value of another type", "0061736d010000000105016000017f030201000a0801060042000c000b", invalid(0)),
    # (module (func (result i32) br 0))
    ("br without its value", "0061736d010000000105016000017f030201000a060104000c000b", invalid(0)),
    (
        "br to a block with a value of another type",
        # (module (func block (result i64) i32.const 0 br 0 end drop))
        "0061736d01000000010401600000030201000a0c010a00027e41000c000b1a0b",
        invalid(0),
    ),
    (
        "br to an outer block with a value of another type",
        # (module (func block (result i64) block (result i32) i32.const 0 br 1 end drop i64.const 0 end drop))
        "0061736d01000000010401600000030201000a12011000027e027f41000c010b1a42000b1a0b",
        invalid(0),
    ),
    (
        "br with a value from below its block",
        # (module (func i32.const 0 block (result i32) br 0 end drop drop))
        "0061736d01000000010401600000030201000a0d010b004100027f0c000b1a1a0b",
        invalid(0),
    ),
    # (module (func br 1))
    ("br to a label that is not there", "0061736d01000000010401600000030201000a060104000c010b", invalid(0)),
    # (module (func i64.const 0 br_if 0))
    ("br_if with a condition of another type", "0061736d01000000010401600000030201000a0801060042000d000b", invalid(0)),
    # (module (func br_if 0))
    ("br_if without a condition", "0061736d01000000010401600000030201000a060104000d000b", invalid(0)),
    (
        "br_if with a value of another type",
        # (module (func (result i32) i64.const 0 i32.const 0 br_if 0))
        "0061736d010000000105016000017f030201000a0a010800420041000d000b",
        invalid(0),
    ),
    # (module (func (result i32) i32.const 0 br_if 0 drop i32.const 0))
    ("br_if without its value", "0061736d010000000105016000017f030201000a0b01090041000d001a41000b", invalid(0)),
    # (module (func i32.const 0 br_if 1))
    ("br_if to a label that is not there", "0061736d01000000010401600000030201000a0801060041000d010b", invalid(0)),
    (
        "br_table with an index of another type",
        # (module (func i64.const 0 br_table 0))
        "0061736d01000000010401600000030201000a0901070042000e00000b",
        invalid(0),
    ),
    # (module (func br_table 0))
    ("br_table without an index", "0061736d01000000010401600000030201000a070105000e00000b", invalid(0)),
    (
        "br_table with a value of another type",
        # (module (func (result i32) i64.const 0 i32.const 0 br_table 0))
        "0061736d010000000105016000017f030201000a0b010900420041000e00000b",
        invalid(0),
    ),
    # (module (func (result i32) i32.const 0 br_table 0))
    ("br_table without its value", "0061736d010000000105016000017f030201000a0901070041000e00000b", invalid(0)),
    (
        "br_table with a label that is not there",
        # (module (func i32.const 0 br_table 1 0))
        "0061736d01000000010401600000030201000a0a01080041000e0101000b",
        invalid(0),
    ),
    (
        "br_table with a last label that is not there",
        # (module (func i32.const 0 br_table 0 1))
        "0061736d01000000010401600000030201000a0a01080041000e0100010b",
        invalid(0),
    ),
    (
        "br_table with labels of a value and of none",
        # (module (func (result i32) block i32.const 0 i32.const 0 br_table 0 1 end i32.const 0))
        "0061736d010000000105016000017f030201000a11010f000240410041000e0100010b41000b",
        invalid(0),
    ),
    (
        "br_table with labels of two types",
        # (module (func block (result i64) block (result i32) i32.const 0 i32.const 0 br_table 1 0 end drop
        #     i64.const 0 end drop))
        "0061736d01000000010401600000030201000a16011400027e027f410041000e0101000b1a42000b1a0b",
        invalid(0),
    ),
    (
        "the same after unreachable",
        # (module
        #   (func block (result i64) block (result i32) unreachable br_table 1 0 end drop i64.const 0 end drop))
        "0061736d01000000010401600000030201000a13011100027e027f000e0101000b1a42000b1a0b",
        invalid(0),
    ),
    (
        "labels of a value and of none after unreachable",
        # (module (func (result i32) block unreachable br_table 0 1 end i32.const 0))
        "0061736d010000000105016000017f030201000a0e010c000240000e0100010b41000b",
        invalid(0),
    ),
    (
        "br_table with labels of one type",
        # (module
        #   (func (result i32) block (result i32) block (result i32) i32.const 0 i32.const 0 br_table 0 1 2 end end))
        "0061736d010000000105016000017f030201000a13011100027f027f410041000e020001020b0b0b",
        TAKEN,
    ),
    # (module (func (result i32) i64.const 0 return))
    ("return of another type", "0061736d010000000105016000017f030201000a0701050042000f0b", invalid(0)),
    # (module (func (result i32) return))
    ("return without its value", "0061736d010000000105016000017f030201000a050103000f0b", invalid(0)),
    (
        "return with a value from below its block",
        # (module (func (result i32) i32.const 0 block return end))
        "0061736d010000000105016000017f030201000a0a010800410002400f0b0b",
        invalid(0),
    ),
    # (module (func i32.const 0 i64.const 0 i32.const 0 select drop))
    ("select of two types", "0061736d01000000010401600000030201000a0c010a004100420041001b1a0b", invalid(0)),
    # (module (func i32.const 0 i32.const 0 i64.const 0 select drop))
    ("select by another type", "0061736d01000000010401600000030201000a0c010a004100410042001b1a0b", invalid(0)),
    # (module (func i32.const 0 i32.const 0 select drop))
    ("select of one", "0061736d01000000010401600000030201000a0a010800410041001b1a0b", invalid(0)),
    # (module (func (result i32) i64.const 0 i64.const 0 i32.const 0 select))
    ("select of an i64 as an i32", "0061736d010000000105016000017f030201000a0b0109004200420041001b0b", invalid(0)),
    # (module (func (result f32) f32.const 0 f32.const 0 i32.const 0 select))
    ("select of floats", "0061736d010000000105016000017d030201000a11010f004300000000430000000041001b0b", TAKEN),
]
