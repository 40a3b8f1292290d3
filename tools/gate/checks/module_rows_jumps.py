"""Code after jumps (Core 1.0, 3.3.5): of any operands, but typed as other code is."""
from module_faults import TAKEN, invalid

ROWS = [
    # (module (func (result i32) unreachable))
    ("unreachable gives any result", "0061736d010000000105016000017f030201000a05010300000b", TAKEN),
    # (module (func (result i32) unreachable i32.add))
    ("operands of any type after unreachable", "0061736d010000000105016000017f030201000a06010400006a0b", TAKEN),
    # (module (func (result i32) unreachable i32.const 0 i32.add))
    ("one operand of any type, one known", "0061736d010000000105016000017f030201000a080106000041006a0b", TAKEN),
    # (module (func unreachable drop))
    ("drop after unreachable", "0061736d01000000010401600000030201000a06010400001a0b", TAKEN),
    # (module (func (result i32) unreachable select))
    ("select of operands of any type", "0061736d010000000105016000017f030201000a06010400001b0b", TAKEN),
    # (module (func (result i64) unreachable i32.const 0 select))
    ("select of two of any type by a known one", "0061736d010000000105016000017e030201000a080106000041001b0b", TAKEN),
    (
        "select of one of any type and one known",
        # (module (func unreachable i64.const 0 i32.const 0 select drop))
        "0061736d01000000010401600000030201000a0b01090000420041001b1a0b",
        TAKEN,
    ),
    # (module (func (local i64) unreachable local.set 0))
    ("local.set after unreachable", "0061736d01000000010401600000030201000a09010701017e0021000b", TAKEN),
    # (module (func (result i64) (local i64) unreachable local.tee 0))
    ("local.tee after unreachable", "0061736d010000000105016000017e030201000a09010701017e0022000b", TAKEN),
    # (module (memory 1) (func (result i32) unreachable i32.load))
    ("load after unreachable", "0061736d010000000105016000017f0302010005030100010a08010600002802000b", TAKEN),
    # (module (memory 1) (func unreachable i32.store))
    ("store after unreachable", "0061736d010000000104016000000302010005030100010a08010600003602000b", TAKEN),
    # (module (func unreachable call 1) (func (param i32 i64)))
    ("call after unreachable", "0061736d0100000001090260000060027f7e0003030200010a0a0205000010010b02000b", TAKEN),
    # (module (func unreachable if end))
    ("if after unreachable", "0061736d01000000010401600000030201000a080106000004400b0b", TAKEN),
    (
        "br_if after unreachable gives its operand back",
        # (module (func (result i64) unreachable br_if 0))
        "0061736d010000000105016000017e030201000a07010500000d000b",
        TAKEN,
    ),
    # (module (func (result i64) unreachable br_table 0 0))
    ("br_table after unreachable", "0061736d010000000105016000017e030201000a09010700000e0100000b", TAKEN),
    # (module (func (result f32) unreachable return))
    ("return after unreachable", "0061736d010000000105016000017d030201000a06010400000f0b", TAKEN),
    # (module (func (result i32) block (result i32) i32.const 1 br 0 i32.add end))
    ("code after br", "0061736d010000000105016000017f030201000a0c010a00027f41010c006a0b0b", TAKEN),
    # (module (func (result i32) block (result i32) i32.const 0 br 0 i32.const 0 end))
    ("a result after br", "0061736d010000000105016000017f030201000a0d010b00027f41000c0041000b0b", TAKEN),
    # (module (func (result i32) block (result i32) i64.const 0 i32.const 0 br 0 end))
    ("operands that br leaves", "0061736d010000000105016000017f030201000a0d010b00027f420041000c000b0b", TAKEN),
    # (module (func (result i32) block i32.const 0 br 1 end unreachable))
    ("br to the function", "0061736d010000000105016000017f030201000a0c010a00024041000c010b000b", TAKEN),
    # (module (func (result i32) loop (result i32) br 0 end))
    ("br to a loop takes nothing", "0061736d010000000105016000017f030201000a09010700037f0c000b0b", TAKEN),
    # (module (func (result i32) i32.const 0 i32.const 0 br_table 0 i32.add))
    ("code after br_table", "0061736d010000000105016000017f030201000a0c010a00410041000e00006a0b", TAKEN),
    # (module (func (result i32) i64.const 0 i32.const 0 i32.const 0 br_table 0 0))
    ("operands that br_table leaves", "0061736d010000000105016000017f030201000a0e010c004200410041000e0100000b", TAKEN),
    # (module (func (result i32) i32.const 0 return i32.add))
    ("code after return", "0061736d010000000105016000017f030201000a0801060041000f6a0b", TAKEN),
    # (module (func (result i32) i64.const 0 i32.const 0 return))
    ("operands that return leaves", "0061736d010000000105016000017f030201000a09010700420041000f0b", TAKEN),
    # (module (func (result i32) block (result i64) i32.const 0 return end drop i32.const 0))
    ("return from within a block", "0061736d010000000105016000017f030201000a0d010b00027e41000f0b1a41000b", TAKEN),
    # (module (func (result i32) i32.const 0 if (result i32) unreachable else unreachable end))
    ("both arms of an if jump", "0061736d010000000105016000017f030201000a0c010a004100047f0005000b0b", TAKEN),
    # (module (func (result i32) i32.const 0 if (result i32) unreachable else i32.const 0 end))
    ("one arm of an if jumps", "0061736d010000000105016000017f030201000a0d010b004100047f000541000b0b", TAKEN),
    # (module (func (result i32) block unreachable end i32.const 0))
    ("what follows a block is reached", "0061736d010000000105016000017f030201000a0a0108000240000b41000b", TAKEN),
    # (module (func (result i32) i32.const 0 i32.const 0 br_if 0))
    ("br_if gives its operand back", "0061736d010000000105016000017f030201000a0a010800410041000d000b", TAKEN),
    (
        "sign extensions after unreachable",
        # (module (func unreachable i32.extend8_s drop i32.extend16_s drop i64.extend8_s drop i64.extend16_s drop
        #   i64.extend32_s drop))
        "0061736d01000000010401600000030201000a0f010d0000c01ac11ac21ac31ac41a0b",
        TAKEN,
    ),
    # (module (memory 1) (func unreachable memory.copy))
    ("memory.copy after unreachable", "0061736d010000000104016000000302010005030100010a0901070000fc0a00000b", TAKEN),
    (
        "memory.fill of two of any type and one known",
        # (module (memory 1) (func unreachable i32.const 0 memory.fill))
        "0061736d010000000104016000000302010005030100010a0a010800004100fc0b000b",
        TAKEN,
    ),
    (
        "memory.copy gives nothing after unreachable",
        # (module (memory 1) (func (result i32) unreachable memory.copy))
        "0061736d010000000105016000017f0302010005030100010a0901070000fc0a00000b",
        TAKEN,
    ),
    (
        "an operand of another type after unreachable",
        # (module (func unreachable i64.const 0 i32.add drop))
        "0061736d01000000010401600000030201000a090107000042006a1a0b",
        invalid(0),
    ),
    (
        "a result of another type after unreachable",
        # (module (func (result i32) unreachable i64.const 0))
        "0061736d010000000105016000017f030201000a070105000042000b",
        invalid(0),
    ),
    # (module (func (result i32) unreachable i32.const 0 i32.const 0))
    ("results left over after unreachable", "0061736d010000000105016000017f030201000a0901070000410041000b", invalid(0)),
    # (module (func unreachable i32.const 0))
    ("a result left over after unreachable", "0061736d01000000010401600000030201000a070105000041000b", invalid(0)),
    (
        "a select of two types after unreachable",
        # (module (func unreachable i32.const 0 i64.const 0 i32.const 0 select drop))
        "0061736d01000000010401600000030201000a0d010b00004100420041001b1a0b",
        invalid(0),
    ),
    (
        "a select of an i64 as an i32 after unreachable",
        # (module (func (result i32) unreachable i64.const 0 i32.const 0 select))
        "0061736d010000000105016000017f030201000a0a01080000420041001b0b",
        invalid(0),
    ),
    (
        "br_if with a value of another type after unreachable",
        # (module (func (result i32) unreachable i64.const 0 i32.const 0 br_if 0))
        "0061736d010000000105016000017f030201000a0b01090000420041000d000b",
        invalid(0),
    ),
    (
        "br_table with a value of another type after unreachable",
        # (module (func (result i32) unreachable i64.const 0 i32.const 0 br_table 0))
        "0061736d010000000105016000017f030201000a0c010a0000420041000e00000b",
        invalid(0),
    ),
    (
        "return with a value of another type after unreachable",
        # (module (func (result i32) unreachable i64.const 0 return))
        "0061736d010000000105016000017f030201000a080106000042000f0b",
        invalid(0),
    ),
    (
        "a function that is not there after unreachable",
        # (module (func unreachable call 1))
        "0061736d01000000010401600000030201000a070105000010010b",
        invalid(0),
    ),
    (
        "a local that is not there after unreachable",
        # (module (func unreachable local.get 0 drop))
        "0061736d01000000010401600000030201000a080106000020001a0b",
        invalid(0),
    ),
    (
        "a label that is not there after unreachable",
        # (module (func unreachable br 1))
        "0061736d01000000010401600000030201000a07010500000c010b",
        invalid(0),
    ),
    (
        "a sign extension as another type after unreachable",
        # (module (func (result i64) unreachable i32.extend16_s))
        "0061736d010000000105016000017e030201000a0601040000c10b",
        invalid(0),
    ),
    (
        "a sign extension of another type after unreachable",
        # (module (func unreachable i32.const 0 i64.extend32_s drop))
        "0061736d01000000010401600000030201000a09010700004100c41a0b",
        invalid(0),
    ),
    (
        "memory.copy with a target of another type after unreachable",
        # (module (memory 1) (func unreachable i64.const 0 i32.const 0 i32.const 0 memory.copy))
        "0061736d010000000104016000000302010005030100010a0f010d0000420041004100fc0a00000b",
        invalid(0),
    ),
    (
        "memory.fill with a byte of another type after unreachable",
        # (module (memory 1) (func unreachable i64.const 0 i32.const 0 memory.fill))
        "0061736d010000000104016000000302010005030100010a0c010a000042004100fc0b000b",
        invalid(0),
    ),
    (
        "memory.copy without a memory after unreachable",
        # (module (func unreachable memory.copy))
        "0061736d01000000010401600000030201000a0901070000fc0a00000b",
        invalid(0),
    ),
    (
        "memory.fill without a memory after unreachable",
        # (module (func unreachable memory.fill))
        "0061736d01000000010401600000030201000a0801060000fc0b000b",
        invalid(0),
    ),
    (
        "memory.fill of an operand below the block",
        # (module (memory 1) (func unreachable block i32.const 0 i32.const 0 memory.fill end))
        "0061736d010000000104016000000302010005030100010a0f010d0000024041004100fc0b000b0b",
        invalid(0),
    ),
    (
        "a block within code after unreachable has its own operands",
        # (module (func (result i32) unreachable block (result i32) i32.add end))
        "0061736d010000000105016000017f030201000a0901070000027f6a0b0b",
        invalid(0),
    ),
    (
        "an operand that is missing after a block",
        # (module (func (result i32) block unreachable end i32.add))
        "0061736d010000000105016000017f030201000a090107000240000b6a0b",
        invalid(0),
    ),
    (
        "else after unreachable is reached",
        # (module (func (result i32) i32.const 0 if (result i32) unreachable else i32.add end))
        "0061736d010000000105016000017f030201000a0c010a004100047f00056a0b0b",
        invalid(0),
    ),
]
