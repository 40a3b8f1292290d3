"""Numeric instructions (Core 1.0, 3.3.1; Core 2.0, 3.3.1), by families: well typed, and of another type."""
from module_faults import TAKEN, invalid

ROWS = [
    # (module (func (local f32 f64) i32.const 0 i32.eqz i32.eqz drop))
    ("i32.eqz", "0061736d01000000010401600000030201000a0d010b02017d017c410045451a0b", TAKEN),
    (
        "comparisons of i32",
        # (module (func (local f32 f64) i32.const 0 i32.const 0 i32.eq i32.eqz drop
        #     i32.const 0 i32.const 0 i32.ne i32.eqz drop i32.const 0 i32.const 0 i32.lt_s i32.eqz drop
        #     i32.const 0 i32.const 0 i32.lt_u i32.eqz drop i32.const 0 i32.const 0 i32.gt_s i32.eqz drop
        #     i32.const 0 i32.const 0 i32.gt_u i32.eqz drop i32.const 0 i32.const 0 i32.le_s i32.eqz drop
        #     i32.const 0 i32.const 0 i32.le_u i32.eqz drop i32.const 0 i32.const 0 i32.ge_s i32.eqz drop
        #     i32.const 0 i32.const 0 i32.ge_u i32.eqz drop))
        "0061736d0100000001040160000003020100"
        "0a4e014c02017d017c4100410046451a4100410047451a4100410048451a4100410049451a410041004a451a410041004b45"
        "1a410041004c451a410041004d451a410041004e451a410041004f451a0b",
        TAKEN,
    ),
    # (module (func (local f32 f64) i64.const 0 i64.eqz i32.eqz drop))
    ("i64.eqz", "0061736d01000000010401600000030201000a0d010b02017d017c420050451a0b", TAKEN),
    (
        "comparisons of i64",
        # (module (func (local f32 f64) i64.const 0 i64.const 0 i64.eq i32.eqz drop
        #     i64.const 0 i64.const 0 i64.ne i32.eqz drop i64.const 0 i64.const 0 i64.lt_s i32.eqz drop
        #     i64.const 0 i64.const 0 i64.lt_u i32.eqz drop i64.const 0 i64.const 0 i64.gt_s i32.eqz drop
        #     i64.const 0 i64.const 0 i64.gt_u i32.eqz drop i64.const 0 i64.const 0 i64.le_s i32.eqz drop
        #     i64.const 0 i64.const 0 i64.le_u i32.eqz drop i64.const 0 i64.const 0 i64.ge_s i32.eqz drop
        #     i64.const 0 i64.const 0 i64.ge_u i32.eqz drop))
        "0061736d0100000001040160000003020100"
        "0a4e014c02017d017c4200420051451a4200420052451a4200420053451a4200420054451a4200420055451a420042005645"
        "1a4200420057451a4200420058451a4200420059451a420042005a451a0b",
        TAKEN,
    ),
    # (module (func (local f32 f64) i32.const 0 i32.clz i32.eqz drop i32.const 0 i32.ctz i32.eqz drop
    #     i32.const 0 i32.popcnt i32.eqz drop))
    ("counts of i32", "0061736d01000000010401600000030201000a17011502017d017c410067451a410068451a410069451a0b", TAKEN),
    (
        "arithmetic of i32",
        # (module (func (local f32 f64) i32.const 0 i32.const 0 i32.add i32.eqz drop
        #     i32.const 0 i32.const 0 i32.sub i32.eqz drop i32.const 0 i32.const 0 i32.mul i32.eqz drop
        #     i32.const 0 i32.const 0 i32.div_s i32.eqz drop i32.const 0 i32.const 0 i32.div_u i32.eqz drop
        #     i32.const 0 i32.const 0 i32.rem_s i32.eqz drop i32.const 0 i32.const 0 i32.rem_u i32.eqz drop
        #     i32.const 0 i32.const 0 i32.and i32.eqz drop i32.const 0 i32.const 0 i32.or i32.eqz drop
        #     i32.const 0 i32.const 0 i32.xor i32.eqz drop i32.const 0 i32.const 0 i32.shl i32.eqz drop
        #     i32.const 0 i32.const 0 i32.shr_s i32.eqz drop i32.const 0 i32.const 0 i32.shr_u i32.eqz drop
        #     i32.const 0 i32.const 0 i32.rotl i32.eqz drop i32.const 0 i32.const 0 i32.rotr i32.eqz drop))
        "0061736d0100000001040160000003020100"
        "0a71016f02017d017c410041006a451a410041006b451a410041006c451a410041006d451a410041006e451a410041006f45"
        "1a4100410070451a4100410071451a4100410072451a4100410073451a4100410074451a4100410075451a4100410076451a"
        "4100410077451a4100410078451a0b",
        TAKEN,
    ),
    # (module (func (local f32 f64) i64.const 0 i64.clz i64.eqz drop i64.const 0 i64.ctz i64.eqz drop
    #     i64.const 0 i64.popcnt i64.eqz drop))
    ("counts of i64", "0061736d01000000010401600000030201000a17011502017d017c420079501a42007a501a42007b501a0b", TAKEN),
    (
        "arithmetic of i64",
        # (module (func (local f32 f64) i64.const 0 i64.const 0 i64.add i64.eqz drop
        #     i64.const 0 i64.const 0 i64.sub i64.eqz drop i64.const 0 i64.const 0 i64.mul i64.eqz drop
        #     i64.const 0 i64.const 0 i64.div_s i64.eqz drop i64.const 0 i64.const 0 i64.div_u i64.eqz drop
        #     i64.const 0 i64.const 0 i64.rem_s i64.eqz drop i64.const 0 i64.const 0 i64.rem_u i64.eqz drop
        #     i64.const 0 i64.const 0 i64.and i64.eqz drop i64.const 0 i64.const 0 i64.or i64.eqz drop
        #     i64.const 0 i64.const 0 i64.xor i64.eqz drop i64.const 0 i64.const 0 i64.shl i64.eqz drop
        #     i64.const 0 i64.const 0 i64.shr_s i64.eqz drop i64.const 0 i64.const 0 i64.shr_u i64.eqz drop
        #     i64.const 0 i64.const 0 i64.rotl i64.eqz drop i64.const 0 i64.const 0 i64.rotr i64.eqz drop))
        "0061736d0100000001040160000003020100"
        "0a71016f02017d017c420042007c501a420042007d501a420042007e501a420042007f501a4200420080501a420042008150"
        "1a4200420082501a4200420083501a4200420084501a4200420085501a4200420086501a4200420087501a4200420088501a"
        "4200420089501a420042008a501a0b",
        TAKEN,
    ),
    # (module (func (local f32 f64) i64.const 0 i32.wrap_i64 i32.eqz drop))
    ("i32.wrap_i64", "0061736d01000000010401600000030201000a0d010b02017d017c4200a7451a0b", TAKEN),
    # (module (func (local f32 f64) i32.const 0 i64.extend_i32_s i64.eqz drop
    #     i32.const 0 i64.extend_i32_u i64.eqz drop))
    ("extensions to i64", "0061736d01000000010401600000030201000a12011002017d017c4100ac501a4100ad501a0b", TAKEN),
    # (module (func (local f32 f64) f32.const 0 i32.reinterpret_f32 i32.eqz drop))
    ("i32.reinterpret_f32", "0061736d01000000010401600000030201000a10010e02017d017c4300000000bc451a0b", TAKEN),
    # (module (func (local f32 f64) f64.const 0 i64.reinterpret_f64 i64.eqz drop))
    ("i64.reinterpret_f64", "0061736d01000000010401600000030201000a14011202017d017c440000000000000000bd501a0b", TAKEN),
    # (module (func (local f32 f64) i32.const 0 f32.reinterpret_i32 local.set 0))
    ("f32.reinterpret_i32", "0061736d01000000010401600000030201000a0d010b02017d017c4100be21000b", TAKEN),
    # (module (func (local f32 f64) i64.const 0 f64.reinterpret_i64 local.set 1))
    ("f64.reinterpret_i64", "0061736d01000000010401600000030201000a0d010b02017d017c4200bf21010b", TAKEN),
    # (module (func (local f32 f64) i64.const 0 i32.eqz i32.eqz drop))
    ("i32.eqz of another type", "0061736d01000000010401600000030201000a0d010b02017d017c420045451a0b", invalid(0)),
    # (module (func (local f32 f64) i32.const 0 i32.eqz i64.eqz drop))
    ("i32.eqz as another type", "0061736d01000000010401600000030201000a0d010b02017d017c410045501a0b", invalid(0)),
    (
        "comparisons of i32 of another type",
        # (module (func (local f32 f64) i32.const 0 i64.const 0 i32.ge_u i32.eqz drop))
        "0061736d01000000010401600000030201000a0f010d02017d017c410042004f451a0b",
        invalid(0),
    ),
    (
        "comparisons of i32 as another type",
        # (module (func (local f32 f64) i32.const 0 i32.const 0 i32.ge_u i64.eqz drop))
        "0061736d01000000010401600000030201000a0f010d02017d017c410041004f501a0b",
        invalid(0),
    ),
    # (module (func (local f32 f64) i32.const 0 i64.eqz i32.eqz drop))
    ("i64.eqz of another type", "0061736d01000000010401600000030201000a0d010b02017d017c410050451a0b", invalid(0)),
    # (module (func (local f32 f64) i64.const 0 i64.eqz i64.eqz drop))
    ("i64.eqz as another type", "0061736d01000000010401600000030201000a0d010b02017d017c420050501a0b", invalid(0)),
    (
        "comparisons of i64 of another type",
        # (module (func (local f32 f64) i64.const 0 i32.const 0 i64.ge_u i32.eqz drop))
        "0061736d01000000010401600000030201000a0f010d02017d017c420041005a451a0b",
        invalid(0),
    ),
    (
        "comparisons of i64 as another type",
        # (module (func (local f32 f64) i64.const 0 i64.const 0 i64.ge_u i64.eqz drop))
        "0061736d01000000010401600000030201000a0f010d02017d017c420042005a501a0b",
        invalid(0),
    ),
    # (module (func (local f32 f64) i64.const 0 i32.popcnt i32.eqz drop))
    ("counts of i32 of another type", "0061736d01000000010401600000030201000a0d010b02017d017c420069451a0b", invalid(0)),
    # (module (func (local f32 f64) i32.const 0 i32.popcnt i64.eqz drop))
    ("counts of i32 as another type", "0061736d01000000010401600000030201000a0d010b02017d017c410069501a0b", invalid(0)),
    (
        "arithmetic of i32 of another type",
        # (module (func (local f32 f64) i32.const 0 i64.const 0 i32.rotr i32.eqz drop))
        "0061736d01000000010401600000030201000a0f010d02017d017c4100420078451a0b",
        invalid(0),
    ),
    (
        "arithmetic of i32 as another type",
        # (module (func (local f32 f64) i32.const 0 i32.const 0 i32.rotr i64.eqz drop))
        "0061736d01000000010401600000030201000a0f010d02017d017c4100410078501a0b",
        invalid(0),
    ),
    # (module (func (local f32 f64) i32.const 0 i64.popcnt i64.eqz drop))
    ("counts of i64 of another type", "0061736d01000000010401600000030201000a0d010b02017d017c41007b501a0b", invalid(0)),
    # (module (func (local f32 f64) i64.const 0 i64.popcnt i32.eqz drop))
    ("counts of i64 as another type", "0061736d01000000010401600000030201000a0d010b02017d017c42007b451a0b", invalid(0)),
    (
        "arithmetic of i64 of another type",
        # (module (func (local f32 f64) i64.const 0 i32.const 0 i64.rotr i64.eqz drop))
        "0061736d01000000010401600000030201000a0f010d02017d017c420041008a501a0b",
        invalid(0),
    ),
    (
        "arithmetic of i64 as another type",
        # (module (func (local f32 f64) i64.const 0 i64.const 0 i64.rotr i32.eqz drop))
        "0061736d01000000010401600000030201000a0f010d02017d017c420042008a451a0b",
        invalid(0),
    ),
    # (module (func (local f32 f64) i32.const 0 i32.wrap_i64 i32.eqz drop))
    ("i32.wrap_i64 of another type", "0061736d01000000010401600000030201000a0d010b02017d017c4100a7451a0b", invalid(0)),
    # (module (func (local f32 f64) i64.const 0 i32.wrap_i64 i64.eqz drop))
    ("i32.wrap_i64 as another type", "0061736d01000000010401600000030201000a0d010b02017d017c4200a7501a0b", invalid(0)),
    (
        "extensions to i64 of another type",
        # (module (func (local f32 f64) i64.const 0 i64.extend_i32_u i64.eqz drop))
        "0061736d01000000010401600000030201000a0d010b02017d017c4200ad501a0b",
        invalid(0),
    ),
    (
        "extensions to i64 as another type",
        # (module (func (local f32 f64) i32.const 0 i64.extend_i32_u i32.eqz drop))
        "0061736d01000000010401600000030201000a0d010b02017d017c4100ad451a0b",
        invalid(0),
    ),
    (
        "i32.reinterpret_f32 of another type",
        # (module (func (local f32 f64) i32.const 0 i32.reinterpret_f32 i32.eqz drop))
        "0061736d01000000010401600000030201000a0d010b02017d017c4100bc451a0b",
        invalid(0),
    ),
    (
        "i32.reinterpret_f32 as another type",
        # (module (func (local f32 f64) f32.const 0 i32.reinterpret_f32 i64.eqz drop))
        "0061736d01000000010401600000030201000a10010e02017d017c4300000000bc501a0b",
        invalid(0),
    ),
    (
        "i64.reinterpret_f64 of another type",
        # (module (func (local f32 f64) i64.const 0 i64.reinterpret_f64 i64.eqz drop))
        "0061736d01000000010401600000030201000a0d010b02017d017c4200bd501a0b",
        invalid(0),
    ),
    (
        "i64.reinterpret_f64 as another type",
        # (module (func (local f32 f64) f64.const 0 i64.reinterpret_f64 i32.eqz drop))
        "0061736d01000000010401600000030201000a14011202017d017c440000000000000000bd451a0b",
        invalid(0),
    ),
    (
        "f32.reinterpret_i32 of another type",
        # (module (func (local f32 f64) i64.const 0 f32.reinterpret_i32 local.set 0))
        "0061736d01000000010401600000030201000a0d010b02017d017c4200be21000b",
        invalid(0),
    ),
    (
        "f32.reinterpret_i32 as another type",
        # (module (func (local f32 f64) i32.const 0 f32.reinterpret_i32 i32.eqz drop))
        "0061736d01000000010401600000030201000a0d010b02017d017c4100be451a0b",
        invalid(0),
    ),
    (
        "f64.reinterpret_i64 of another type",
        # (module (func (local f32 f64) i32.const 0 f64.reinterpret_i64 local.set 1))
        "0061736d01000000010401600000030201000a0d010b02017d017c4100bf21010b",
        invalid(0),
    ),
    (
        "f64.reinterpret_i64 as another type",
        # (module (func (local f32 f64) i64.const 0 f64.reinterpret_i64 i64.eqz drop))
        "0061736d01000000010401600000030201000a0d010b02017d017c4200bf501a0b",
        invalid(0),
    ),
    # (module (func (local f32 f64) i32.const 0 i32.extend8_s i32.eqz drop i32.const 0 i32.extend16_s i32.eqz
    #   drop))
    ("sign extensions of i32", "0061736d01000000010401600000030201000a12011002017d017c4100c0451a4100c1451a0b", TAKEN),
    (
        "sign extensions of i64",
        # (module (func (local f32 f64) i64.const 0 i64.extend8_s i64.eqz drop i64.const 0 i64.extend16_s i64.eqz drop
        #   i64.const 0 i64.extend32_s i64.eqz drop))
        "0061736d01000000010401600000030201000a17011502017d017c4200c2501a4200c3501a4200c4501a0b",
        TAKEN,
    ),
    (
        "sign extensions one after the other",
        # (module (func i64.const 0 i64.extend32_s i64.extend16_s i64.extend8_s i32.wrap_i64 i32.extend16_s
        #   i32.extend8_s drop))
        "0061736d01000000010401600000030201000a0d010b004200c4c3c2a7c1c01a0b",
        TAKEN,
    ),
    # (module (func (local f32 f64) i64.const 0 i32.extend8_s i32.eqz drop))
    ("i32.extend8_s of another type", "0061736d01000000010401600000030201000a0d010b02017d017c4200c0451a0b", invalid(0)),
    # (module (func (local f32 f64) i32.const 0 i32.extend8_s i64.eqz drop))
    ("i32.extend8_s as another type", "0061736d01000000010401600000030201000a0d010b02017d017c4100c0501a0b", invalid(0)),
    # (module (func (local f32 f64) i32.const 0 i32.extend8_s))
    ("i32.extend8_s left over", "0061736d01000000010401600000030201000a0b010902017d017c4100c00b", invalid(0)),
    (
        "i32.extend16_s of another type",
        # (module (func (local f32 f64) i64.const 0 i32.extend16_s i32.eqz drop))
        "0061736d01000000010401600000030201000a0d010b02017d017c4200c1451a0b",
        invalid(0),
    ),
    (
        "i32.extend16_s as another type",
        # (module (func (local f32 f64) i32.const 0 i32.extend16_s i64.eqz drop))
        "0061736d01000000010401600000030201000a0d010b02017d017c4100c1501a0b",
        invalid(0),
    ),
    # (module (func (local f32 f64) i32.const 0 i32.extend16_s))
    ("i32.extend16_s left over", "0061736d01000000010401600000030201000a0b010902017d017c4100c10b", invalid(0)),
    # (module (func (local f32 f64) i32.const 0 i64.extend8_s i64.eqz drop))
    ("i64.extend8_s of another type", "0061736d01000000010401600000030201000a0d010b02017d017c4100c2501a0b", invalid(0)),
    # (module (func (local f32 f64) i64.const 0 i64.extend8_s i32.eqz drop))
    ("i64.extend8_s as another type", "0061736d01000000010401600000030201000a0d010b02017d017c4200c2451a0b", invalid(0)),
    # (module (func (local f32 f64) i64.const 0 i64.extend8_s))
    ("i64.extend8_s left over", "0061736d01000000010401600000030201000a0b010902017d017c4200c20b", invalid(0)),
    (
        "i64.extend16_s of another type",
        # (module (func (local f32 f64) i32.const 0 i64.extend16_s i64.eqz drop))
        "0061736d01000000010401600000030201000a0d010b02017d017c4100c3501a0b",
        invalid(0),
    ),
    (
        "i64.extend16_s as another type",
        # (module (func (local f32 f64) i64.const 0 i64.extend16_s i32.eqz drop))
        "0061736d01000000010401600000030201000a0d010b02017d017c4200c3451a0b",
        invalid(0),
    ),
    # (module (func (local f32 f64) i64.const 0 i64.extend16_s))
    ("i64.extend16_s left over", "0061736d01000000010401600000030201000a0b010902017d017c4200c30b", invalid(0)),
    (
        "i64.extend32_s of another type",
        # (module (func (local f32 f64) i32.const 0 i64.extend32_s i64.eqz drop))
        "0061736d01000000010401600000030201000a0d010b02017d017c4100c4501a0b",
        invalid(0),
    ),
    (
        "i64.extend32_s as another type",
        # (module (func (local f32 f64) i64.const 0 i64.extend32_s i32.eqz drop))
        "0061736d01000000010401600000030201000a0d010b02017d017c4200c4451a0b",
        invalid(0),
    ),
    # (module (func (local f32 f64) i64.const 0 i64.extend32_s))
    ("i64.extend32_s left over", "0061736d01000000010401600000030201000a0b010902017d017c4200c40b", invalid(0)),
    # (module (func i32.extend8_s drop))
    ("i32.extend8_s of nothing", "0061736d01000000010401600000030201000a06010400c01a0b", invalid(0)),
    # (module (func f64.const 0 i64.extend32_s drop))
    ("i64.extend32_s of an f64", "0061736d01000000010401600000030201000a0f010d00440000000000000000c41a0b", invalid(0)),
]
