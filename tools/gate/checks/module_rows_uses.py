"""Calls, locals and globals (Core 1.0, 3.3.3 and 3.3.5), each rule kept and broken."""
from module_faults import TAKEN, invalid

ROWS = [
    (
        "call with an argument of another type",
        # (module (func i64.const 0 call 1) (func (param i32)))
        "0061736d0100000001080260000060017f0003030200010a0b020600420010010b02000b",
        invalid(0),
    ),
    # (module (func call 1) (func (param i32)))
    ("call without its argument", "0061736d0100000001080260000060017f0003030200010a0902040010010b02000b", invalid(0)),
    (
        "call of a function that is not there",
        # (module (func i32.const 0 call 2) (func (param i32)))
        "0061736d0100000001080260000060017f0003030200010a0b020600410010020b02000b",
        invalid(0),
    ),
    (
        "call with two arguments",
        # (module (func i32.const 0 i64.const 0 call 1 drop) (func (param i32 i64) (result i32) local.get 0))
        "0061736d01000000010a0260000060027f7e017f03030200010a100209004100420010011a0b040020000b",
        TAKEN,
    ),
    (
        "call with its arguments turned",
        # (module (func i64.const 0 i32.const 0 call 1 drop) (func (param i32 i64) (result i32) local.get 0))
        "0061736d01000000010a0260000060027f7e017f03030200010a100209004200410010011a0b040020000b",
        invalid(0),
    ),
    (
        "call with its result left over",
        # (module (func i32.const 0 i64.const 0 call 1) (func (param i32 i64) (result i32) local.get 0))
        "0061736d01000000010a0260000060027f7e017f03030200010a0f0208004100420010010b040020000b",
        invalid(0),
    ),
    (
        "call with its result as another type",
        # (module (func i32.const 0 i64.const 0 call 1 i64.eqz drop) (func (param i32 i64) (result i32) local.get 0))
        "0061736d01000000010a0260000060027f7e017f03030200010a11020a00410042001001501a0b040020000b",
        invalid(0),
    ),
    (
        "call of an import with an argument of another type",
        # (module (import "h" "f" (func (param i32))) (func i64.const 0 call 0))
        "0061736d0100000001080260017f00600000020701016801660000030201010a08010600420010000b",
        invalid(1),
    ),
    # (module (table 1 funcref) (func i32.const 0 call_indirect))
    ("call_indirect", "0061736d01000000010401600000030201000404017000010a0901070041001100000b", TAKEN),
    # (module (func i32.const 0 call_indirect))
    ("call_indirect without a table", "0061736d01000000010401600000030201000a0901070041001100000b", invalid(0)),
    (
        "call_indirect by an index of another type",
        # (module (table 1 funcref) (func i64.const 0 call_indirect))
        "0061736d01000000010401600000030201000404017000010a0901070042001100000b",
        invalid(0),
    ),
    (
        "call_indirect without an index",
        # (module (table 1 funcref) (func call_indirect))
        "0061736d01000000010401600000030201000404017000010a070105001100000b",
        invalid(0),
    ),
    (
        "call_indirect of a type that is not there",
        # (module (table 1 funcref) (func i32.const 0 call_indirect (type 1)))
        "0061736d01000000010401600000030201000404017000010a0901070041001101000b",
        invalid(0),
    ),
    (
        "call_indirect with an argument of another type",
        # (module (table 1 funcref) (func i64.const 0 i32.const 0 call_indirect (param i32)))
        "0061736d0100000001080260000060017f00030201000404017000010a0b010900420041001101000b",
        invalid(0),
    ),
    (
        "call_indirect with its result left over",
        # (module (table 1 funcref) (func i32.const 0 call_indirect (result i32)))
        "0061736d010000000108026000006000017f030201000404017000010a0901070041001101000b",
        invalid(0),
    ),
    (
        "call_indirect with an imported table",
        # (module (import "h" "f" (table 0 funcref)) (func i32.const 0 call_indirect))
        "0061736d010000000104016000000209010168016601700000030201000a0901070041001100000b",
        TAKEN,
    ),
    (
        "locals after parameters",
        # (module (func (param i32) (local i64 i32) local.get 0 i32.eqz drop local.get 1 i64.eqz drop
        #     local.get 2 i32.eqz drop))
        "0061736d0100000001050160017f00030201000a14011202017e017f2000451a2001501a2002451a0b",
        TAKEN,
    ),
    # (module (func (param i32) (local i64) local.get 0 i64.eqz drop))
    ("a parameter as another type", "0061736d0100000001050160017f00030201000a0a010801017e2000501a0b", invalid(0)),
    # (module (func (param i32) (local i64) local.get 1 i32.eqz drop))
    ("a local as another type", "0061736d0100000001050160017f00030201000a0a010801017e2001451a0b", invalid(0)),
    (
        "the last local of a run as the next run",
        # (module (func (local i32 i32 i64) local.get 1 i64.eqz drop))
        "0061736d01000000010401600000030201000a0c010a02027f017e2001501a0b",
        invalid(0),
    ),
    (
        "the first local of a run as the run before",
        # (module (func (local i32 i32 i64) local.get 2 i32.eqz drop))
        "0061736d01000000010401600000030201000a0c010a02027f017e2002451a0b",
        invalid(0),
    ),
    # (module (func (local i64) local.get 0 i32.eqz drop)), with a run of no i32 before the i64
    ("a local after a run of none", "0061736d01000000010401600000030201000a0c010a02007f017e2000451a0b", invalid(0)),
    # (module (func local.get 0 drop))
    ("local.get of none", "0061736d01000000010401600000030201000a0701050020001a0b", invalid(0)),
    # (module (func (param i32) (local i32) local.get 2 drop))
    ("local.get after the last", "0061736d0100000001050160017f00030201000a09010701017f20021a0b", invalid(0)),
    # (module (func (param i32) (local i32) i32.const 0 local.set 2))
    ("local.set after the last", "0061736d0100000001050160017f00030201000a0a010801017f410021020b", invalid(0)),
    # (module (func (param i32) (local i32) i32.const 0 local.tee 2 drop))
    ("local.tee after the last", "0061736d0100000001050160017f00030201000a0b010901017f410022021a0b", invalid(0)),
    # (module (func (local i32) i64.const 0 local.set 0))
    ("local.set of another type", "0061736d01000000010401600000030201000a0a010801017f420021000b", invalid(0)),
    # (module (func (local i32) local.set 0))
    ("local.set of nothing", "0061736d01000000010401600000030201000a08010601017f21000b", invalid(0)),
    # (module (func (local i32) i64.const 0 local.tee 0 drop))
    ("local.tee of another type", "0061736d01000000010401600000030201000a0b010901017f420022001a0b", invalid(0)),
    # (module (func (local i32) i32.const 0 local.tee 0))
    ("local.tee left over", "0061736d01000000010401600000030201000a0a010801017f410022000b", invalid(0)),
    (
        "global.get and global.set of a mutable",
        # (module (global (mut i32) (i32.const 0)) (func global.get 0 global.set 0))
        "0061736d01000000010401600000030201000606017f0141000b0a08010600230024000b",
        TAKEN,
    ),
    (
        "global.set of an immutable",
        # (module (global i32 (i32.const 0)) (func i32.const 0 global.set 0))
        "0061736d01000000010401600000030201000606017f0041000b0a08010600410024000b",
        invalid(0),
    ),
    (
        "global.set of another type",
        # (module (global (mut i32) (i32.const 0)) (func i64.const 0 global.set 0))
        "0061736d01000000010401600000030201000606017f0141000b0a08010600420024000b",
        invalid(0),
    ),
    # (module (global (mut i32) (i32.const 0)) (func global.set 0))
    ("global.set of nothing", "0061736d01000000010401600000030201000606017f0141000b0a0601040024000b", invalid(0)),
    (
        "global.get as another type",
        # (module (global (mut i32) (i32.const 0)) (func global.get 0 i64.eqz drop))
        "0061736d01000000010401600000030201000606017f0141000b0a080106002300501a0b",
        invalid(0),
    ),
    (
        "global.get of one that is not there",
        # (module (global (mut i32) (i32.const 0)) (func global.get 1 drop))
        "0061736d01000000010401600000030201000606017f0141000b0a0701050023011a0b",
        invalid(0),
    ),
    (
        "global.set of one that is not there",
        # (module (global (mut i32) (i32.const 0)) (func i32.const 0 global.set 1))
        "0061736d01000000010401600000030201000606017f0141000b0a08010600410024010b",
        invalid(0),
    ),
    (
        "imported globals come first",
        # (module (import "h" "f" (global (mut i32))) (global (mut i64) (i64.const 0))
        #   (func global.get 1 global.set 1 global.get 0 global.set 0))
        "0061736d0100000001040160000002080101680166037f01030201000606017e0142000b0a0c010a0023012401230024000b",
        TAKEN,
    ),
    (
        "global.set of an imported immutable",
        # (module (import "h" "f" (global i32)) (global (mut i64) (i64.const 0)) (func i32.const 0 global.set 0))
        "0061736d0100000001040160000002080101680166037f00030201000606017e0142000b0a08010600410024000b",
        invalid(0),
    ),
    (
        "a defined global as the imported one",
        # (module (import "h" "f" (global i32)) (global (mut i64) (i64.const 0)) (func global.get 1 i32.eqz drop))
        "0061736d0100000001040160000002080101680166037f00030201000606017e0142000b0a080106002301451a0b",
        invalid(0),
    ),
]
