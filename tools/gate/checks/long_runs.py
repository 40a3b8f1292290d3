"""Runs of some million turns and calls, and a module of some megabytes. Each call has the usual time limit."""
from call_rows import ANSWERS
from calls import words_of
from replay_bytes import script_of_answers

# A loop whose run takes 2,000,000 turns: the host's call, seven instructions before the loop, and six in each of
# 333,332 rounds.
# (module (func (export "g") (local i32) i32.const 333332 local.set 0 nop nop nop nop nop
#   loop local.get 0 i32.const -1 i32.add local.tee 0 br_if 0 end))
TWO_MILLION_TURNS = bytes.fromhex(
    "0061736d0100000001040160000003020100070501016700000a1d011b01017f4194ac142100010101010103402000417f6a22000d00"
    "0b0b"
)

# A loop of as many rounds as its import answers. A round has six instructions, and there are three outside.
# (module (import "h" "f" (func (result i32)))
#   (func (export "g") (result i32) (local i32) call 0 local.set 0
#     loop local.get 0 i32.const -1 i32.add local.tee 0 br_if 0 end local.get 0))
ROUNDS = bytes.fromhex(
    "0061736d010000000105016000017f02070101680166000003020100070501016700010a18011601017f1000210003402000417f6a22"
    "000d000b20000b"
)

# The replay module of 500,000 rounds, section by section: types, functions, the counter, `_start`, the bodies of the
# import, of the original, of `_start` and of the answer, and the layout.
# (module (type (func (result i32))) (type (func)) (type (func (param i32)))
#   (type (func (param i32) (result i32))) (type (func (param i32) (result i64)))
#   (type (func (param i32) (result f32))) (type (func (param i32) (result f64)))
#   (global (mut i32) (i32.const 0))
#   (func (type 0) (local i32) global.get 0 local.tee 0 i32.const 1 i32.add global.set 0
#     block block local.get 0 i32.const 256 i32.div_u br_table 0 1 end local.get 0 call 3 return end unreachable)
#   (func (type 0) (local i32) call 0 local.set 0
#     loop local.get 0 i32.const -1 i32.add local.tee 0 br_if 0 end local.get 0)
#   (func (type 1) call 1 drop return)
#   (func (type 3) block block local.get 0 i32.const 256 i32.rem_u br_table 0 1 end i32.const 500000 return
#     end unreachable)
#   (export "_start" (func 2))), with a custom section "r3.layout" of the bytes 01 01 at the end
ROUNDS_REPLAYED = bytes.fromhex(
    "0061736d01000000"
    "0120076000017f60000060017f0060017f017f60017f017e60017f017d60017f017c"
    "03050400000103"
    "0606017f0141000b"
    "070a01065f73746172740002"
    "0a5c042301017f2300220041016a24000240024020004180026e0e0100010b200010030f0b000b"
    "1601017f1000210003402000417f6a22000d000b20000b"
    "060010011a0f0b"
    "1800024002402000418002700e0100010b41a0c21e0f0b000b"
    "000c0972332e6c61796f75740101"
)

# 250,000 rounds with a call of each of eight imports, which share their answers.
# (module (import "h" "f" (func (result i32))) (import "h" "f" (func (result i32)))
#   (import "h" "f" (func (result i32))) (import "h" "f" (func (result i32)))
#   (import "h" "f" (func (result i32))) (import "h" "f" (func (result i32)))
#   (import "h" "f" (func (result i32))) (import "h" "f" (func (result i32)))
#   (func (export "g") (local i32) loop call 0 drop call 1 drop call 2 drop call 3 drop call 4 drop call 5 drop
#     call 6 drop call 7 drop local.get 0 i32.const 1 i32.add local.tee 0 i32.const 250000 i32.lt_u br_if 0 end))
EIGHT_IMPORTS = bytes.fromhex(
    "0061736d010000000108026000017f600000023108016801660000016801660000016801660000016801660000016801660000016801"
    "66000001680166000001680166000003020101070501016700080a2f012d01017f034010001a10011a10021a10031a10041a10051a10"
    "061a10071a200041016a22004190a10f490d000b0b"
)

# All of a module except the 3,000,000 `nop`s at the beginning of the body of its second function, and the end of that
# body.
# (module (import "h" "f" (func (result i32))) (func (export "g") (result i32) call 0 call 0 i32.add)
#   (func (result i32) i32.const 1)), but with 3,000,000 `nop`s before the `i32.const`, and the bytes from
#   these on are left out
BEFORE_THE_NOPS = bytes.fromhex(
    "0061736d010000000105016000017f0207010168016600000303020000070501016700010ad18db701020700100010006a0bc48db701" "00"
)
# i32.const 1, end
AFTER_THE_NOPS = bytes.fromhex("41010b")


def check_two_million_turns(group):
    """The loop ends in its last turn, and does not in one turn less."""
    script = b'{"main":[{"call":"g"}]}'
    what = "a run of two million turns"
    words = words_of(group, "make", TWO_MILLION_TURNS, script, "1999999")
    group.refused(words, 12, "turns spent: 1999999", f"{what}, a turn too few")
    group.done(*words_of(group, "make", TWO_MILLION_TURNS, script, "2000000"), what=what)


def check_three_million_turns(group):
    """The host's call, three instructions, and six in each round."""
    script = script_of_answers([500000], 0)
    what = "a run of three million turns"
    replay = group.done(*words_of(group, "make", ROUNDS, script, "3000004"), what=what)
    group.expect(replay == ROUNDS_REPLAYED, f"{what}: `make` prints the replay module")
    words = words_of(group, "make", ROUNDS, script, "3000003")
    group.refused(words, 12, "turns spent: 3000003", f"{what}, a turn too few")


def check_two_million_calls(group):
    """The host's call, and 24 instructions in each round. The tape has two units for each call of an import, one for
    the call by the host and one for its end."""
    script = script_of_answers([], 250000)
    what = "a run of two million calls and one"
    words = words_of(group, "make", EIGHT_IMPORTS, script, "6000000")
    group.refused(words, 12, "turns spent: 6000000", f"{what}, a turn too few")
    words = words_of(group, "make", EIGHT_IMPORTS, script, "6000001")
    group.refused(words, 18, "tape limit: 4000002", what)


def check_three_million_bytes(group):
    """As for the small module, the replay module has 121 bytes more than the original's 3,000,058."""
    module = BEFORE_THE_NOPS + b"\1" * 3000000 + AFTER_THE_NOPS
    replay = group.done(*words_of(group, "make", module, ANSWERS, "4"), what="a module of three million bytes")
    group.expect(len(replay) == 3000179, "the replay module of a module of three million bytes has 121 bytes more")


def checks(group):
    check_two_million_turns(group)
    check_three_million_turns(group)
    check_two_million_calls(group)
    check_three_million_bytes(group)
