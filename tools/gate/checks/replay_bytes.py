"""Replay modules as bytes: they are valid, and their own runs have the steps of the original's function."""
from call_rows import ANSWERS
from modules import example
from run_tables import FILES, MAX, put_run

# The replay module of two answers, section by section: types, functions, the counter, `_start`, the bodies
# of the import, of the original, of `_start` and of the answers, and the layout.
TWO_ANSWERS_REPLAYED = bytes.fromhex(
    # (module (type (func (result i32))) (type (func)) (type (func (param i32)))
    #   (type (func (param i32) (result i32))) (type (func (param i32) (result i64)))
    #   (type (func (param i32) (result f32))) (type (func (param i32) (result f64)))
    #   (global (mut i32) (i32.const 0))
    #   (func (type 0) (local i32) global.get 0 local.tee 0 i32.const 1 i32.add global.set 0
    #     block block local.get 0 i32.const 256 i32.div_u br_table 0 1 end local.get 0 call 3 return end unreachable)
    #   (func (type 0) call 0 call 0 i32.add) (func (type 1) call 1 drop return)
    #   (func (type 3) block block block local.get 0 i32.const 256 i32.rem_u br_table 0 1 2 end i32.const 5 return
    #     end i32.const 7 return end unreachable)
    #   (export "_start" (func 2))), with a custom section "r3.layout" of the bytes 01 01 at the end
    "0061736d01000000"
    "0120076000017f60000060017f0060017f017f60017f017e60017f017d60017f017c"
    "03050400000103"
    "0606017f0141000b"
    "070a01065f73746172740002"
    "0a52042301017f2300220041016a24000240024020004180026e0e0100010b200010030f0b000b"
    "0700100010006a0b"
    "060010011a0f0b"
    "1d000240024002402000418002700e020001020b41050f0b41070f0b000b"
    "000c0972332e6c61796f75740101"
)

# A function that divides 100 by the result of its import.
DIVISION = bytes.fromhex(
    # (module (import "h" "f" (func (result i32))) (func (export "g") (result i32) i32.const 100 call 0 i32.div_u))
    "0061736d010000000105016000017f02070101680166000003020100070501016700010a0a01080041e40010006e0b"
)

# A loop that adds the results of 200 calls of its import.
LOOP = bytes.fromhex(
    # (module (import "h" "f" (func (result i32)))
    #   (func (export "g") (result i32) (local i32 i32) loop local.get 0 call 0 i32.add local.set 0
    #     local.get 1 i32.const 1 i32.add local.tee 1 i32.const 200 i32.lt_u br_if 0 end local.get 0))
    "0061736d010000000105016000017f0207010168016600000302010007050101670001"
    "0a1f011d01027f0340200010006a2100200141016a220141c801490d000b20000b"
)

TWO_ANSWERS = example("two_answers.wasm")
COLLATZ = example("collatz.wasm")
# The numbers whose Collatz sequences are followed, up to a 0.
COLLATZ_NUMBERS = (
    b'{"imports":{"host":{"next":{"calls":[{"return":{"i32":7}},{"return":{"i32":6}},{"return":{"i32":1}},'
    b'{"return":{"i32":0}}]}}},"main":[{"call":"run"}]}'
)

# The run of the replay module of a trap.
TRAP_REPLAYED = b"""host-call 2
step 2 0 ->
enter 1
step 1 0 -> i32:00000064
step 1 1 ->
enter 0
step 0 0 -> i32:00000000
step 0 1 i32:00000000 -> i32:00000000
step 0 2 -> i32:00000001
step 0 3 i32:00000000 i32:00000001 -> i32:00000001
step 0 4 i32:00000001 ->
step 0 5 ->
step 0 6 ->
step 0 7 -> i32:00000000
step 0 8 -> i32:00000100
step 0 9 i32:00000000 i32:00000100 -> i32:00000000
step 0 10 i32:00000000 ->
step 0 11 -> i32:00000000
step 0 12 i32:00000000 ->
enter 3
step 3 0 ->
step 3 1 ->
step 3 2 -> i32:00000000
step 3 3 -> i32:00000100
step 3 4 i32:00000000 i32:00000100 -> i32:00000000
step 3 5 i32:00000000 ->
step 3 6 -> i32:00000000
step 3 7 ->
exit 3 i32:00000000
step 0 13 ->
exit 0 i32:00000000
trap 1 2 divide i32:00000064 i32:00000000
trapped
"""

# The beginnings of the lines on function 1, and of those with the outcome.
KEPT = (b"step 1 ", b"trap 1 ", b"ended", b"trapped")


def script_of_answers(first, count):
    """A script that answers the import with these numbers, then with those from 0 to below a count, and calls `g`."""
    answers = ",".join('{"return":{"i32":%d}}' % number for number in [*first, *range(count)])
    return ('{"imports":{"h":{"f":{"calls":[%s]}}},"main":[{"call":"g"}]}' % answers).encode()


def made(group, name, module, script, turns):
    """What `make` prints for a run."""
    put_run(group, module, script)
    return group.done("make", *FILES, turns, what=f"{name}: it is made within {turns} turns")


def check_turns(group, name, module, script, fewer, turns):
    """A run is made within its turns, and spends its turns within one less."""
    put_run(group, module, script)
    group.refused(["make", *FILES, fewer], 12, f"turns spent: {fewer}", what=name)
    made(group, name, module, script, turns)


def check_valid(group, name, printed, history):
    """`replay` takes the bytes, so that they encode a valid module in the form of replay modules."""
    group.expect(len(printed) <= 1000000, f"{name}: the replay module has at most 1,000,000 bytes")
    group.put("r.wasm", printed)
    lines = group.done("replay", "r.wasm", MAX, what=f"{name}: the replay module is valid")
    group.expect(lines == history, f"{name}: `replay` prints the lines of `history`")


def put_own_run(group, printed):
    """Writes the files of a printed module's own run: its `_start` is called."""
    put_run(group, printed, b'{"main":[{"call":"_start"}]}')


def original_lines(text):
    """The lines of a history on function 1, and the one with the outcome."""
    return [line for line in text.splitlines(keepends=True) if line.startswith(KEPT)]


def check_replay(group, name, module, script, turns, spent, own):
    """The printed module of a run is valid, its own run takes so many turns and not one less, and function 1 does in it
    what it does in the run of the original."""
    printed = made(group, name, module, script, turns)
    history = group.done("history", *FILES, turns, what=f"{name}: it has a history")
    check_valid(group, name, printed, history)
    put_own_run(group, printed)
    group.refused(["history", *FILES, spent], 12, f"turns spent: {spent}", what=f"{name}: its replay in a turn less")
    replay = group.done("history", *FILES, own, what=f"{name}: its replay ends within {own} turns")
    same = original_lines(replay) == original_lines(history)
    group.expect(same and original_lines(history), f"{name}: function 1 does the same in its replay")


def check_two_answers(group):
    """The replay module of two answers, byte by byte; 198 more answers, which the run does not use, change nothing."""
    printed = made(group, "two answers", TWO_ANSWERS, ANSWERS, "4")
    group.expect(printed == TWO_ANSWERS_REPLAYED, "two answers: the replay module has its bytes")
    check_valid(group, "two answers", printed, group.done("history", *FILES, "4"))
    more = made(group, "more answers", TWO_ANSWERS, script_of_answers([5, 7], 198), "4")
    group.expect(more == TWO_ANSWERS_REPLAYED, "more answers: the replay module has the same bytes")


def check_loop(group):
    """A loop that calls its import 200 times. The run has a call of the host, twelve instructions for each call of the
    import, and the last `local.get`. In the replay's own run a call of the import takes 14 instructions in its place
    and 207 in the arm of its answer; `_start` has 3 more."""
    script = script_of_answers([], 200)
    check_turns(group, "a loop", LOOP, script, "2401", "2402")
    check_replay(group, "a loop", LOOP, script, "2402", "46604", "46605")
    put_run(group, LOOP, script_of_answers([], 199))
    line = "script fault: turn 2392 no response"
    group.refused(["make", *FILES, "2402"], 11, line, what="a loop with an answer too few")


def check_trap(group):
    """A trap is an outcome."""
    script = script_of_answers([], 1)
    put_own_run(group, made(group, "a trap", DIVISION, script, "4"))
    lines = group.done("history", *FILES, "27", what="a trap: its replay ends")
    group.expect(lines == TRAP_REPLAYED, "a trap: the run of its replay module has its lines")
    check_replay(group, "a trap", DIVISION, script, "4", "26", "27")


def check_program(group):
    """A program compiled from C. Its replay has 25 instructions for each of the four calls of the import, and three of
    `_start`."""
    check_turns(group, "a program", COLLATZ, COLLATZ_NUMBERS, "638", "639")
    check_replay(group, "a program", COLLATZ, COLLATZ_NUMBERS, "639", "741", "742")


def checks(group):
    check_two_answers(group)
    check_loop(group)
    check_trap(group)
    check_program(group)
