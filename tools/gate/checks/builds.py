"""`build` with tapes that were written by hand: what the runs of their replay modules show, and tapes that are refused.
The tapes are in tape_rows.py."""
from calls import replay_of
from modules import TAPE, last_within, trace, u32
from run_tables import FILES, MAX, put_run, rows
from tape_rows import HANDMADE, HANDMADE_LINES, LENGTH, OVERWRITE, REFUSED, TAPES, TWO_ANSWERS, WHOLE_PARTS
from trace_rows import TAPE_OF_TWO_ANSWERS

# A tape of one segment, up to the bytes that it writes at 0; before them the memory grows to 40 pages.
GROWTH = b"\0\2\5\x28"
# The mark of bytes, and their address.
BYTES_AT_0 = b"\7\0"
# The segment ends the host's work, and the tape ends.
END = b"\x22\x2f"


def tape_of(module, segments):
    """The file of a tape of a module; `segments` has the bytes of its segments and its end."""
    return trace(TAPE, module, segments, version=2)


def build_of(group, module, script, tape):
    """The words of a call of `build` with a module, a script and a tape, which are written as files."""
    put_run(group, module, script)
    group.put("t.tape", tape)
    return ["build", *FILES, "t.tape"]


def check_tapes(group, wanted):
    """The run of what `build` prints shows what the tape does. A row has segments where that of a run has turns."""
    count = 0
    for module, name, segments, script, lines in rows(TAPES):
        words = build_of(group, module, script, tape_of(module, bytes.fromhex(segments)))
        replay = group.done(*words, what=f"`build`, {name}")
        group.prints(replay_of(group, replay, MAX), lines, f"`replay` shows what the tape does, {name}")
        count += 1
    group.expect(count == wanted, f"{count} rows of tapes, where there are {wanted}")


def check_refused(group):
    """Tapes, modules and scripts that are refused."""
    for name, module, script, segments, status, line in REFUSED:
        words = build_of(group, module, script, tape_of(module, segments))
        group.refused(words, status, line, f"`build`, {name}")


def check_other_module(group):
    """A tape with another digest than that of the module: the line has both digests."""
    given = tape_of(TWO_ANSWERS, TAPE_OF_TWO_ANSWERS)
    other = given[:5] + bytes([given[5] ^ 1]) + given[6:]
    line = f"other module: {other[5:37].hex()} {given[5:37].hex()}"
    group.refused(build_of(group, TWO_ANSWERS, b"{}", other), 16, line, "`build`, a tape of another module")


def check_fronts(group):
    """Every proper front of a tape: the fault is at the last of the places that is within the front."""
    tape = tape_of(TWO_ANSWERS, TAPE_OF_TWO_ANSWERS)
    group.expect(len(tape) == LENGTH, f"the tape has {LENGTH} bytes")
    for length in range(len(tape)):
        place = last_within(WHOLE_PARTS, length)
        words = build_of(group, TWO_ANSWERS, b"{}", tape[:length])
        group.refused(words, 15, f"trace: bad at {place}", f"`build`, the first {length} bytes of {LENGTH}")


def with_zeros(count):
    """A tape that grows the memory and writes as many zeros."""
    return tape_of(OVERWRITE, GROWTH + BYTES_AT_0 + u32(count) + bytes(count) + END)


def check_weights(group):
    """A tape that is too heavy, and one of the greatest weight."""
    words = build_of(group, OVERWRITE, b"{}", with_zeros(2000000))
    group.refused(words, 18, "tape limit: 2000002", "`build`, a tape that is too heavy")
    words = build_of(group, OVERWRITE, b"{}", with_zeros(1999998))
    replay = group.done(*words, what="`build`, a tape of the greatest weight")
    group.expect(len(replay) > 1999998, f"the replay module has the tape's zeros: it has {len(replay)} bytes")
    words = replay_of(group, replay, MAX)
    group.prints(words, b"ended\n", "`replay` writes the zeros of a tape of the greatest weight, and ends")


def check_handmade(group):
    """The run of a replay module that was written by hand shows its lines."""
    group.prints(replay_of(group, HANDMADE, MAX), HANDMADE_LINES, "`replay` of a module that was written by hand")


def checks(group):
    check_tapes(group, 18)
    check_refused(group)
    check_other_module(group)
    check_fronts(group)
    check_weights(group)
    check_handmade(group)
