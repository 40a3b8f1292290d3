"""Single calls of `make`, `history`, `show`, `load` and `replay`: what they print, and why they print nothing."""
import tempfile

from call_rows import (
    ANSWERS,
    HISTORIES,
    LINES,
    LONG_INDEX,
    MADE,
    MODULES,
    NO_TURNS,
    RECURSION,
    REPLAY_TWO_ANSWERS,
    REPLAYS,
    SCRIPTS,
    TWO_ANSWERS,
    USED_UP,
)
from modules import LOG, example, last_within
from run_tables import FILES, MAX, put_run
from trace_rows import DAMAGED, DIGEST, LOG_OF_TWO_ANSWERS, SHOWN, WHOLE_PARTS

# Numbers of calls, and the four lines of `load`. For N calls, q is N / 16 rounded down, and z is the number of calls
# below N that write the byte 0 over a 0: 17N + 2 + 5q turns, 18N + 3 + 6q entries, S = N + 2 + q segments, a weight of
# S + 2N + 1 - z. The host calls back in the sixteenth call.
LOADS = [
    ("1", b"turns 19\nentries 21\nsegments 3\nweight 6\n"),
    ("16", b"turns 279\nentries 297\nsegments 19\nweight 52\n"),
    ("1000", b"turns 17312\nentries 18375\nsegments 1064\nweight 3061\n"),
]

# Words that are not those of a call of `load`.
NOT_OF_LOAD = [
    ["load"],
    ["load", "0"],
    ["load", "60001"],
    ["load", "01"],
    ["load", ""],
    ["load", "1", "1"],
    ["load", "m.wasm", "1"],
]

# Words that are not those of a call of `replay`.
NOT_OF_REPLAY = [
    ["replay", "r.wasm"],
    ["replay", "r.wasm", "0"],
    ["replay", "r.wasm", "019"],
    ["replay", "r.wasm", "20000001"],
    ["replay", "r.wasm", "19", "19"],
    ["replay", "r.wasm", "s.json", "19"],
]

# Words that are not those of a call, where the files `m.wasm` and `s.json` are there.
NOT_OF_A_CALL = [
    [],
    ["make", "m.wasm"],
    ["make", "m.wasm", "s.json", "4", "4"],
    ["Make", "m.wasm", "s.json", "4"],
]

# Calls of `show` where only the file `t` is there, the status and the line.
NOT_SHOWN = [
    (["show"], 2, "usage"),
    (["show", "t", "1"], 2, "usage"),
    (["show", "t", "t"], 2, "usage"),
    (["show", "u"], 3, "read: u"),
]

# Calls whose files are not there, and the line.
MISSING = [
    (["instrument", "m"], "read: m"),
    (["record", "n", "s", "20000000"], "read: n"),
    (["reduce", "l"], "read: l"),
    (["build", "o", "s", "t"], "read: o"),
]

# Modules and scripts of runs that call nothing.
CALL_NOTHING = [(TWO_ANSWERS, b'{"main":[]}'), (example("empty.wasm"), b"{}")]


def words_of(group, command, module, script, turns):
    """The words of a call with a module and a script, which are written as `m.wasm` and `s.json`."""
    put_run(group, module, script)
    return [command, *FILES, turns]


def replay_of(group, module, turns):
    """The words of a call of `replay` with a module, which is written as `r.wasm`."""
    group.put("r.wasm", module)
    return ["replay", "r.wasm", turns]


def show_of(group, data):
    """The words of a call of `show` with a file, which is written as `t`."""
    group.put("t", data)
    return ["show", "t"]


def made(group, module, script, turns, what):
    """What `make` prints, which must end with status 0 and without a line of error."""
    return group.done(*words_of(group, "make", module, script, turns), what=what)


def check_refusals(group):
    """Histories, modules and scripts that are refused. A fault of a module goes before those of the script."""
    for name, module, script, turns, status, line in HISTORIES:
        group.refused(words_of(group, "history", module, script, turns), status, line, f"`history`, {name}")
    for name, module, status, line in MODULES:
        for script in (b"{}", b"{"):
            what = f"`make`, {name}, with the script {script.decode()}"
            group.refused(words_of(group, "make", module, script, "100"), status, line, what)
    for module, script, line in SCRIPTS:
        group.refused(words_of(group, "make", module, script, "100"), 9, line, f"`make` with {script.decode()}")


def file_of(magic, version, rest):
    """The file of a log or a tape: its first bytes, its version, the digest, and the rest."""
    return magic + bytes([version]) + DIGEST + rest


def check_shown(group):
    """The lines of logs and tapes, and files that are damaged."""
    for name, magic, version, rest, lines in SHOWN:
        kind = "log" if magic == LOG else "tape"
        wanted = f"{kind} {DIGEST.hex()}\n".encode() + lines
        group.prints(show_of(group, file_of(magic, version, rest)), wanted, f"`show` prints the lines of {name}")
    for name, magic, version, rest, line in DAMAGED:
        group.refused(show_of(group, file_of(magic, version, rest)), 15, line, f"`show`, {name}")


def check_fronts(group):
    """Every proper front of a log and of a tape: the fault is at the last of the places that is within the front."""
    for magic, rest, total, places in WHOLE_PARTS:
        data = file_of(magic, 2, rest)
        group.expect(len(data) == total, f"the file has {total} bytes")
        for length in range(len(data)):
            place = last_within(places, length)
            what = f"`show`, the first {length} bytes of {total}"
            group.refused(show_of(group, data[:length]), 15, f"trace: bad at {place}", what)


def check_words_of_show(group):
    """Words that are not those of a call of `show`, and a file that is not there."""
    group.put("t", file_of(LOG, 2, LOG_OF_TWO_ANSWERS))
    for words, status, line in NOT_SHOWN:
        group.refused(words, status, line)


def check_loads(group):
    """The four lines of loads."""
    for number, lines in LOADS:
        group.prints(["load", number], lines, f"`load {number}` prints its four lines")


def check_replays(group):
    """The lines of a replay module, modules that are refused, and lines of a run that is made."""
    for turns in ("19", MAX):
        words = replay_of(group, REPLAY_TWO_ANSWERS, turns)
        group.prints(words, LINES, f"`replay` prints the lines in {turns} turns")
    for name, module, turns, status, line in REPLAYS:
        group.refused(replay_of(group, module, turns), status, line, f"`replay`, {name}")
    group.prints(words_of(group, "history", TWO_ANSWERS, ANSWERS, "4"), LINES, "`history` prints the adder's lines")
    replay = made(group, TWO_ANSWERS, ANSWERS, "4", "`make` of the adder")
    group.prints(replay_of(group, replay, MAX), LINES, "`replay` prints the adder's lines")


def check_turns(group):
    """The numbers of turns that calls take, and those that they do not."""
    replay = made(group, TWO_ANSWERS, ANSWERS, "4", "`make` of two answers in four turns")
    other = made(group, LONG_INDEX, ANSWERS, "4", "`make` of two answers with a long type index")
    group.expect(other == replay, "the encoding of the type index changes nothing")
    for turns in ("2000001", "1000000000"):
        most = made(group, TWO_ANSWERS, ANSWERS, turns, f"`make` in {turns} turns")
        group.expect(most == replay, f"`make` in {turns} turns prints what it prints in four")
    group.done(*words_of(group, "history", TWO_ANSWERS, ANSWERS, "2000000"), what="`history` in the most turns")
    group.refused(words_of(group, "make", TWO_ANSWERS, ANSWERS, "3"), 12, "turns spent: 3", "`make`, a turn too few")
    words = words_of(group, "make", RECURSION, ANSWERS, "10000")
    group.refused(words, 12, "turns spent: 10000", "a recursion without an end")
    for command, turns in NO_TURNS:
        words = words_of(group, command, TWO_ANSWERS, ANSWERS, turns)
        group.refused(words, 2, "usage", f"`{command}` in `{turns}` turns")


def check_runs(group):
    """Runs that call nothing or use up the answers; what `make` prints shows the history."""
    for module, script in CALL_NOTHING:
        made(group, module, script, "1", f"`make` with {script.decode()}, which calls nothing")
    for script, line in USED_UP:
        group.refused(words_of(group, "make", TWO_ANSWERS, script, "100"), 11, line, "`make`, answers used up")
    for name, module, script in MADE:
        replay = made(group, module, script, "100", f"`make`, {name}")
        words = words_of(group, "history", module, script, "100")
        history = group.done(*words, what=f"`history`, {name}")
        group.prints(replay_of(group, replay, MAX), history, f"`replay` prints the history, {name}")


def check_words(group):
    """Words that are not those of a call, where the files are there."""
    words_of(group, "make", TWO_ANSWERS, ANSWERS, "4")
    for words in NOT_OF_A_CALL:
        group.refused(words, 2, "usage")


def check_missing(group):
    """Calls in a folder without files: words that are refused, and the first file, which is named."""
    folder = tempfile.mkdtemp(dir=group.room)
    for words in NOT_OF_LOAD + NOT_OF_REPLAY:
        group.refused(words, 2, "usage", cwd=folder)
    for words, line in MISSING:
        group.refused(words, 3, line, cwd=folder)


def checks(group):
    check_missing(group)
    check_refusals(group)
    check_shown(group)
    check_fronts(group)
    check_words_of_show(group)
    check_loads(group)
    check_replays(group)
    check_turns(group)
    check_runs(group)
    check_words(group)
