"""`from`: replay modules of runs from a later top-level call on, their lines beside the whole history, and calls that
are refused."""
import json
import os
import shutil

import engines
from group import EXAMPLES, contents
from modules import example

# Two calls of a function that adds what two calls of its import give.
ADDER = example("two_answers.wasm")
ANSWERS = {
    "imports": {"h": {"f": {"calls": [{"return": {"i32": it}} for it in (5, 7, 1, 2)]}}},
    "main": [{"call": "g"}, {"call": "g"}],
}
SCRIPT = json.dumps(ANSWERS).encode()
TURNS = 8
LINES = b"""host-call 1
step 1 0 ->
import-call 0
import-return 0 i32:00000001
step 1 1 ->
import-call 0
import-return 0 i32:00000002
step 1 2 i32:00000001 i32:00000002 -> i32:00000003
host-return 1 i32:00000003
ended
"""

# A module that writes to memory in its first call; the host's bytes between are known in the second.
WRITER = example("overwrite.wasm")
WRITES = b"""{"imports":{"h":{"f":{"calls":[{"do":[{"write":8,"bytes":"aabbccdd"}]},{}]}}},
"main":[{"call":"g"},{"call":"g"}]}"""

# The lines of the second call of the writer: the two bytes of the host that the first call read are there.
KNOWN_LINES = b"""host-call 1
step 1 0 ->
import-call 0
import-return 0
step 1 1 -> i32:00000008
step 1 2 -> i32:00000001
step 1 3 i32:00000008 i32:00000001 ->
step 1 4 -> i32:00000008
step 1 5 i32:00000008 -> i32:ddcc0001
host-return 1 i32:ddcc0001
ended
"""

# A module that imports `h.f`, has a mutable global, and exports `g`, which adds 1 to the global and calls `f`. Its
# start function calls `g`.
# (module (type (func)) (import "h" "f" (func (type 0)))
#   (func (type 0) global.get 0 i32.const 1 i32.add global.set 0 call 0) (func (type 0) call 1)
#   (global (mut i32) (i32.const 5)) (export "g" (func 1)) (start 2))
STARTED = bytes.fromhex(
    # the header
    "0061736d01000000"
    # type 0: no parameters, no results
    "010401600000"
    # the import h.f of type 0
    "020701016801660000"
    # functions 1 and 2 of type 0
    "0303020000"
    # global 0: a mutable i32 that begins with 5
    "0606017f0141050b"
    # the export g, function 1
    "07050101670001"
    # the start function 2
    "080102"
    # the bodies
    "0a12020b00230041016a240010000b040010010b"
)

# One more call of `g` after the start function, and its lines: the start function left 6 in the global.
ONE_MORE = b'{"imports":{"h":{"f":{"rest":{}}}},"main":[{"call":"g"}]}'
LINES_AFTER_START = b"""host-call 1
step 1 0 -> i32:00000006
step 1 1 -> i32:00000001
step 1 2 i32:00000006 i32:00000001 -> i32:00000007
step 1 3 i32:00000007 ->
step 1 4 ->
import-call 0
import-return 0
host-return 1
ended
"""

# Scripts for the adder, turns, the number of a call, and the status and the line: what is refused before a missing
# call, and after it.
REFUSED = [
    (SCRIPT, "8", "2", 22, "no call: 2 of 2"),
    (SCRIPT, "8", "1000000000", 22, "no call: 1000000000 of 2"),
    (SCRIPT, "7", "2", 12, "turns spent: 7"),
    (b'{"main":[{"call":"g"}]}', "8", "7", 11, "script fault: turn 2 no response"),
    (b'{"main":[{"call":"g"}]}', "8", "9", 11, "script fault: turn 2 no response"),
    (b'{"main":[]}', "8", "0", 22, "no call: 0 of 0"),
    (b"{", "8", "0", 9, "script: not json"),
    (SCRIPT, "0", "0", 2, "usage"),
    (SCRIPT, "1000000001", "0", 2, "usage"),
]

# The data section with one active segment: the bytes 01 00 cc dd at 8.
DATA = bytes.fromhex("0b0a01 00 41080b 04 0100ccdd")

# Numbers of a call that are no numbers from 0 to 1,000,000,000.
NO_NUMBERS = ["", "-1", "+1", "01", "00", "1.0", " 1", "1000000001", "4294967296", "18446744073709551616"]


def rest_of(lines, number):
    """The lines from a top-level call on, where the run has one: calls by the host while no call of an import is open."""
    opened = 0
    all_lines = lines.split(b"\n")
    for place, line in enumerate(all_lines):
        if line.startswith(b"import-call"):
            opened += 1
        elif line.startswith(b"import-return"):
            opened -= 1
        elif line.startswith(b"host-call") and opened == 0:
            if number == 0:
                return b"\n".join(all_lines[place:])
            number -= 1
    return None


def check_rests(group, name, module, script, turns, lines):
    """The replay modules from each call on show the rest of the lines, and one call more is refused."""
    number = 0
    while (rest := rest_of(lines, number)) is not None:
        replay = group.put(f"{name}.{number}.wasm", group.done("from", module, script, str(turns), str(number)))
        shown = group.done("replay", replay, "20000000")
        group.expect(shown == rest, f"{name}: `from` with call {number} shows the rest of the history")
        number += 1
    refused = ["from", module, script, str(turns), str(number)]
    group.refused(refused, 22, f"no call: {number} of {number}")
    return number


def check_examples(group):
    """Each example with a history, from each of its top-level calls on."""
    count = 0
    for file in sorted(os.listdir(EXAMPLES)):
        name = file.removesuffix(".history.txt")
        if name == file or name in ("callback", "shelf"):
            continue
        module = (
            name
            if os.path.exists(f"{EXAMPLES}/{name}.wasm")
            else max(
                (
                    it.removesuffix(".wasm")
                    for it in os.listdir(EXAMPLES)
                    if name.startswith(it.removesuffix(".wasm") + "_")
                ),
                key=len,
            )
        )
        paths = f"{EXAMPLES}/{module}.wasm", f"{EXAMPLES}/{name}.json"
        count += check_rests(group, name, *paths, 100000, contents(f"{EXAMPLES}/{file}"))
    group.expect(count >= 25, "the examples have calls")


def check_run(group):
    """The lines of the adder's second call, and its replay module in another engine."""
    files = group.put("adder.wasm", ADDER), group.put("adder.json", SCRIPT)
    replay = group.put("adder.replay.wasm", group.done("from", *files, str(TURNS), "1"))
    group.prints(["replay", replay, "100"], LINES, "`replay` prints the lines of the second call")
    node = shutil.which("node") or shutil.which("nodejs")
    if node:
        group.put("probe", engines.PROBE)
        engines.run_by_node(group, node, {"adder": "ended"})


def check_words(group):
    """Numbers that are none, files that are not there, and a word too few or too many."""
    files = group.put("words.wasm", ADDER), group.put("words.json", SCRIPT)
    for number in NO_NUMBERS:
        group.refused(["from", *files, str(TURNS), number], 2, "usage")
    group.refused(["from", *files, str(TURNS)], 2, "usage")
    group.refused(["from", *files, str(TURNS), "0", "0"], 2, "usage")
    group.refused(["from", "none.wasm", "none.json", "1000000000", "1000000000"], 3, "read: none.wasm")


def check_state(group):
    """The bytes that are known before the second call are the replay module's only data segment, at 8."""
    files = group.put("writer.wasm", WRITER), group.put("writer.json", WRITES)
    check_rests(group, "writer", *files, 15, group.done("history", *files, "15"))
    replay = group.path("writer.1.wasm")
    group.expect(contents(replay).count(DATA) == 1, "the state module has one data segment")
    group.prints(["replay", replay, "1000"], KNOWN_LINES, "the second call reads the known bytes")


def check_start(group):
    """A start function is the first call."""
    files = group.put("started.wasm", STARTED), group.put("started.json", ONE_MORE)
    replay = group.put("started.second.wasm", group.done("from", *files, "100", "1"))
    group.prints(["replay", replay, "1000"], LINES_AFTER_START, "the second call is replayed alone")
    replay = group.put("started.whole.wasm", group.done("from", *files, "100", "0"))
    begin = b"host-call 2\nstep 2 0 ->\nenter 1\n"
    group.expect(group.done("replay", replay, "1000").startswith(begin), "the call of the start function is replayed")


def check_causes(group):
    """The first cause is reported."""
    for script, turns, number, status, line in REFUSED:
        files = group.put("cause.wasm", ADDER), group.put("cause.json", script)
        group.refused(["from", *files, turns, number], status, line)


def checks(group):
    check_run(group)
    check_start(group)
    check_causes(group)
    check_words(group)
    check_examples(group)
    check_state(group)
