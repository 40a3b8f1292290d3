"""Two modules that are linked: the lines of a run and its replay in another engine, pairs that are refused, and the
order of what is refused."""
import json
import shutil

import engines
from modules import FUNC, GLOBAL, I32, I64, MEMORY, TABLE, example, global_of, limits, module

NULLARY = ([], [])
ANSWER = ([], [I32])
ADD = b"\x6a"
CALL_0 = b"\x10\0"
IMPORTED_FUNC = b"\0\0"
# Two adders: the left one adds what two calls of the right one give, and this adds 1 to what the host gives.
LEFT = module([ANSWER], [("right", "f", IMPORTED_FUNC)], [0], exports=[("g", FUNC, 1)], bodies=[CALL_0 + CALL_0 + ADD])
RIGHT = module([ANSWER], [("h", "f", IMPORTED_FUNC)], [0], exports=[("f", FUNC, 1)], bodies=[CALL_0 + b"\x41\1" + ADD])
ANSWERS = {"imports": {"h": {"f": {"calls": [{"return": {"i32": it}} for it in (5, 7)]}}}, "main": [{"call": "left.g"}]}
SCRIPT = json.dumps(ANSWERS).encode()
TURNS = 10
LINES = b"""host-call 1
step 1 0 ->
enter 2
step 2 0 ->
import-call 0
import-return 0 i32:00000005
step 2 1 -> i32:00000001
step 2 2 i32:00000005 i32:00000001 -> i32:00000006
exit 2 i32:00000006
step 1 1 ->
enter 2
step 2 0 ->
import-call 0
import-return 0 i32:00000007
step 2 1 -> i32:00000001
step 2 2 i32:00000007 i32:00000001 -> i32:00000008
exit 2 i32:00000008
step 1 2 i32:00000006 i32:00000008 -> i32:0000000e
host-return 1 i32:0000000e
ended
"""

EMPTY = module()
TWO_ANSWERS = example("two_answers.wasm")
WRITER = example("overwrite.wasm")
ONE_TABLE = example("table_entry.wasm")
STARTS = module([NULLARY], funcs=[0], start=0, bodies=[b""])
INVALID = module([NULLARY], funcs=[0], bodies=[b"\x41\1"])
FLOATS = module([NULLARY], funcs=[0], bodies=[b"\x43\0\0\0\0\x43\0\0\0\0\x92\x1a"])
RESERVED = module([NULLARY], [("r3", "f", IMPORTED_FUNC)])
ALL_TWICE = module([NULLARY], funcs=[0], tables=[limits(0)], memories=[limits(0)], start=0, bodies=[b""])
NO_END = "pair: unresolved left 0"
NO_RIGHT_END = "pair: unresolved right 0"
OTHER = "pair: mismatch left 0"
OTHER_RIGHT = "pair: mismatch right 0"


def memory_import(*bounds, side="left"):
    return (side, "m", b"\2" + limits(*bounds))


def table_import(*bounds, side="left"):
    return (side, "t", b"\1\x70" + limits(*bounds))


def has_memory(*bounds):
    return module(memories=[limits(*bounds)], exports=[("m", MEMORY, 0)])


def has_table(*bounds):
    return module(tables=[limits(*bounds)], exports=[("t", TABLE, 0)])


def passes_on(*imports, types=(ANSWER,), kind=FUNC):
    """A module that exports the last function, global or whatever it imports, as `f`."""
    return module(types, imports, exports=[("f", kind, len(imports) - 1)])


def has_global(value_type, is_mutable, init=b"\x41\3"):
    return module(globals_=[global_of(value_type, is_mutable, init)], exports=[("f", GLOBAL, 0)])


def wants_global(side, value_type, is_mutable):
    return passes_on((side, "f", bytes([3, value_type, is_mutable])), kind=GLOBAL)


# Pairs that are refused with status 21, and the line.
REFUSED = [
    (LEFT, TWO_ANSWERS, NO_END),
    (LEFT, EMPTY, NO_END),
    (LEFT, module(memories=[limits(1)], exports=[("f", MEMORY, 0)]), NO_END),
    (EMPTY, passes_on(("left", "f", IMPORTED_FUNC)), NO_RIGHT_END),
    (
        passes_on(("h", "f", IMPORTED_FUNC), ("right", "f", IMPORTED_FUNC)),
        passes_on(("left", "f", IMPORTED_FUNC)),
        "pair: unresolved left 1",
    ),
    (passes_on(("right", "f", IMPORTED_FUNC)), passes_on(("left", "g", IMPORTED_FUNC)), NO_END),
    (
        module(
            imports=[("h", "f", bytes([3, I32, 0]))],
            globals_=[global_of(I32, 0, b"\x23\0")],
            exports=[("f", GLOBAL, 1)],
        ),
        wants_global("left", I32, 0),
        NO_RIGHT_END,
    ),
    (LEFT, passes_on(("h", "f", IMPORTED_FUNC), types=[([], [I64])]), OTHER),
    (wants_global("right", I64, 0), has_global(I32, 0), OTHER),
    (wants_global("right", I32, 1), has_global(I32, 0), OTHER),
    (wants_global("right", I32, 0), has_global(I32, 1), OTHER),
    (has_memory(1), module(imports=[memory_import(2)]), OTHER_RIGHT),
    (has_memory(2), module(imports=[memory_import(1, 4)]), OTHER_RIGHT),
    (has_memory(2, 5), module(imports=[memory_import(1, 4)]), OTHER_RIGHT),
    (module(imports=[table_import(3, side="right")]), has_table(2), OTHER),
    (WRITER, WRITER, "pair: two memories"),
    (module(imports=[memory_import(0, side="h")]), module(imports=[memory_import(0, side="h")]), "pair: two memories"),
    (ONE_TABLE, ONE_TABLE, "pair: two tables"),
    (STARTS, STARTS, "pair: two starts"),
]

# Pairs that link, and the lines.
LINKED = [
    (EMPTY, EMPTY, b"ended\n"),
    (has_memory(2, 4), module(imports=[memory_import(1, 4)]), b"ended\n"),
    (module(imports=[table_import(1, side="right")]), has_table(2, 3), b"ended\n"),
    (wants_global("right", I32, 0), has_global(I32, 0), b"ended\n"),
    (module([ANSWER], [("left", "f", IMPORTED_FUNC)]), module([ANSWER], [("right", "f", IMPORTED_FUNC)]), b"ended\n"),
    (STARTS, RIGHT, b"host-call 1\nhost-return 1\nended\n"),
]

# Pairs and scripts with more than one fault: the first one has this status and this line.
ORDER = [
    (b"", b"", 5, "malformed: at 0"),
    (FLOATS, TWO_ANSWERS[:40], 7, "unsupported: function 0 instruction 2 float arithmetic"),
    (INVALID, b"", 6, "invalid: function 0"),
    (RESERVED, INVALID, 8, "reserved: import 0"),
    (LEFT, TWO_ANSWERS[:40], 5, "malformed: at 35"),
    (LEFT, INVALID, 6, "invalid: function 0"),
    (LEFT, RESERVED, 8, "reserved: import 0"),
    (LEFT, passes_on(("left", "x", IMPORTED_FUNC)), NO_END),
    (
        passes_on(("right", "f", IMPORTED_FUNC), ("right", "x", IMPORTED_FUNC)),
        passes_on(("h", "f", b"\0\0"), types=[NULLARY]),
        OTHER,
    ),
    (
        ALL_TWICE,
        module([NULLARY], [("left", "f", IMPORTED_FUNC)], [0], [limits(0)], [limits(0)], start=1, bodies=[b""]),
        NO_RIGHT_END,
    ),
    (ALL_TWICE, ALL_TWICE, "pair: two memories"),
    (ALL_TWICE, module([NULLARY], funcs=[0], tables=[limits(0)], start=0, bodies=[b""]), "pair: two tables"),
]

# The left module's data segment passes its memory, and the second element segment of the right one passes the table.
PAST_BOTH = (
    module(
        [NULLARY],
        funcs=[0],
        tables=[limits(1)],
        memories=[limits(0)],
        exports=[("t", TABLE, 0)],
        elements=[[0]],
        bodies=[b""],
        datas=[b"\1"],
    ),
    module([NULLARY], [table_import(1)], [0], elements=[[0], [0, 0]], bodies=[b""]),
)

# Scripts for the two adders, turns, and the status and the line.
SCRIPTS = [
    (b"{", TURNS, 9, "script: not json"),
    (b'{"main":[{"call":"g"}]}', TURNS, 9, "script: unknown g"),
    (b'{"main":[{"call":"right.g"}]}', TURNS, 9, "script: unknown right.g"),
    (b'{"imports":{"right":{"f":{}}}}', TURNS, 9, "script: unknown right"),
    (b'{"main":[{"call":"left.g","args":[{"i32":1}]}]}', TURNS, 9, "script: type left.g"),
    (b'{"main":[{"call":"left.g"}]}', TURNS, 11, "script fault: turn 3 no response"),
    (SCRIPT, TURNS - 1, 12, "turns spent: 9"),
]


def put_pair(group, name, left, right, script=b"{}"):
    data = {".left.wasm": left, ".right.wasm": right, ".json": script}
    return [group.put(name + ending, content) for ending, content in data.items()]


def refused(group, files, turns, status, line):
    for command in ("pair", "pair-history"):
        group.refused([command, *files, str(turns)], status, line)


def check_run(group):
    """The two adders, with their lines; the replay module in another engine."""
    files = put_pair(group, "adders", LEFT, RIGHT, SCRIPT)
    group.expect(
        group.done("pair-history", *files, str(TURNS)) == LINES, "`pair-history` prints the lines of the adders"
    )
    replay = group.put("adders.replay.wasm", group.done("pair", *files, str(TURNS)))
    group.expect(group.done("replay", replay, "100") == LINES, "`replay` prints the lines of the adders")
    node = shutil.which("node") or shutil.which("nodejs")
    if node:
        group.put("probe", engines.PROBE)
        engines.run_by_node(group, node, {"adders": "ended"})


def check_host_names(group):
    """A module's import from its own side is the host's."""
    left = module([ANSWER], [("left", "f", IMPORTED_FUNC)], [0], exports=[("g", FUNC, 1)], bodies=[CALL_0])
    script = b'{"imports":{"left":{"f":{"rest":{"return":{"i32":3}}}}},"main":[{"call":"left.g"}]}'
    files = put_pair(group, "own_name", left, EMPTY, script)
    lines = (
        b"host-call 1\nstep 1 0 ->\nimport-call 0\nimport-return 0 i32:00000003\nhost-return 1 i32:00000003\nended\n"
    )
    group.expect(group.done("pair-history", *files, "9") == lines, "the left module imports from the host's `left`")


def checks(group):
    check_run(group)
    check_host_names(group)
    for number, (left, right, line) in enumerate(REFUSED):
        refused(group, put_pair(group, f"refused{number}", left, right), 5, 21, line)
    for number, (left, right, lines) in enumerate(LINKED):
        files = put_pair(group, f"linked{number}", left, right)
        group.expect(
            group.done("pair-history", *files, "5") == lines, f"linked{number}: `pair-history` prints the lines"
        )
        replay = group.put(f"linked{number}.replay.wasm", group.done("pair", *files, "5"))
        group.expect(group.done("replay", replay, "100") == lines, f"linked{number}: `replay` prints the lines")
    for number, (left, right, *answer) in enumerate(ORDER):
        status, line = answer if len(answer) == 2 else (21, *answer)
        refused(group, put_pair(group, f"order{number}", left, right, b"{"), 5, status, line)
    files = put_pair(group, "played", LEFT, RIGHT)
    for script, turns, status, line in SCRIPTS:
        group.put("played.json", script)
        refused(group, files, turns, status, line)
    missing = put_pair(group, "missing", has_memory(1), module(imports=[("h", "x", bytes([3, I32, 0]))]))
    refused(group, missing, 5, 10, "link: missing import 0")
    group.put("missing.json", b'{"main":[{"call":"x"}]}')
    refused(group, missing, 5, 9, "script: unknown x")
    refused(group, put_pair(group, "segments", *PAST_BOTH), 5, 10, "link: segment 2")
