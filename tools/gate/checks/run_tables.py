"""Runs with their lines: what `history` prints of them, and what `make` makes of them. The tables are in
run_rows.py and edge_rows.py."""
import edge_rows
import run_rows
from loads import LOAD_MODULE, load_script, sizes_of_tape

# The greatest number of turns of `record` and `replay`.
MAX = "20000000"
FILES = ("m.wasm", "s.json")

LOAD = 20000
LOAD_TURNS = 346252
LOAD_LINES = 367504

# A script with 999,999 calls of the import of a load's module, each of which adds two to the weight of the tape.
HEAVY = b"""{"imports":{"h":{"f":{"rest":{"return":{"i32":0}}}}},
        "main":[{"grow":15},{"call":"run","args":[{"i32":999999}]}]}"""


def rows(tables):
    """The rows of tables: the module, the name, the turns, the script and the lines. Each row begins with `- ` on a
    line of its own, and is `NAME | TURNS | SCRIPT => LINES`, with `;` between the lines. White space around the turns,
    a script and a line is left out."""
    for module, table in tables:
        for row in table.split("\n- ")[1:]:
            name, turns, rest = row.split(" |", 2)
            script, lines = rest.split("=>", 1)
            text = "".join(line.strip() + "\n" for line in lines.split(";"))
            yield module, name, turns.strip(), script.strip().encode(), text.encode()


def put_run(group, module, script):
    """Writes the files of a run."""
    for name, data in zip(FILES, (module, script)):
        group.put(name, data)


def check_histories(group, tables, wanted):
    """Compares what `history` prints with the rows of tables, and their number with the one wanted."""
    count = 0
    for module, name, turns, script, text in rows(tables):
        put_run(group, module, script)
        group.prints(["history", *FILES, turns], text, f"{name}: the history has its lines")
        count += 1
    group.expect(count == wanted, f"{count} rows of histories, where there are {wanted}")


def check_faults(group):
    """Actions that cannot be done have their turn."""
    for name, module, script, line in edge_rows.FAULTS:
        put_run(group, module, script)
        group.refused(["history", *FILES, "100"], 11, line, what=name)


def check_depth(group):
    """A function that calls itself 100,000 times, each call within the one before: 1,000,006 lines."""
    put_run(group, edge_rows.DEPTH, edge_rows.DEPTH_SCRIPT)
    history = group.done("history", *FILES, "800004")
    group.expect(len(history) == 28000133, f"a deep recursion has a history of 28,000,133 bytes: {len(history)}")
    group.expect(history.count(b"\n") == 1000006, "a deep recursion has 1,000,006 lines")
    group.expect(history.endswith(b"host-return 0 i32:000186a0\nended\n"), "a deep recursion returns its depth")
    answer = group.call("history", *FILES, "800003")
    group.expect(answer.status == 12, "a deep recursion takes no turn less", answer)


def put_parts(group):
    """Writes what `instrument`, `record` and `reduce` print if each takes what the command before printed."""
    group.put("h.wasm", group.done("instrument", "m.wasm"))
    group.put("l.log", group.done("record", "h.wasm", "s.json", MAX))
    group.put("t.tape", group.done("reduce", "l.log"))


def check_makes(group, tables, wanted):
    """Replay modules show the runs that they are made of: the run of what `make` prints shows the lines, a second call
    prints the same, and so do the commands for its parts, one after another."""
    count = 0
    for module, name, turns, script, text in rows(tables):
        put_run(group, module, script)
        replay = group.done("make", *FILES, turns, what=f"{name}: it is made")
        again = group.done("make", *FILES, turns, what=f"{name}: it is made again")
        group.expect(again == replay, f"{name}: made again it is the same")
        put_parts(group)
        parts = group.done("build", *FILES, "t.tape", what=f"{name}: its parts make it")
        group.expect(parts == replay, f"{name}: its parts make the same")
        group.put("r.wasm", replay)
        shown = group.done("replay", "r.wasm", MAX, what=f"{name}: its replay ends")
        group.expect(shown == text, f"{name}: its replay shows its lines")
        count += 1
    group.expect(count == wanted, f"{count} rows of replay modules, where there are {wanted}")


def check_load(group):
    """A run of 346,252 turns, in which the host writes and is called 20,000 times. Its sizes are those that `load`
    prints; each entry has a line, and so has the outcome."""
    put_run(group, LOAD_MODULE, load_script(LOAD))
    group.put("r.wasm", group.done("make", *FILES, str(LOAD_TURNS)))
    history = group.done("history", *FILES, str(LOAD_TURNS))
    group.expect(group.done("replay", "r.wasm", MAX) == history, "a load: `replay` prints the lines of `history`")
    group.expect(history.count(b"\n") == LOAD_LINES, f"a load of {LOAD} calls has {LOAD_LINES} lines")
    fewer = str(LOAD_TURNS - 1)
    group.refused(["history", *FILES, fewer], 12, f"turns spent: {fewer}", what="a load in a turn less")
    put_parts(group)
    sizes = (LOAD_TURNS, LOAD_LINES - 1, *sizes_of_tape(group.done("show", "t.tape")))
    lines = "turns %d\nentries %d\nsegments %d\nweight %d\n" % sizes
    group.expect(group.done("load", str(LOAD)) == lines.encode(), f"`load {LOAD}` prints the sizes of its run")


def check_heavy_tape(group):
    """A run of 15,999,987 turns with 999,999 calls of its import."""
    put_run(group, LOAD_MODULE, HEAVY)
    group.refused(["make", *FILES, "1000000000"], 18, "tape limit: 2000002", what="a tape that is too heavy")


def histories(group):
    check_histories(group, run_rows.RUNS, 27)
    check_histories(group, run_rows.LARGEST_MEMORY, 1)
    check_histories(group, edge_rows.RUNS, 20)
    check_faults(group)
    check_depth(group)


def makes(group):
    check_makes(group, run_rows.RUNS, 27)
    check_load(group)
    check_heavy_tape(group)
