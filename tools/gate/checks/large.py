"""Larger inputs: a load, a large module, a deep recursion, many declarations, a long chain of imports. Each call has the
usual time limit."""
import json

import modules
from modules import FUNC, I32, example, s32

NULLARY = ([], [])
ADDITIONS = 100000
DEPTH = 20000
LOAD = 1000
DECLARATIONS = 60000
CHAIN = 20000
NINE = {"return": {"i32": 9}}


def load_lines(number):
    """What `load` prints, by the number of calls: each call takes 17 turns, and each sixteenth one five more."""
    ticks = number // 16
    zeros = sum(call % 256 == 219 for call in range(number))
    segments = number + 2 + ticks
    sums = (17 * number + 2 + 5 * ticks, 18 * number + 3 + 6 * ticks, segments, segments + 2 * number + 1 - zeros)
    return "turns %d\nentries %d\nsegments %d\nweight %d\n" % sums


def same_both_ways(group, name, binary, script, turns):
    """Checks that a run is replayed: the lines of the replay module are those of the history, which is returned."""
    files = [group.put(name + ".wasm", binary), group.put(name + ".json", script)]
    history = group.done("history", *files, turns)
    replay = group.put(name + ".replay.wasm", group.done("make", *files, turns))
    group.expect(group.done("replay", replay, turns) == history, f"{name}: `replay` prints the lines of `history`")
    return history.decode()


def check_large_module(group):
    """One function that calls an import and adds 1 to what it gives, again and again."""
    body = b"\x10\0" + b"\x41\1\x6a" * ADDITIONS
    binary = modules.module([([], [I32])], [("h", "f", b"\0\0")], [0], exports=[("g", FUNC, 1)], bodies=[body])
    history = same_both_ways(group, "large", binary, example("two_answers.json"), "400000")
    last = f"host-return 1 i32:{5 + ADDITIONS:08x}\nended\n"
    group.expect(len(binary) > 300000 and history.endswith(last), "a module of 300 kilobytes adds up")
    files = [group.path("large.wasm"), group.path("large.json")]
    turns = 2 * ADDITIONS + 1
    group.refused(["make", *files, str(turns)], 12, f"turns spent: {turns}")


def check_recursion(group):
    """A function that calls itself, to a depth, and an import at the bottom."""
    body = b"\x20\0\x45\x04\x40\x10\0\x05\x20\0\x41\1\x6b\x10\1\x0b"
    binary = modules.module([NULLARY, ([I32], [])], [("h", "f", b"\0\0")], [1], exports=[("g", FUNC, 1)], bodies=[body])
    call = {"call": "g", "args": [{"i32": DEPTH}]}
    script = {"imports": {"h": {"f": {"rest": {}}}}, "main": [call]}
    history = same_both_ways(group, "deep", binary, json.dumps(script).encode(), "1000000")
    group.expect(history.count("\nenter 1\n") == DEPTH, "each call of the recursion is entered")
    group.expect(history.count("\nimport-call 0\n") == 1 and history.endswith("\nended\n"), "the recursion ends")


def check_large_answer(group):
    """A host that writes 20 kilobytes, which the module adds up byte by byte."""
    data = bytes(7 * place % 251 for place in range(20000))
    loop = b"\x03\x40\x20\0\x20\1\x2d\0\0\x6a\x21\0\x20\1\x41\1\x6a\x22\1\x41" + s32(len(data)) + b"\x49\x0d\0\x0b"
    binary = modules.module(
        [([], [I32]), NULLARY],
        [("h", "f", b"\0\1")],
        [0],
        memories=[modules.limits(1)],
        exports=[("g", FUNC, 1), ("m", modules.MEMORY, 0)],
        bodies=[(b"\x10\0" + loop + b"\x20\0", 2)],
    )
    write = {"write": 0, "bytes": data.hex()}
    script = {"imports": {"h": {"f": {"calls": [{"do": [write]}]}}}, "main": [{"call": "g"}]}
    history = same_both_ways(group, "written", binary, json.dumps(script).encode(), "1000000")
    group.expect(f"host-return 1 i32:{sum(data):08x}" in history, "the bytes that the host writes are added up")


def declared(name, params=(), results=()):
    return {"name": name, "params": list(params), "results": list(results)}


def check_many_declarations(group):
    """60,000 declarations, of which the last is called through the table by its number."""
    declarations = [declared(f"f{place}", results=["i32"]) for place in range(DECLARATIONS)]
    last = f"f{DECLARATIONS - 1}"
    script = {
        "imports": {"h": {"f": {"rest": {"do": [{"set_table": 0, "func": last}]}}}, "foreign": {last: {"rest": NINE}}},
        "main": [{"call": "g"}],
    }
    files = [
        group.put("table.wasm", example("table_entry.wasm")),
        group.put("many.decls.json", json.dumps(declarations).encode()),
        group.put("many.json", json.dumps(script).encode()),
    ]
    history = group.done("foreign-history", *files, "5")
    replay = group.put("many.replay.wasm", group.done("foreign", *files, "5"))
    group.expect(group.done("replay", replay, "20000000") == history, "many declarations: `replay` prints the history")
    call = f"step {DECLARATIONS + 1} 2 i32:00000000 -> found {DECLARATIONS}\nimport-call {DECLARATIONS}\n"
    group.expect(call in history.decode(), "the last of many declared functions is called by its number")
    again = group.put("again.decls.json", json.dumps([*declarations, declared(last)]).encode())
    group.refused(["foreign", files[0], again, files[2], "5"], 20, f"declarations: taken {last}")


def check_large_declarations(group):
    """Declarations that are large, deep or damaged in one place, with their one line."""
    module = group.put("table.wasm", example("table_entry.wasm"))
    script = group.put("none.json", b"{}")
    name = "n" * 1000000
    types = ",".join(['"i32"'] * 1000000)
    cases = [
        ([declared(name), declared(name)], "declarations: taken " + name),
        ("[" * 1000 + "]" * 1000, "declarations: not json"),
        ("[" * 100 + "]" * 100, "declarations: shape /0"),
        ('[{"name":"a","params":[%s],"results":[]}]' % types, "declarations: shape /0/params"),
        ('[{"name":"a","params":[%s,],"results":[]}]' % types, "declarations: not json"),
        (json.dumps([declared(f"f{place}") for place in range(DECLARATIONS)])[:-1], "declarations: not json"),
        ([*(declared(f"f{place}") for place in range(DECLARATIONS)), 0], f"declarations: shape /{DECLARATIONS}"),
    ]
    for number, (declarations, line) in enumerate(cases):
        text = declarations if isinstance(declarations, str) else json.dumps(declarations)
        path = group.put(f"large{number}.decls.json", text.encode())
        for command in ("foreign", "foreign-history"):
            group.refused([command, module, path, script, "5"], 20, line)


def chained(last):
    """Two modules: import k of the left one is import k of the right one, which is import k + 1 of the left one, and so
    on to the last, which is the left module's function of this index. The function behind that calls import 0."""
    types = [([], [I32])]
    left_imports = [("right", f"f{place}", b"\0\0") for place in range(CHAIN)]
    right_imports = [("left", f"f{place + 1}", b"\0\0") for place in range(CHAIN)]
    left_exports = [(f"f{place}", FUNC, place) for place in range(1, CHAIN)]
    left_exports += [(f"f{CHAIN}", FUNC, last), ("g", FUNC, CHAIN + 1)]
    right_exports = [(f"f{place}", FUNC, place) for place in range(CHAIN)]
    bodies = [b"\x41\x09", b"\x10\0"]
    left = modules.module(types, left_imports, [0, 0], exports=left_exports, bodies=bodies)
    return left, modules.module(types, right_imports, exports=right_exports)


def check_long_chain(group):
    """A chain of 40,000 imports, back and forth between two modules, to a function or back to its begin."""
    script = group.put("chain.json", b'{"main":[{"call":"left.g"}]}')
    for last in (CHAIN, 0):
        files = [group.put(f"chain{last}.{side}.wasm", it) for side, it in zip(("left", "right"), chained(last))]
        files.append(script)
        if last:
            nine = "i32:00000009"
            lines = (
                f"host-call 1\nstep 1 0 ->\nenter 0\nstep 0 0 -> {nine}\nexit 0 {nine}\nhost-return 1 {nine}\nended\n"
            )
            group.expect(group.done("pair-history", *files, "3") == lines.encode(), "a long chain ends at a function")
            replay = group.put("chain.replay.wasm", group.done("pair", *files, "3"))
            group.expect(
                group.done("replay", replay, "9") == lines.encode(), "a long chain: `replay` prints the history"
            )
        else:
            group.refused(["pair", *files, "3"], 21, "pair: unresolved left 0")


def checks(group):
    answer = group.done("load", str(LOAD))
    group.expect(answer.decode() == load_lines(LOAD), f"`load {LOAD}` prints its four sizes")
    check_large_module(group)
    check_recursion(group)
    check_large_answer(group)
    check_many_declarations(group)
    check_large_declarations(group)
    check_long_chain(group)
