"""Each status and line of docs/STATUSES.md, by a call that ends with it; and the words of a call, with its numbers."""
import hashlib
import json
import resource

from modules import FUNC, I32, LOG, TABLE, TAPE, example, limits, module, trace, u32

NULLARY = ([], [])
ANSWER = ([], [I32])
TWO_ANSWERS = example("two_answers.wasm")
ANSWERS = example("two_answers.json")
WRITER = example("overwrite.wasm")
TABLES = module(
    [NULLARY, ANSWER],
    [("h", "f", b"\0\0")],
    [0, 1],
    [limits(3)],
    exports=[("run", FUNC, 1), ("t", TABLE, 0), ("own", FUNC, 0)],
    elements=[[1, 0]],
    bodies=[b"\x10\0", b"\x41\1"],
)
FLOAT = b"\x43\0\0\0\0"
FOREIGN = module([NULLARY], [("h", "f", b"\0\0"), ("foreign", "t", b"\1\x70" + limits(1))])
CALLS_OWN = "script fault: turn 2 calls own"
LAYOUT = "r3.layout"
GO = b'{"main":[{"call":"g"}]}'


def of_body(body):
    """A module of one function without a result."""
    return module([NULLARY], funcs=[0], bodies=[body])


def declarations(*names):
    """Declarations of functions without parameters and results."""
    return json.dumps([{"name": it, "params": [], "results": []} for it in names]).encode()


# Modules that are refused, and the status and the line.
MODULES = [
    (b"", 5, "malformed: at 0"),
    (TWO_ANSWERS[:40], 5, "malformed: at 35"),
    (of_body(b"\x41\1"), 6, "invalid: function 0"),
    (module(memories=[limits(0), limits(0)]), 6, "invalid: module"),
    (of_body(FLOAT + FLOAT + b"\x92\x1a"), 7, "unsupported: function 0 instruction 2 float arithmetic"),
    (of_body(FLOAT + FLOAT + b"\x5b\x1a"), 7, "unsupported: function 0 instruction 2 float comparison"),
    (of_body(FLOAT + b"\xa8\x1a"), 7, "unsupported: function 0 instruction 1 float conversion"),
    (module([([I32] * 1001, [])]), 8, "limit: parameters 1001"),
    (module(tables=[limits(1000001)]), 8, "limit: table 1000001"),
    (module(memories=[limits(4097)]), 8, "limit: memory 4097"),
    (module([NULLARY], funcs=[0], bodies=[(b"", 50001)]), 8, "limit: locals 50001"),
    (module([NULLARY], [("r3", "f", b"\0\0")]), 8, "reserved: import 0"),
]

# Scripts that do not fit a module or cannot be done, and the status and the line.
SCRIPTS = [
    (TWO_ANSWERS, b"{", 9, "script: not json"),
    (TWO_ANSWERS, b'{"main":7}', 9, "script: shape /main"),
    (TWO_ANSWERS, b'{"a":{}}', 9, "script: shape "),
    (TWO_ANSWERS, b'{"main":[{"call":"a\\\\\\u00e9"}]}', 9, "script: unknown a\\5c\\c3\\a9"),
    (TWO_ANSWERS, b'{"main":[{"call":"g","args":[{"i32":1}]}]}', 9, "script: type g"),
    (TWO_ANSWERS, b'{"main":[{"write":0,"bytes":"00"}]}', 9, "script: no access memory"),
    (TABLES, b'{"main":[{"call":"own"}]}', 9, "script: calls own own"),
    (example("imported_offset.wasm"), GO, 10, "link: missing import 0"),
    (example("imported_offset.wasm"), b'{"globals":{"h":{"b":{"i64":16}}}}', 10, "link: mismatch import 0"),
    (example("imported_offset.wasm"), b'{"globals":{"h":{"b":{"i32":65536}}}}', 10, "link: segment 0"),
    (TWO_ANSWERS, GO, 11, "script fault: turn 2 no response"),
    (WRITER, b'{"main":[{"write":65535,"bytes":"aabb"}]}', 11, "script fault: turn 1 outside"),
    (WRITER, b'{"main":[{"grow":4096}]}', 11, "script fault: turn 1 grow refused"),
    (TABLES, b'{"main":[{"call_table":3}]}', 11, "script fault: turn 1 table outside"),
    (TABLES, b'{"main":[{"call_table":2}]}', 11, "script fault: turn 1 empty entry"),
    (TABLES, b'{"main":[{"call_table":1}]}', 11, "script fault: turn 1 calls own"),
    (TABLES, b'{"main":[{"call_table":0,"args":[{"i32":1}]}]}', 11, "script fault: turn 1 entry type"),
    (TWO_ANSWERS, ANSWERS, 12, "turns spent: 3"),
]

# Declarations that do not fit a module, with a script, and the status and the line.
DECLARATIONS = [
    (TABLES, b"[", b"{}", 20, "declarations: not json"),
    (TABLES, b"{}", b"{}", 20, "declarations: shape "),
    (TABLES, b'[{"name":"a","params":["i32","i33"],"results":[]}]', b"{}", 20, "declarations: shape /0/params/1"),
    (TABLES, b'[{"name":"a","params":[],"results":["i32","i32"]}]', b"{}", 20, "declarations: shape /0/results"),
    (FOREIGN, b"[]", b"{}", 20, "declarations: reserved 1"),
    (TABLES, declarations("a", "own"), b"{}", 20, "declarations: taken own"),
    (TABLES, declarations("\\\u00e9", "b", "b", "\\\u00e9"), b"{}", 20, "declarations: taken b"),
    (TABLES, declarations("\\\u00e9", "\\\u00e9"), b"{", 20, "declarations: taken \\5c\\c3\\a9"),
    (of_body(b"\x41\1"), b"[", b"{", 6, "invalid: function 0"),
    (TABLES, declarations("a"), b"{", 9, "script: not json"),
    (TABLES, declarations("a"), b'{"main":[{"call":"a"}]}', 9, "script: calls own a"),
    (TABLES, declarations("a"), b'{"imports":{"foreign":{"b":{}}}}', 9, "script: unknown b"),
    (TABLES, declarations("a"), b'{"main":[{"set_table":2,"func":"a"},{"call_table":2}]}', 11, CALLS_OWN),
]

# Modules that `replay` refuses.
REPLAYS = [
    (TWO_ANSWERS, 17, "replay: layout"),
    (module([NULLARY], [("h", "f", b"\0\0")], customs=[(LAYOUT, b"\1\0")]), 17, "replay: imports"),
    (module([NULLARY], funcs=[0], bodies=[b""], customs=[(LAYOUT, b"\0\1")]), 17, "replay: entry"),
    (example("replay_two_answers.wasm"), 12, "turns spent: 3"),
]

# Files that `show` and `reduce` refuse, and the statuses and lines.
TRACES = [
    (b"", 15, "trace: bad at 0"),
    (trace(TAPE, TWO_ANSWERS, b"\0\0\x22\0"), 15, "trace: bad at 40"),
    (trace(LOG, TWO_ANSWERS, b"\1\x10", version=3), 15, "trace: version 3"),
]


def check_modules(group):
    played = group.put("s.json", GO)
    well = group.put("well.wasm", TWO_ANSWERS)
    for number, (binary, status, line) in enumerate(MODULES):
        path = group.put(f"module{number}.wasm", binary)
        for words in (["instrument", path], ["make", path, played, "9"], ["history", path, played, "9"]):
            group.refused(words, status, line)
        for command in ("foreign", "foreign-history"):
            group.refused([command, path, played, played, "9"], status, line)
        for command in ("pair", "pair-history"):
            group.refused([command, path, played, played, "9"], status, line)
            group.refused([command, well, path, played, "9"], status, line)
        group.refused(["replay", path, "9"], status, line)


def check_scripts(group):
    for number, (binary, script, status, line) in enumerate(SCRIPTS):
        files = [group.put(f"script{number}.wasm", binary), group.put(f"script{number}.json", script)]
        for command in ("make", "history"):
            group.refused([command, *files, "3"], status, line)


def check_declarations(group):
    """Declarations that are refused, and what comes before and after them."""
    for number, (binary, declared, script, status, line) in enumerate(DECLARATIONS):
        endings = {"wasm": binary, "decls.json": declared, "json": script}
        files = [group.put(f"declared{number}.{ending}", data) for ending, data in endings.items()]
        for command in ("foreign", "foreign-history"):
            group.refused([command, *files, "3"], status, line)


def check_record(group):
    """`record` of other modules than instrumented ones, and of one whose first hook call is another."""
    played = group.put("answers.json", ANSWERS)
    group.refused(["record", group.put("plain.wasm", TWO_ANSWERS), played, "9"], 17, "not hooked")
    hooked = group.done("instrument", group.path("plain.wasm"))
    group.refused(["record", group.put("hooked.wasm", hooked), played, "28"], 12, "turns spent: 28")
    entered = b"\x41\1\x10\2"
    group.expect(hooked.count(entered) == 1, "the instrumented module calls the hook `enter` once")
    twice = group.put("other_order.wasm", hooked.replace(entered, b"\x41\0\x10\2"))
    group.refused(["record", twice, played, "99"], 17, "hook order: call 0")


def check_traces(group):
    for number, (data, status, line) in enumerate(TRACES):
        path = group.put(f"trace{number}", data)
        group.refused(["show", path], status, line)
    for number in (0, 2):
        group.refused(["reduce", f"trace{number}"], *TRACES[number][1:])
    unbalanced = trace(LOG, TWO_ANSWERS, b"\1\1\1\0\2\2\x10")
    group.refused(["reduce", group.put("unbalanced.log", unbalanced)], 17, "unbalanced: event 1")


def check_build(group):
    files = [group.put("two.wasm", TWO_ANSWERS), group.put("none.json", b"{}")]
    group.refused(["build", *files, group.put("none.tape", b"")], 15, "trace: bad at 0")
    bare = group.put("no_segments.tape", trace(TAPE, TWO_ANSWERS, b"\x2f"))
    group.refused(["build", *files, bare], 17, "tape: segment 0")
    other = group.put("other.tape", trace(TAPE, WRITER, b"\0\0\x22\x2f"))
    digests = [hashlib.sha256(it).hexdigest() for it in (WRITER, TWO_ANSWERS)]
    group.refused(["build", *files, other], 16, "other module: " + " ".join(digests))
    writer = [group.put("writer.wasm", WRITER), files[1]]
    grown = b"\0\2\5\x28"
    heavy = grown + b"\7\0" + u32(2000000) + bytes(2000000) + b"\x22\x2f"
    group.refused(["build", *writer, group.put("heavy.tape", trace(TAPE, WRITER, heavy))], 18, "tape limit: 2000002")


def long_when_instrumented():
    """A module within its limit of bytes whose instrumented module is not: calls of two bytes, which become 34 bytes
    each, since the numbers of the hooks and of the added locals take three bytes."""
    imports = [("h", "f", b"\0\0")] + [("", "", b"\0\0")] * 16384
    return module([ANSWER, NULLARY], imports, [1], bodies=[(b"\x10\0" * 4150000 + b"\0", 50000)])


def check_hooked_limit(group):
    """The call takes some gigabytes of memory, and minutes if the program is built for finding faults."""
    if group.is_sanitized():
        group.notes.append("the program is built with AddressSanitizer: status 23 is not checked")
    elif available_memory() < 6 << 30:
        group.notes.append("there are less than 6 GiB of free memory: status 23 is not checked")
    else:
        path = group.put("long.wasm", long_when_instrumented())
        group.refused(["instrument", path], 23, "hooked limit: 134217728")


def available_memory():
    with open("/proc/meminfo", encoding="ascii") as file:
        return next((int(line.split()[1]) << 10 for line in file if line.startswith("MemAvailable:")), 0)


def check_memory(group):
    """A memory of 256 MiB in a process that may have 128 MiB."""
    if group.is_sanitized():
        group.notes.append("the program is built with AddressSanitizer: status 14 is not checked")
        return
    path = group.put("pages.wasm", module([NULLARY], memories=[limits(4096)]))
    script = group.put("pages.json", b"{}")
    bound = 128 << 20
    limited = {"preexec_fn": lambda: resource.setrlimit(resource.RLIMIT_AS, (bound, bound))}
    group.refused(["make", path, script, "9"], 14, "memory", what="a memory past the process's limit", **limited)


def checks(group):
    check_modules(group)
    check_scripts(group)
    check_declarations(group)
    check_record(group)
    check_traces(group)
    check_build(group)
    check_memory(group)
    check_hooked_limit(group)
    for number, (binary, status, line) in enumerate(REPLAYS):
        group.refused(["replay", group.put(f"replay{number}.wasm", binary), "3"], status, line)


# The commands: how many files each takes, and the greatest number after them.
COMMANDS = {
    "make": (2, 1000000000),
    "history": (2, 2000000),
    "foreign": (3, 1000000000),
    "foreign-history": (3, 2000000),
    "pair": (3, 1000000000),
    "pair-history": (3, 2000000),
    "record": (2, 20000000),
    "replay": (1, 20000000),
    "load": (0, 60000),
    "instrument": (1, None),
    "reduce": (1, None),
    "show": (1, None),
    "build": (3, None),
}


def words(group):
    """No file is there, so a call whose words are taken ends with status 3, and no other does."""
    for call in ([], [""], ["Make"], ["makes"], ["--help"], ["help", "m"], ["-h"], ["make\n"], [" make"]):
        group.refused(call, 2, "usage")
    for command, (count, most) in COMMANDS.items():
        names = [f"missing{number}" for number in range(count)]
        taken = [[]] if most is None else [[number] for number in ("1", str(most)) if count]
        refused = [["1"], [""]] if most is None else [[]]
        if most is not None:
            numbers = ["0", "", "01", "+1", "-1", " 1", "1 ", "1.0", "1e3", "0x1", "a", "\u0661", str(most + 1)]
            refused += [[number] for number in [*numbers, str(2**64 + 1), "1" + "0" * 40]] + [["1", "1"], ["1", ""]]
        for after in taken:
            group.expect(count == 0 or is_missing(group, [command, *names, *after]), f"{command} takes {after}")
        for after in refused:
            group.refused([command, *names, *after], 2, "usage")
        if count:
            group.refused([command, *names[1:], *(taken[0] or [])], 2, "usage")


def is_missing(group, call):
    answer = group.call(*call)
    return answer == (3, b"", b"read: missing0\n")
