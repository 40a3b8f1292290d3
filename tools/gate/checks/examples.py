"""Every example through all commands, against the committed histories and the digests in examples/bytes.sha256, and the
ways by which a replay module is made against each other."""
import hashlib
import os
import re

from group import EXAMPLES, called, contents

TURNS = "100000"
DIGESTS = os.path.join(EXAMPLES, "bytes.sha256")

# The examples whose run has no history, with the status and the line of `make` and `history`.
REFUSED = {
    "two_answers_used_up": (11, "script fault: turn 6 no response"),
    "table_growth_refused": (11, "script fault: turn 3 grow refused"),
}


def names(ending):
    return sorted(name[: -len(ending)] for name in os.listdir(EXAMPLES) if name.endswith(ending))


def files_of(script, module):
    """The files of a run: the module and its declarations of host functions, or the two modules, and the script."""
    endings = [".left.wasm", ".right.wasm"] if module in names(".left.wasm") else [".wasm", ".decls.json"]
    paths = [os.path.join(EXAMPLES, module + ending) for ending in endings]
    return [*filter(os.path.isfile, paths), os.path.join(EXAMPLES, script + ".json")]


def commands_of(files):
    """The commands that make the replay module and print the history of the run of these files."""
    if len(files) == 2:
        return ("make", "history")
    return ("pair", "pair-history") if files[1].endswith(".wasm") else ("foreign", "foreign-history")


def runs():
    """Each script's name, with the name of its module or modules: the longest one with which it begins."""
    modules = names(".wasm") + names(".left.wasm")
    for script in names(".json"):
        fitting = [name for name in modules if script == name or script.startswith(name + "_")]
        if fitting:
            yield script, max(fitting, key=len)


def replayed():
    """The runs that have an outcome: the name, and how the last line of the history says that the run ends."""
    for script, _ in runs():
        history = os.path.join(EXAMPLES, script + ".history.txt")
        if os.path.isfile(history):
            yield script, contents(history).split(b"\n")[-2].decode()


def turns_in_readme():
    """The number of turns of each example for which examples/README.md gives it."""
    with open(os.path.join(EXAMPLES, "README.md"), encoding="utf-8") as file:
        rows = re.findall(r"^\| `(\w+)` \|.* ([\d,]+) turns \|$", file.read(), re.M)
    return [(name, int(number.replace(",", ""))) for name, number in rows]


def digest(data):
    return hashlib.sha256(data).hexdigest()


def committed():
    """The committed digests, by name."""
    with open(DIGESTS, encoding="utf-8") as file:
        return {name: found for found, name in (line.rstrip("\n").split("  ", 1) for line in file)}


def in_parts(group, script, files):
    """What the commands print on the way from a module and a script to a replay module, by name."""
    module, played = files
    log, tape = group.path(script + ".log"), group.path(script + ".tape")
    hooked = group.path(os.path.basename(module)[:-5] + ".hooked.wasm")
    made = {hooked: group.done("instrument", module)}
    group.put(hooked, made[hooked])
    made[log] = group.done("record", hooked, played, TURNS)
    group.put(log, made[log])
    made[tape] = group.done("reduce", log)
    group.put(tape, made[tape])
    for path, kind in ((log, "log"), (tape, "tape")):
        text = group.done("show", path)
        first = f"{kind} {digest(contents(module))}\n".encode()
        group.expect(text.startswith(first), f"{called(['show', path])} begins with the digest of the module")
        made[path + ".txt"] = text
    return {os.path.basename(path): data for path, data in made.items()}, group.done("build", module, played, tape)


def check_run(group, script, module):
    """Checks a run that has an outcome, and returns what the commands print, by name."""
    files = files_of(script, module)
    makes, shows = commands_of(files)
    history = contents(os.path.join(EXAMPLES, script + ".history.txt"))
    group.expect(group.done(shows, *files, TURNS) == history, f"{script}: `{shows}` prints {script}.history.txt")
    replay = group.done(makes, *files, TURNS)
    group.expect(group.done(makes, *files, TURNS) == replay, f"{script}: `{makes}` prints the same again")
    path = group.put(script + ".replay.wasm", replay)
    group.expect(group.done("replay", path, TURNS) == history, f"{script}: `replay` prints the lines of `{shows}`")
    if makes != "make":
        return {script + ".replay.wasm": replay}
    printed, built = in_parts(group, script, files)
    group.expect(built == replay, f"{script}: `build` prints what `make` prints")
    last = printed[script + ".log.txt"].split(b"\n")[-2:]
    group.expect(last == history.split(b"\n")[-2:], f"{script}: the log ends as the history does")
    return {**printed, script + ".replay.wasm": replay}


def check_refused(group):
    for script, (status, line) in REFUSED.items():
        files = files_of(script, dict(runs())[script])
        for command in commands_of(files):
            group.refused([command, *files, TURNS], status, line)
    files = [os.path.join(EXAMPLES, name) for name in ("float_body.wasm", "empty.json")]
    line = "unsupported: function 2 instruction 3 float arithmetic"
    for words in (["make", *files, TURNS], ["history", *files, TURNS], ["instrument", files[0]]):
        group.refused(words, 7, line)


def check_no_declarations(group):
    """With an empty list of declarations the histories are those without one."""
    none = group.put("none.decls.json", b"[]")
    for script, module in runs():
        files = files_of(script, module)
        if len(files) == 2:
            answer = group.call("foreign-history", files[0], none, files[1], TURNS)
            is_same = answer == group.call("history", *files, TURNS)
            group.expect(is_same, f"{script}: `foreign-history` with [] prints what `history` prints", answer)


def printed_by(group):
    """Checks all examples, and returns what the commands print for them, by name."""
    printed = {}
    for script, module in runs():
        if os.path.isfile(os.path.join(EXAMPLES, script + ".history.txt")):
            printed.update(check_run(group, script, module))
        else:
            is_known = script in REFUSED or module == "float_body"
            group.expect(is_known, f"{script} has a history, or is refused in a way that is known")
    return printed


def checks(group):
    printed = printed_by(group)
    digests = committed()
    for name in sorted({*printed, *digests}):
        is_same = name in printed and digests.get(name) == digest(printed[name])
        group.expect(is_same, f"{name} has the digest in examples/bytes.sha256")
    by_hand = os.path.join(EXAMPLES, "replay_two_answers.wasm")
    lines = contents(os.path.join(EXAMPLES, "two_answers.history.txt"))
    group.expect(group.done("replay", by_hand, TURNS) == lines, "replay_two_answers.wasm shows two_answers.history.txt")
    check_refused(group)
    check_no_declarations(group)
    for name, turns in turns_in_readme():
        files = files_of(name, name)
        makes, shows = commands_of(files)
        group.done(makes, *files, str(turns))
        group.refused([makes, *files, str(turns - 1)], 12, f"turns spent: {turns - 1}")
        group.refused([shows, *files, str(turns - 1)], 12, f"turns spent: {turns - 1}")
