"""Files that cannot be read or are too long, and outputs that cannot be written."""
import os
import shutil

from group import Answer, called
from modules import example

MODULE_LIMIT = 8388608
HOOKED_LIMIT = 134217728


def calls(group):
    """One call of each command that prints something, on files of the group's folder."""
    files, declared, pair = ["m.wasm", "s.json"], ["m.wasm", "d.json", "s.json"], ["m.wasm", "other.wasm", "p.json"]
    for file, source in zip(files, ("two_answers.wasm", "two_answers.json")):
        group.put(file, example(source))
    group.put("d.json", b'[{"name":"own","params":["i32"],"results":["f64"]}]')
    group.put("other.wasm", example("empty.wasm"))
    group.put("p.json", example("two_answers.json").replace(b'"g"', b'"left.g"'))
    group.put("r.wasm", example("replay_two_answers.wasm"))
    group.put("hooked.wasm", group.done("instrument", "m.wasm"))
    group.put("log", group.done("record", "hooked.wasm", "s.json", "99"))
    group.put("tape", group.done("reduce", "log"))
    return [
        ["make", *files, "99"],
        ["history", *files, "99"],
        ["replay", "r.wasm", "99"],
        ["instrument", "m.wasm"],
        ["foreign", *declared, "99"],
        ["foreign-history", *declared, "99"],
        ["pair", *pair, "99"],
        ["pair-history", *pair, "99"],
        ["record", "hooked.wasm", "s.json", "99"],
        ["reduce", "log"],
        ["build", *files, "tape"],
        ["show", "log"],
        ["load", "1"],
    ]


def check_outputs(group, words):
    """A full device, a closed standard output, and a standard error that takes nothing and changes no status."""
    with open("/dev/full", "wb") as full:
        group.refused(words, 13, "write", what=f"{called(words)} > /dev/full", stdout=full)
        answer = group.call(words[0], stderr=full)
        group.expect(answer.status == 2 and not answer.out, f"r3 {words[0]} 2> /dev/full has status 2", answer)
    closed = group.call("-c", 'exec "$0" "$@" >&-', group.program, *words, program=shutil.which("bash"))
    group.expect(closed == Answer(13, b"", b"write\n"), f"{called(words)} >&- has status 13", closed)


def check_lost_reader(group):
    """A pipe that nobody reads any more: the call ends with status 13, or by the signal for that."""
    reader, writer = os.pipe()
    os.close(reader)
    with open(writer, "wb") as out:
        seen = group.call("load", "1", stdout=out)
    is_well = seen in (Answer(13, b"", b"write\n"), Answer(-13, b"", b""))
    group.expect(is_well, "a pipe without a reader", seen)


def check_unreadable(group, words, place):
    """A missing file, a folder, a file that may not be read, and one whose reading fails, as the file at a place."""
    secret = group.put("secret", b"")
    os.chmod(secret, 0)
    os.makedirs(group.path("folder"), exist_ok=True)
    named = [(name, name) for name in ("missing", "folder", "/proc/self/mem")]
    named.append(("a\\b\u00e9\n", "a\\5cb\\c3\\a9\\0a"))
    if os.geteuid() != 0:
        named.append(("secret", "secret"))
    for name, line in named:
        group.refused([*words[:place], name, *words[place + 1 :]], 3, f"read: {line}")


def check_too_long(group):
    """Files of one byte more than their limit, which take no room on the disk."""
    for name, length in (("long.module", MODULE_LIMIT + 1), ("long.hooked", HOOKED_LIMIT + 1)):
        with open(group.path(name), "wb") as file:
            file.truncate(length)
    line = f"too long: long.module {MODULE_LIMIT}"
    group.refused(["make", "long.module", "s.json", "1"], 4, line)
    group.refused(["make", "m.wasm", "long.module", "1"], 4, line)
    group.refused(["foreign", "m.wasm", "long.module", "s.json", "1"], 4, line)
    group.refused(["pair", "m.wasm", "long.module", "s.json", "1"], 4, line)
    group.refused(["instrument", "long.module"], 4, line)
    group.refused(["record", "long.hooked", "s.json", "1"], 4, f"too long: long.hooked {HOOKED_LIMIT}")
    with open(group.path("long.module"), "wb") as file:
        file.truncate(MODULE_LIMIT)
    group.refused(["instrument", "long.module"], 5, "malformed: at 0")


def check_stdin(group):
    """A file that is read from a pipe."""
    with open(group.path("log"), "rb") as file:
        log = file.read()
    shown = group.done("show", "log")
    group.expect(group.done("show", "/dev/stdin", input=log) == shown, "`show /dev/stdin` reads a pipe")


def checks(group):
    every = calls(group)
    for words in every:
        check_outputs(group, words)
        for place, word in enumerate(words):
            if place and not word.isdigit():
                check_unreadable(group, words, place)
    check_lost_reader(group)
    check_too_long(group)
    check_stdin(group)
    if os.geteuid() == 0:
        group.notes.append("root reads every file: files that may not be read are not checked")
