"""What tools/capture -o refuses, by one line and without a file half written, and what it makes of runs that do not end."""
import json
import os
import shutil
import signal
import subprocess
import time

from node_tests import major_version
from group import LIMIT, ROOT, contents
from programs import CAPTURE, OLDEST, captured, checks_of_folder, run

TWO_ANSWERS = os.path.join(ROOT, "examples", "two_answers.wasm")
# Calls g as often as its word says, and g calls the import twice each time.
CALLS = """
import fs from 'node:fs';
let answers = 0;
const imports = { h: { f: () => answers++ } };
const { instance } = await WebAssembly.instantiate(fs.readFileSync(%s), imports);
for (let i = 0; i < Number(process.argv[2]); i++) instance.exports.g();
console.log(answers);
"""
INSTANCES = """
import fs from 'node:fs';
for (const answer of [3, 4]) {
  const { instance } = await WebAssembly.instantiate(fs.readFileSync(%s), { h: { f: () => answer } });
  instance.exports.g();
}
"""
# A memory that is shared, and a function that gives its size.
SHARED = bytes.fromhex(
    "0061736d0100000001050160 00017f 03020100 0504 01 030101 07050101 67 0000 0a060104003f000b".replace(" ", "")
)
SHARED_PROGRAM = """
import fs from 'node:fs';
const { instance } = await WebAssembly.instantiate(fs.readFileSync('shared.wasm'));
console.log(instance.exports.g());
"""


def refused(group, words, line, what, **how):
    """Checks that a call of tools/capture ends with status 1 and one line with this in it, and that it writes nothing."""
    before = sorted(os.listdir(group.room))
    answer = run(group, [CAPTURE, *words], **how)
    lines = answer.err.decode().splitlines()
    ours = [text for text in lines if text.startswith("capture: ")]
    is_well = answer.status == 1 and len(ours) == 1 and line in ours[0] and lines[-1:] == ours
    group.expect(is_well, f"{what} is refused by a line with `{line}`", answer)
    group.expect(sorted(os.listdir(group.room)) == before, f"{what}: no file is left")


def words_that_are_none(group):
    for words in [
        ["-o"],
        ["-o", "out"],
        ["-o", "out", "--floats", "some", "calls.mjs"],
        ["-o", "out", "--until", "0", "calls.mjs"],
        ["-o", "out", "--nothing", "calls.mjs"],
        ["--host", "calls.mjs"],
        ["--from-log"],
    ]:
        answer = run(group, [CAPTURE, *words])
        group.expect(
            answer.status == 2 and answer.out == b"" and b"usage: " in answer.err,
            f"{words}: the usage, and status 2",
            answer,
        )
    for words in [["--help"], ["-o", "out", "--help"]]:
        answer = run(group, [CAPTURE, *words])
        group.expect(
            answer.status == 0 and answer.err == b"" and b"-o FOLDER" in answer.out, f"{words} prints the usage", answer
        )


def folders(group):
    os.mkdir(group.path("full"))
    group.put("full/notes.txt", b"notes")
    refused(
        group, ["-o", "full", "calls.mjs", "1"], "is neither empty nor an earlier capture", "a folder with other files"
    )
    group.expect(os.listdir(group.path("full")) == ["notes.txt"], "a folder with other files is as it was")
    refused(group, ["-o", "calls.mjs", "calls.mjs", "1"], "is no folder", "a file in place of a folder")
    refused(group, ["-o", ".", "calls.mjs", "1"], "the current folder is there", "the current folder")
    refused(group, ["-o", "missing/out", "calls.mjs", "1"], "missing", "a folder in a missing one")
    _, folder, first = captured(group, "again", ["calls.mjs", "1"])
    _, folder, second = captured(group, "again", ["calls.mjs", "2"])
    counts = [report and report["crossings"]["count"] for report in (first, second)]
    group.expect(counts == [3, 6], f"a capture takes the place of an earlier one: {counts}")
    group.expect(
        sorted(os.listdir(folder)) == ["module.wasm", "replay.wasm", "report.json", "report.txt", "script.json"],
        "a capture has these files alone",
    )
    group.expect(
        contents(os.path.join(folder, "module.wasm")) == contents(TWO_ANSWERS),
        "a module that r3 takes is taken as it is",
    )


def path_with(group, name, commands):
    """A folder with these commands alone, for a path."""
    folder = group.path(name)
    os.mkdir(folder)
    for command in commands:
        os.symlink(shutil.which(command), os.path.join(folder, command))
    return folder


def what_is_missing(group):
    group.put("page.html", b"<!doctype html>")
    refused(group, ["-o", "out", "nothing.mjs"], "nothing.mjs", "a program that is not there")
    refused(
        group, ["-o", "out", "page.mjs"], "the program made no instance of WebAssembly", "a program without a module"
    )
    refused(group, ["-o", "out", "no.wasm"], "the module no.wasm", "a file that is no module")
    refused(group, ["-o", "out", "--relative", "calls.mjs"], "--relative is for the form without -o", "--relative")
    refused(
        group,
        ["-o", "out", "--keep", "nothing", "calls.mjs", "1"],
        "the module has no function nothing",
        "a name of no function",
    )
    refused(
        group,
        ["-o", "out", "--module", "nothing", "calls.mjs", "1"],
        "--module nothing: none of 1 modules",
        "a module that is not there",
    )
    refused(
        group,
        ["-o", "out", "--browser", "./nothing", "page.html"],
        "there is no browser ./nothing",
        "a browser that is not there",
    )
    refused(group, ["--from-log", "full"], "full is no log of a capture", "a folder without a log")
    tools = ["bash", "env", "dirname", "readlink"]
    bare = {**os.environ, "PATH": path_with(group, "bare", tools)}
    refused(
        group,
        ["-o", "out", "calls.mjs"],
        "Node.js 18 or later is needed, 20 or later with -o",
        "a capture without Node.js",
        env=bare,
    )
    with_node = {**os.environ, "PATH": path_with(group, "with_node", [*tools, "node"])}
    refused(group, ["-o", "out", "page.html"], "a page needs a browser", "a page without a browser", env=with_node)
    old = path_with(group, "old", tools)
    with open(os.path.join(old, "node"), "w", encoding="utf-8") as file:
        file.write("#!/usr/bin/env bash\necho v16.20.2\n")
    os.chmod(os.path.join(old, "node"), 0o755)
    refused(group, ["-o", "out", "calls.mjs"], "this is v16.20.2", "an old Node.js", env={**os.environ, "PATH": old})
    group.put("shared.wasm", SHARED)
    group.put("shared.mjs", SHARED_PROGRAM.encode())
    answer = run(group, [CAPTURE, "-o", "out", "shared.mjs"])
    group.expect(
        answer.status == 1 and answer.out == b"1\n" and b"shared" in answer.err,
        "a shared memory is refused by name, and the program runs on",
        answer,
    )


def choices(group):
    _, folder, report = captured(group, "until", ["--until", "10", "calls.mjs", "1000"])
    if report is not None:
        group.expect(
            0 < report["crossings"]["count"] <= 11 and report["program"]["status"] == 0,
            "--until ends the record, and not the program",
        )
        checks_of_folder(group, "until", folder, report, "cut")
    _, folder, report = captured(group, "all", ["--all", "instances.mjs"])
    group.expect(sorted(os.listdir(folder)) == ["instance-0", "instance-1", "report.json"], "--all takes each instance")
    for number, answer in ((0, b"3"), (1, b"4")):
        script = json.loads(contents(os.path.join(folder, f"instance-{number}", "script.json")))
        given = [call["return"]["i32"] for call in script["imports"]["h"]["f"]["calls"]]
        group.expect(given == [int(answer)] * 2, f"instance {number} has its own answers: {given}")
    _, folder, report = captured(group, "one", ["--module", "1", "--no-make", "instances.mjs"])
    group.expect(
        report is not None and [item["taken"] for item in report["modules"]] == [False, True],
        "--module takes the one of this number",
    )
    group.expect("replay.wasm" not in os.listdir(folder), "--no-make makes no replay")
    host = os.path.join(ROOT, "examples", "callback.mjs")
    _, folder, report = captured(group, "host", ["--host", host, os.path.join(ROOT, "examples", "callback.wasm")])
    if report is not None:
        checks_of_folder(group, "a host file", folder, report, "returned")
        group.expect("decls.json" in os.listdir(folder), "a host file has functions of its own in the table")


def begun(group, name):
    """Begins a capture of a program that does not end, in a group of processes, and waits until it records."""
    command = [CAPTURE, "-o", name, "calls.mjs", "1e15"]
    child = subprocess.Popen(
        command,
        cwd=group.room,
        env={**os.environ, "R3_PROGRAM": group.program},
        stdin=subprocess.DEVNULL,
        stdout=subprocess.PIPE,
        stderr=subprocess.PIPE,
        start_new_session=True,
    )
    record = group.path(f"{name}.log/run-1/instance-0/record")
    end = time.monotonic() + LIMIT
    while time.monotonic() < end and not (os.path.exists(record) and os.path.getsize(record) > 100000):
        time.sleep(0.05)
    return child


def runs_that_do_not_end(group):
    child = begun(group, "killed")
    os.killpg(child.pid, signal.SIGKILL)
    child.communicate()
    group.expect(
        not os.path.exists(group.path("killed")) and os.path.exists(group.path("killed.log")),
        "a command that is killed leaves its log alone",
    )
    answer = run(group, [CAPTURE, "--from-log", "killed.log", "--until", "1000"])
    group.expect(
        answer.status == 0 and not os.path.exists(group.path("killed.log")), "a capture is made of the log", answer
    )
    report = json.loads(contents(group.path("killed/report.json")))
    group.expect(900 < report["crossings"]["count"] <= 1000, "it has the first crossings")
    checks_of_folder(group, "killed", group.path("killed"), report, "cut")
    child = begun(group, "interrupted")
    os.killpg(child.pid, signal.SIGINT)
    _, errors = child.communicate()
    group.expect(child.returncode == 0, f"Ctrl-C gives a capture at once: {errors[-300:]!r}")
    report = json.loads(contents(group.path("interrupted/report.json")))
    group.expect(
        report["program"]["signal"] == "SIGINT" and report["crossings"]["count"] > 1000,
        "it has what was recorded until then",
    )


def checks(group):
    node = shutil.which("node")
    if not node or major_version(node) < OLDEST:
        group.notes.append(f"Node.js {OLDEST} is not here: tools/capture -o is not checked")
        return
    group.put("calls.mjs", (CALLS % json.dumps(TWO_ANSWERS)).encode())
    group.put("instances.mjs", (INSTANCES % json.dumps(TWO_ANSWERS)).encode())
    group.put("page.mjs", b"")
    group.put("no.wasm", b"text")
    words_that_are_none(group)
    folders(group)
    what_is_missing(group)
    choices(group)
    runs_that_do_not_end(group)
