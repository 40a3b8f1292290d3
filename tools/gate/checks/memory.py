"""Errors of memory, which valgrind finds if it is installed, in one run of each command over a small example."""
import shutil

from files import calls

FOUND = 99


def checks(group):
    valgrind = shutil.which("valgrind")
    if not valgrind:
        group.notes.append("valgrind is not here: no run is watched for errors of memory")
        return
    if group.is_sanitized():
        group.notes.append("the program is built with AddressSanitizer, which does not run under valgrind")
        return
    if group.call("--quiet", shutil.which("true"), program=valgrind).status != 0:
        group.notes.append("valgrind runs no program here: no run is watched for errors of memory")
        return
    options = ["--quiet", f"--error-exitcode={FOUND}", group.program]
    refused = [["make", "m.wasm", "m.wasm", "9"], ["instrument", "log"], ["show", "m.wasm"]]
    for words, status in [*((words, 0) for words in calls(group)), *zip(refused, (9, 5, 15))]:
        answer = group.call(*options, *words, program=valgrind)
        lines = answer.err.splitlines()
        is_well = answer.status == status and len(lines) <= 1 and not any(line.startswith(b"==") for line in lines)
        group.expect(is_well, f"valgrind finds no error in r3 {' '.join(words)}", answer)
