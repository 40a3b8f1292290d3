"""Random modules that tools/use/capture_parts splits: the split module does what the module does, and r3 does what was
seen. The tests are in JavaScript, and need Node.js 20 or later."""
import os
import re
import shutil
import subprocess

from node_tests import major_version
from group import LIMIT

SCRIPT = os.path.join(os.path.dirname(os.path.realpath(__file__)), "splits.mjs")
OLDEST = 20
MODULES = 300
# Each module takes three calls of the program.
CALLS = 20


def checks(group):
    node = shutil.which("node") or shutil.which("nodejs")
    if not node or major_version(node) < OLDEST:
        group.notes.append(f"Node.js {OLDEST} is not here: random splits are not checked")
        return
    ran = subprocess.run(
        [node, "--no-warnings", SCRIPT, group.program, "1", str(MODULES), group.room],
        stdin=subprocess.DEVNULL,
        stdout=subprocess.PIPE,
        stderr=subprocess.STDOUT,
        timeout=CALLS * LIMIT,
        check=False,
    )
    lines = ran.stdout.decode(errors="backslashreplace").splitlines()
    total = re.fullmatch(r"(\d+) passed, (\d+) failed", lines[-1] if lines else "")
    if not total:
        group.faults.append(f"the random splits ended with status {ran.returncode}: {lines[-1:]}")
        return
    group.passed += int(total.group(1))
    group.faults += [line.strip() for line in lines[:-1] if line.startswith("  ")]
    group.expect(ran.returncode == 0 and int(total.group(1)) == MODULES, f"all {MODULES} random splits pass")
