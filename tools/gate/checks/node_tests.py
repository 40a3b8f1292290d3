"""Tests in JavaScript, which a group of checks runs in Node.js."""
import os
import re
import shutil
import subprocess

from group import LIMIT

HERE = os.path.dirname(os.path.realpath(__file__))
# The tests of a script make some hundred calls, one after another.
CALLS = 6


def major_version(node):
    found = re.match(rb"v(\d+)\.", subprocess.run([node, "--version"], stdout=subprocess.PIPE, check=False).stdout)
    return int(found.group(1)) if found else 0


def run(group, script, oldest, tool):
    """Runs a script of tests, which prints faults, notes and a total, or notes that Node.js is missing or too old."""
    node = shutil.which("node") or shutil.which("nodejs")
    if not node or major_version(node) < oldest:
        group.notes.append(f"Node.js {oldest} is not here: {tool} is not checked")
        return
    ran = subprocess.run(
        [node, os.path.join(HERE, script), group.program],
        cwd=group.room,
        stdin=subprocess.DEVNULL,
        stdout=subprocess.PIPE,
        stderr=subprocess.STDOUT,
        timeout=CALLS * LIMIT,
        check=False,
    )
    lines = ran.stdout.decode(errors="backslashreplace").splitlines()
    total = re.fullmatch(r"(\d+) passed, (\d+) failed", lines[-1] if lines else "")
    if not total:
        group.faults.append(f"the tests ended with status {ran.returncode}: {lines[-1:]}")
        return
    group.passed += int(total.group(1))
    group.notes += [line[len("note: ") :] for line in lines if line.startswith("note: ")]
    group.faults += [line.strip() for line in lines[:-1] if line.startswith("  ")]
    is_well = ran.returncode == 0 and int(total.group(1)) > 0
    group.expect(is_well, f"the tests end with status 0, and not {ran.returncode}")
