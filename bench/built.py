"""Which program r3 is measured."""
import os
import subprocess
import sys

TOP = os.path.realpath(os.path.join(os.path.dirname(os.path.abspath(__file__)), os.pardir))
FIND = '. "$top/tools/use/find_program.sh" && { read_stamp || find_program; } && printf %s "$program"'


def program_of_sources():
    """The program that ./r3 runs. The script ./r3 itself takes time and machine instructions of its own."""
    found = subprocess.run(["bash", "-c", FIND], env={**os.environ, "top": TOP}, stdout=subprocess.PIPE, text=True)
    if found.returncode != 0 or not found.stdout:
        sys.exit("no program here was built from the sources in place: ./r3 --build builds one")
    return os.path.join(TOP, found.stdout)
