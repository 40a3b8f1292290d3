"""Writes examples/bytes.sha256: the digest of each module, log and tape, and of each log and tape as text, that a
program r3 prints for the examples. It writes nothing if one of their checks fails: python3 write_digests.py PROGRAM."""
import os
import sys
import tempfile

sys.dont_write_bytecode = True
import examples
from group import Group


def main(program):
    with tempfile.TemporaryDirectory() as room:
        group = Group("examples", program, room)
        printed = examples.printed_by(group)
    if group.faults:
        sys.exit("\n".join(group.faults))
    with open(examples.DIGESTS, "w", encoding="utf-8") as file:
        file.writelines(f"{examples.digest(data)}  {name}\n" for name, data in sorted(printed.items()))


main(os.path.realpath(sys.argv[1]))
