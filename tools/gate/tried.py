"""What the wrong bodies of each crate were last tried on: wrong_bodies/TRIED has a line for each crate that has a folder
there and whose wrong bodies were all refused, with the crate's name and a digest. tools/gate/try_wrong_bodies writes it,
and tools/gate/check_wrong_bodies counts the crates whose digest is another one today.

    tried.py --digest CRATE           prints the digest
    tried.py --refused CRATE DIGEST   writes that all were refused
    tried.py --taken CRATE            writes that one or more were not refused, by leaving the crate's line out

The digest (SHA-256) is that of the crate's folder, but for what a build puts there; of its wrong bodies; of its line in
crates.txt; and of what the crates of that line promise: their definitions, and their code without comments and without
the bodies of functions.
"""
import fcntl
import functools
import hashlib
import os
import re
import sys

sys.dont_write_bytecode = True
sys.path.append(os.path.join(os.path.dirname(os.path.realpath(__file__)), "..", "pages"))
import tree

FILE = os.path.join(tree.ROOT, "wrong_bodies", "TRIED")
FUNCTION = re.compile(r"( *)(?:pub(?:\(\w+\))? )?(?:const )?(?:unsafe )?fn ")
COMMENT = re.compile(r"\s*(?://|--)")


def without_comments(text):
    return [line for line in text.splitlines() if not COMMENT.match(line)]


def contract_lines(source):
    """The lines of a file of code without comments and bodies of functions. A body begins at the end of a line of the
    function's head, or on a line of its own, and ends with a brace as far to the right as the head."""
    found, indent, is_body = [], None, False
    for line in without_comments(source):
        head = FUNCTION.match(line)
        if indent is None and head:
            indent = head.group(1)
        if indent is None or not is_body:
            found.append(line)
        if indent is None:
            continue
        if is_body:
            is_body = line != indent + "}"
        elif line.endswith("{") and (line == indent + "{" or head or line.startswith(indent + ")")):
            is_body = True
            continue
        elif not line.endswith(("{}", ";")):
            continue
        if not is_body:
            indent = None
    return found


def files_of(folder):
    """The paths of the files of a folder, but for what a build puts there."""
    found = []
    for place, folders, names in os.walk(os.path.join(tree.ROOT, folder)):
        folders[:] = sorted(name for name in folders if name != "out")
        found += [os.path.relpath(os.path.join(place, name), tree.ROOT) for name in sorted(names)]
    return found


class Digest:
    """A digest of named parts."""

    def __init__(self):
        self.sums = hashlib.sha256()

    def add(self, name, data):
        self.sums.update(f"{name} {len(data)}\n".encode() + data)

    def text(self):
        return self.sums.hexdigest()


@functools.cache
def promise(crate):
    """The digest of what a crate promises to others."""
    found = Digest()
    for path in tree.sources(crate, "specs", ".antt"):
        found.add(path, "\n".join(without_comments(tree.read(path))).encode())
    for path in tree.sources(crate, "src", ".rt"):
        found.add(path, "\n".join(contract_lines(tree.read(path))).encode())
    return found.text()


def digest(crate):
    """The digest of what the wrong bodies of a crate are tried on."""
    libraries, found = tree.libraries(), Digest()
    found.add("line", " ".join(libraries[crate]).encode())
    for path in files_of(f"crates/{crate}") + files_of(f"wrong_bodies/{crate}"):
        with open(os.path.join(tree.ROOT, path), "rb") as file:
            found.add(path, file.read())
    for other in libraries[crate]:
        if other in libraries:
            found.add(other, promise(other).encode())
    return found.text()


def rows(text):
    return dict(line.split() for line in text.splitlines())


def stale(crates):
    """Those of the crates whose wrong bodies were not tried on what is here."""
    tried = {}
    if os.path.isfile(FILE):
        with open(FILE, encoding="ascii") as file:
            tried = rows(file.read())
    return [crate for crate in crates if tried.get(crate) != digest(crate)]


def write(crate, found):
    """Writes the line of a crate, or leaves it out."""
    with open(FILE, "a+", encoding="ascii") as file:
        fcntl.flock(file, fcntl.LOCK_EX)
        file.seek(0)
        tried = rows(file.read())
        tried.pop(crate, None)
        if found and os.path.isdir(os.path.join(tree.ROOT, "wrong_bodies", crate)):
            tried[crate] = found
        file.truncate(0)
        file.write("".join(f"{name} {tried[name]}\n" for name in sorted(tried)))


def main(words):
    match words:
        case ["--digest", crate]:
            print(digest(crate))
        case ["--refused", crate, found]:
            write(crate, found)
        case ["--taken", crate]:
            write(crate, None)
        case _:
            sys.exit(__doc__)


if __name__ == "__main__":
    main(sys.argv[1:])
