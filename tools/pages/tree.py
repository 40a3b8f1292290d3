"""What the scripts of this folder know of the repository: its crates and their files."""
import os
import re
import sys

ROOT = os.path.dirname(os.path.dirname(os.path.dirname(os.path.abspath(__file__))))
HEADING = "# ---- "

# The line that begins a public definition, and its name.
DEFINITION = re.compile(r"(?:abbrev pub|unfoldable pub|pub record|pub data|pub ruleset) ([^ :]+)")
# The crates of tests, of their inputs and of measurements.
TESTS = re.compile(r"(?:tests|sample|bench)_\w+")


def read(path):
    """The text of a file of the repository."""
    with open(os.path.join(ROOT, path), encoding="utf-8") as file:
        return file.read()


def families():
    """The families of crates.txt in order, each as its heading and its crates, each of these with its comment."""
    found, comment = [], []
    for line in read("crates.txt").splitlines():
        if line.startswith(HEADING):
            found.append((line[len(HEADING) :].strip(), []))
        elif line.startswith("#"):
            comment.append(line.lstrip("# ").rstrip())
            continue
        elif ":" in line:
            if not found:
                found.append(("", []))
            found[-1][1].append((line.split(":")[0].split()[0], " ".join(comment)))
        comment = []
    return found


def crates():
    """Each crate in the order of crates.txt, with its comment there."""
    return [crate for _, listed in families() for crate in listed]


def libraries():
    """The libraries that each crate's line lists, in the order of crates.txt; those of the kit are among them."""
    lines = [line.partition("#")[0] for line in read("crates.txt").splitlines()]
    return {line.split(":")[0].split()[0]: line.split(":")[1].split() for line in lines if ":" in line}


def static_libraries():
    """The crates whose line marks them as `staticlib`."""
    return re.findall(r"^(\w+) staticlib:", read("crates.txt"), re.M)


def spec_files(crate):
    """The files of a crate's definitions, as `File` or `Folder/File`, in the order in which they build on each other."""

    def below(lib, folder):
        files = []
        for name in re.findall(r"^(?:pub )?mod (\S+)$", read(lib), re.M):
            file = f"crates/{crate}/specs/{folder}{name}.antt"
            if not os.path.isfile(os.path.join(ROOT, file)):
                sys.exit(f"{lib} lists {name}, and {file} is not there")
            files.append(folder + name)
            files += below(file, f"{folder}{name}/")
        return files

    lib = f"crates/{crate}/specs/Lib.antt"
    return below(lib, "") if os.path.isfile(os.path.join(ROOT, lib)) else []


def sources(crate, folder, ending):
    """The files below a folder of a crate with this ending, as paths from the repository's top, in order."""
    found = []
    for place, folders, files in os.walk(os.path.join(ROOT, "crates", crate, folder)):
        folders[:] = sorted(name for name in folders if name != "out")
        found += [os.path.relpath(os.path.join(place, name), ROOT) for name in sorted(files) if name.endswith(ending)]
    return found
