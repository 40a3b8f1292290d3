"""What contracts and definitions name: each definition as the place of its file, a crate and a file, and its name."""
import functools
import re

import tree

GHOST = re.compile(r"^\s*(?:pub )?ghost use Rattle\.(\w+)\.specs\.([\w.]+?)(?:\.\{([^}]*)\}| as (\w+));", re.M)
USE = re.compile(r"^\s*(?:pub )?use Rattle\.(\w+)\.specs\.([\w.]+?)(?:\.\{([^}]*)\}| as (\w+))$", re.M)
PUBLIC = re.compile(r"(?=^\s*pub (?:const )?fn )", re.M)
HEAD = re.compile(r"\s*pub (?:const )?fn (\w+)")
# The line that begins a function's body, and a line that begins something of a file of definitions.
BODY = re.compile(r"^\s*\{\}?\s*$", re.M)
TOPMOST = re.compile(r"(?=^(?:abbrev|unfoldable|pub|record|data|ruleset|use|mod) )", re.M)
WORD = re.compile(r"[^\s(){}\[\],;:]+")


def imported(text, pattern):
    """The definitions that a text imports, by the names that it gives them, and the files that it names as a whole."""
    names, files = {}, {}
    for crate, file, listed, alias in pattern.findall(text):
        place = (crate, file.replace(".", "/"))
        if alias:
            files[alias] = place
        for item in listed.split(",") if listed else []:
            name, _, other = item.strip().partition(" as ")
            names[other or name] = (place, name)
    return names, files


def words_of(text, names, files):
    """The definitions that the words of a text name: by a name, by a file and a name, or as the head of a field."""
    for word in WORD.findall(re.sub(r"--.*|//.*", "", text)):
        head, _, rest = word.partition(".")
        if word in names or head in names:
            yield names[word] if word in names else names[head]
        elif head in files and rest:
            yield files[head], rest.partition(".")[0]


@functools.cache
def file_of(place):
    """The definitions of a file of definitions, each with its text, and the names that the file imports."""
    text = tree.read(f"crates/{place[0]}/specs/{place[1]}.antt")
    blocks = {}
    for block in TOPMOST.split(text):
        found = tree.DEFINITION.match(block)
        if found:
            blocks[found.group(1)] = block
    return blocks, *imported(text, USE)


@functools.cache
def places():
    """The files of definitions of all crates."""
    return {(crate, file) for crate, _ in tree.crates() for file in tree.spec_files(crate)}


def there(found):
    """Those of the definitions that are in a file of definitions; types of the code are not."""
    return [(place, name) for place, name in found if place in places() and name in file_of(place)[0]]


def named_in(definition):
    """The definitions that a definition names."""
    place, name = definition
    blocks, names, files = file_of(place)
    return there(words_of(blocks[name], {**names, **{own: (place, own) for own in blocks}}, files))


def public_contracts(source, by_file=True):
    """The public functions of a file of code, each with the definitions that its contract names: those that the file
    imports, and with `by_file` also those that are named by their file."""
    names, files = imported(source, GHOST)
    for text in PUBLIC.split(source)[1:]:
        yield HEAD.match(text).group(1), there(words_of(BODY.split(text)[0], names, files if by_file else {}))
