"""What the own runs of replay modules show of the originals: the lines of a run of `_start`, in which `history` shows
every function, are read as lines of the original, by the layout alone and apart from the command `replay`."""
from modules import FUNC, name, section_ends, u32
from replay_bytes import COLLATZ, COLLATZ_NUMBERS, LOOP, made, put_own_run, script_of_answers
from replay_rows import BY_HAND, RUNS
from replay_texts import LAYOUT, REFUSED, SHOWN
from run_tables import FILES, MAX

# More turns than any replay module's own run takes.
OWN_TURNS = "100000"

# What a function is: the body in the place of an import, an original, or another one. The host is outside too.
IMPORT, ORIGINAL, OUTSIDE = "import", "original", "outside"

# The words for a call, by what the caller and the function are. No other call is shown.
CALLS = {
    (ORIGINAL, ORIGINAL): "enter",
    (ORIGINAL, IMPORT): "import-call",
    (IMPORT, ORIGINAL): "host-call",
    (OUTSIDE, ORIGINAL): "host-call",
}

# The words for a return to the caller.
RETURNS = {
    (ORIGINAL, ORIGINAL): "exit",
    (ORIGINAL, IMPORT): "import-return",
    (IMPORT, ORIGINAL): "host-return",
    (OUTSIDE, ORIGINAL): "host-return",
}

# Modules that `history` does not take, since references are not of Core 1.0.
NOT_RUN = ["references"]


def u32_at(data, place):
    """The number in LEB128 at a place, and the place behind it."""
    number = shift = 0
    while data[place] >= 0x80:
        number |= (data[place] & 0x7F) << shift
        shift += 7
        place += 1
    return number | data[place] << shift, place + 1


def sections(binary):
    """The number and the bytes of each section of a module."""
    ends, numbers = section_ends(binary)
    for number, start, end in zip(numbers[1:], ends, ends[1:]):
        yield number, binary[u32_at(binary, start + 1)[1] : end]


def layout_of(binary):
    """The numbers of functions that the original imports and defines: they are all of a custom section."""
    front = name(LAYOUT)
    data = next(data for number, data in sections(binary) if number == 0 and data.startswith(front))
    imports, place = u32_at(data, len(front))
    defined, end = u32_at(data, place)
    if end != len(data):
        raise ValueError("the layout goes on")
    return imports, defined


def is_plain(binary):
    """Whether `_start`, a function, is the only export, and there are neither imports nor a start function."""
    found = dict(sections(binary))
    front = b"\1" + name("_start") + bytes([FUNC])
    exports = found.get(7, b"")
    is_only = exports.startswith(front) and exports == front + u32(u32_at(exports, len(front))[0])
    return is_only and not found.keys() & {2, 8}


class Walk:
    """A walk over the lines of a replay module's own run, which keeps what they show of the original."""

    def __init__(self, imports, defined):
        self.imports = imports
        self.defined = defined
        # The functions that control is in, the innermost last.
        self.inside = []
        # The arguments of the latest call.
        self.args = []
        # Which function trapped, if one did.
        self.trapped = None
        self.lines = []

    def side(self, func):
        """What a function is."""
        if func < self.imports:
            return IMPORT
        return ORIGINAL if func < self.imports + self.defined else OUTSIDE

    def cross(self, words, func, values):
        """Keeps the line of a call or a return between the innermost function and another one, if it has a word."""
        innermost = self.side(self.inside[-1]) if self.inside else OUTSIDE
        word = words.get((innermost, self.side(func)))
        if word:
            self.lines.append(" ".join([word, str(func), *(values if word != "enter" else [])]))

    def keep_args(self, values):
        """Keeps the arguments among the operands of a step: all but the index of a `call_indirect`, which alone has
        found a function."""
        operands = values[: values.index("->")]
        self.args = operands[:-1] if "found" in values else operands

    def trap(self, func, line):
        """Keeps a trap; a trap outside the original is the host's."""
        self.trapped = func
        self.lines.append(line if self.side(func) == ORIGINAL else "host-trap")

    def entry(self, line):
        """Follows an entry. A replay module has no imports, so there are none of an import."""
        word, func, *values = line.split(" ")
        func = int(func)
        if word in ("host-call", "enter"):
            self.args = values if word == "host-call" else self.args
            self.cross(CALLS, func, self.args)
            self.inside.append(func)
        elif word in ("host-return", "exit"):
            self.inside.pop()
            self.cross(RETURNS, func, values)
        elif word == "step":
            self.lines += [line] if self.side(func) == ORIGINAL else []
            self.keep_args(values[1:])
        elif word == "trap":
            self.trap(func, line)
        else:
            raise ValueError(f"an entry of another kind: {line}")

    def end(self, outcome):
        """Keeps the outcome. The function that trapped says whether the host did."""
        if outcome == "trapped" and self.side(self.trapped) != ORIGINAL:
            outcome = "host-trapped"
        self.lines.append(outcome)


def projected(text, layout):
    """The lines that a replay module's own run shows of the original, by the lines that `history` prints of it."""
    *entries, outcome = text.decode().splitlines()
    walk = Walk(*layout)
    for line in entries:
        walk.entry(line)
    walk.end(outcome)
    return "".join(line + "\n" for line in walk.lines).encode()


def text_of(lines):
    """The bytes of lines with `;` between them."""
    return "".join(line.strip() + "\n" for line in lines.split(";")).encode()


def shown_by(group, what, binary):
    """What the own run of a replay module shows."""
    put_own_run(group, binary)
    text = group.done("history", *FILES, OWN_TURNS, what=f"{what}: the own run ends")
    return projected(text, layout_of(binary))


def check_shown(group, what, binary, text, turns=MAX):
    """The own run of a module shows these lines, and `replay` prints them."""
    group.put("r.wasm", binary)
    printed = group.done("replay", "r.wasm", turns, what=f"{what}: `replay` ends")
    group.expect(printed == text, f"{what}: `replay` prints the lines")
    if what not in NOT_RUN:
        group.expect(shown_by(group, what, binary) == text, f"{what}: its own run shows the lines")


def check_plain(group, what, binary, text):
    """The same for a module without a start function, whose only export is `_start`."""
    group.expect(is_plain(binary), f"{what}: the module has `_start` alone")
    check_shown(group, what, binary, text)


def check_made(group, what, module, script, turns):
    """The replay module of a run shows the run's own lines, and is made anew with the same bytes. Returns the lines."""
    replay = made(group, what, module, script, turns)
    text = group.done("history", *FILES, turns, what=f"{what}: it has a history")
    again = group.done("make", *FILES, turns, what=f"{what}: it is made again")
    group.expect(again == replay, f"{what}: it is made anew with the same bytes")
    check_plain(group, what, replay, text)
    return text


def check_runs(group):
    """Replay modules of runs whose lines were worked out by hand."""
    for what, module, script, turns, lines in RUNS:
        text = check_made(group, what, module, script, turns)
        group.expect(text == text_of(lines), f"{what}: the history has its lines")


def check_by_hand(group):
    """A right replay module and wrong ones show what they do."""
    for what, binary, lines in BY_HAND:
        check_plain(group, what, binary, text_of(lines))


def check_texts(group):
    """What `replay` prints for modules with a layout behind them, or why it prints nothing."""
    for what, module, layout, turns, lines in SHOWN:
        check_shown(group, what, module + layout, text_of(lines), turns)
    for what, module, layout, turns, status, line in REFUSED:
        group.put("r.wasm", module + layout)
        group.refused(["replay", "r.wasm", turns], status, line, what)


def check_long_runs(group):
    """A loop that calls its import 200 times, and a program compiled from C. The loop has twelve instructions, a call
    and a return for each of the 200, the host's call and its return, the last `local.get`, and the outcome."""
    text = check_made(group, "a loop", LOOP, script_of_answers([], 200), "2402")
    group.expect(text.count(b"\n") == 2804, "a loop: there are 2,804 lines")
    # 0 + 1 + .. + 199
    group.expect(text.endswith(b"host-return 1 i32:00004dbc\nended\n"), "a loop: it returns the sum")
    text = check_made(group, "a program", COLLATZ, COLLATZ_NUMBERS, "639")
    group.expect(text.count(b"\n") == 649, "a program: there are 649 lines")


def checks(group):
    check_runs(group)
    check_by_hand(group)
    check_texts(group)
    check_long_runs(group)
