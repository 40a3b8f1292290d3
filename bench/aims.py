"""The numbers that the aims of docs/MEASUREMENTS.md ask for, for `bench/measure --aims`.

Machine instructions are counted by valgrind's callgrind as the difference of two runs of other lengths, so that what a
run does once does not count. A row whose program is not built has no number, and none has one without valgrind.
"""
import collections
import json
import os
import random
import re
import shutil
import subprocess
import tempfile

HERE = os.path.dirname(os.path.abspath(__file__))
SPEED = os.path.join(HERE, os.pardir, "crates", "bench_speed")
MOST_TURNS = "1000000000"
# Turns after which the two runs of a program are spent.
FEW, MANY = 100000, 300000
BLOCKS, BLOCK = 43, 1024
# The machine's loop, and what makes room for a call that leaves it, as the program's names for its functions have them.
LOOP, LEFT_BY_CALL = "wasm_interp::form_advances::advance_by_forms", "wasm_interp::stretch_ends::push_import"
NAME = re.compile(r"fn=(\(\d+\))(?: (.*))?")
COST = re.compile(r"(?:0x[0-9a-f]+|\+\d+|-\d+|\*|\d+) \S+ (\d+)|(?:\+\d+|-\d+|\*|\d+) (\d+)")


class Profile:
    """Machine instructions of a run: all of them, and by function; and how often each function is called."""

    def __init__(self, lines):
        self.own, self.calls, self.names = collections.Counter(), collections.Counter(), {}
        function = callee = ""
        is_call = False
        for line in lines:
            found = NAME.fullmatch(line.removeprefix("c").rstrip("\n"))
            if found:
                number, name = found.groups()
                if name:
                    self.names[number] = name
                if line.startswith("c"):
                    callee = self.names[number]
                else:
                    function = self.names[number]
            elif line.startswith("calls="):
                self.calls[callee] += int(line.removeprefix("calls=").split()[0])
                is_call = True
            elif function and (found := COST.fullmatch(line.rstrip("\n"))):
                # The line behind a call has what the callee cost, which is counted as its own.
                if not is_call:
                    self.own[function] += int(found.group(1) or found.group(2))
                is_call = False
        self.all = sum(self.own.values())

    def of(self, counts, name):
        """The sum of counts over the functions whose names begin with this one."""
        return sum(count for function, count in counts.items() if function.startswith(name))


def profile(words, check=False):
    """The machine instructions of a command; with `check` its status must be 0."""
    with tempfile.NamedTemporaryFile("r", encoding="utf-8") as file:
        valgrind = ["valgrind", "--tool=callgrind", f"--callgrind-out-file={file.name}"]
        subprocess.run([*valgrind, *words], stdout=subprocess.DEVNULL, stderr=subprocess.DEVNULL, check=check)
        return Profile(file)


def put(folder, name, content):
    file = os.path.join(folder, name)
    with open(file, "wb") as target:
        target.write(content if isinstance(content, bytes) else content.encode())
    return file


def blocks_script():
    """The script of blocks.c: the host writes blocks of bytes that are close to 100."""
    pick = random.Random(7)
    blocks = [bytes(min(255, max(0, int(pick.gauss(100, 30)))) for _ in range(BLOCK)).hex() for _ in range(BLOCKS)]
    answers = [{"do": [{"write": {"arg": 0}, "bytes": block}]} for block in blocks]
    main = [{"call": "run", "args": [{"i32": BLOCKS}]}]
    return json.dumps({"imports": {"host": {"block": {"calls": answers}}}, "main": main})


def of_speed(module, name, few, many):
    """The difference for a function of a module that the machine runs alone, by machine instructions a turn."""
    program = os.path.join(SPEED, "out", "bench_speed")
    if not os.path.exists(program):
        return None
    counted = []
    for number in (few, many):
        words = [program, module, name, str(number), MOST_TURNS]
        printed = subprocess.run(words, stdout=subprocess.PIPE, check=True).stdout
        counted.append((profile(words).all, int(re.search(rb"(\d+) turns", printed).group(1))))
    (first, fewer), (second, more) = counted
    return (second - first) / (more - fewer)


class Spent:
    """Two runs of a command that are spent after FEW and MANY turns."""

    def __init__(self, r3, *words):
        self.few, self.many = (profile([r3, *words, str(turns)]) for turns in (FEW, MANY))

    def a_turn(self):
        return (self.many.all - self.few.all) / (MANY - FEW)

    def a_hook_call(self):
        """What a call of a hook costs outside of the machine's loop."""
        outside = [run.all - run.of(run.own, LOOP) for run in (self.few, self.many)]
        calls = [run.of(run.calls, LEFT_BY_CALL) for run in (self.few, self.many)]
        return (outside[1] - outside[0]) / (calls[1] - calls[0]) if calls[1] > calls[0] else None


def program(name):
    """The module and the script of a program of this folder."""
    return [os.path.join(HERE, name + ending) for ending in (".wasm", ".json")]


def rows(r3, folder):
    """The rows, one after the other: what is measured, and its number if there is one."""
    for what, name, few, many in (("a loop", "count", 20000, 120000), ("recursive calls", "fibonacci", 18, 22)):
        module = os.path.join(SPEED, "data", name + ".wasm")
        yield f"the machine, a turn of {what}", of_speed(module, name, few, many)
    alone = os.path.join(HERE, "blocks_alone.wasm")
    yield "the machine, a turn of `blocks` without its host", of_speed(alone, "run", 10, 40)
    blocks = [os.path.join(HERE, "blocks.wasm"), put(folder, "blocks.json", blocks_script())]
    yield "`make`, a turn of `blocks`", Spent(r3, "make", *blocks).a_turn()
    made = Spent(r3, "make", *program("hash"))
    yield "`make`, a turn of `hash`", made.a_turn()
    yield "`make` on `hash`, a call of a hook, outside of the machine's loop", made.a_hook_call()
    for name in ("hash", "tokens"):
        yield f"`history`, a turn of `{name}`", Spent(r3, "history", *program(name)).a_turn()
    for name in ("hash", "tokens"):
        replay = os.path.join(HERE, name + ".replay.wasm")
        yield f"`replay`, a turn of the replay module of `{name}`", Spent(r3, "replay", replay).a_turn()


def print_rows(r3):
    if not shutil.which("valgrind"):
        print("Machine instructions are not counted, since valgrind is not here.\n")
        return
    print("| machine instructions | measured |\n|---|---:|")
    with tempfile.TemporaryDirectory() as folder:
        for what, number in rows(r3, folder):
            print(f"| {what} | {'not measured' if number is None else f'{number:.1f}'} |", flush=True)
    print()
