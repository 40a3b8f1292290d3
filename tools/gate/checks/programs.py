"""Whole programs as they are: each of examples/programs is captured by tools/capture -o with default options, in Node.js or in
a browser. What a program prints is what it prints without a capture, or what is computed here; r3's history of the module and
the script has the calls that the report counts; and the replay runs in r3 and in Node.js to its end.
"""
import collections
import gzip
import json
import os
import re
import shutil
import subprocess
import zlib

from node_tests import major_version
from group import LIMIT, ROOT, Answer, contents
from pictures import pixels

PROGRAMS = os.path.join(ROOT, "examples", "programs")
PLAIN_WASI = os.path.join(ROOT, "tools", "use", "program_capture", "wasi_program.mjs")
CAPTURE = os.path.join(ROOT, "tools", "capture")
OLDEST = 20
BROWSERS = ["chromium", "chromium-browser", "google-chrome"]
# An emcc of 2022 makes programs that take the fetch of Node.js for that of a page.
WITHOUT_FETCH = "--no-experimental-fetch"

RUN_REPLAY = """
const module = new WebAssembly.Module(require('fs').readFileSync(process.argv[1]));
if (WebAssembly.Module.imports(module).length > 0) throw new Error('it has imports');
const { _start } = new WebAssembly.Instance(module).exports;
try { _start(); console.log('returned'); } catch (error) { if (!(error instanceof WebAssembly.RuntimeError)) throw error; console.log('trapped'); }
"""

# A program: its words for tools/capture, its status, and how its run for r3 ends.
Program = collections.namedtuple("Program", "name words status end")

IN_NODE = [
    Program("C by clang: printf of floats, qsort", ["sort.wasm"], 0, "returned"),
    Program("C by clang: a file, words", ["sort.wasm", "numbers.txt"], 0, "returned"),
    Program("Rust: a HashMap, println of floats", ["words.wasm"], 0, "returned"),
    Program("C++ by emscripten: streams, exceptions, virtual calls", ["expressions.js"], 0, "returned"),
    Program("C by emscripten: addFunction, longjmp, growth, exit", ["callbacks.js"], 3, "host trap"),
    Program("vectors, several results, tail calls, references", ["features.mjs"], 0, "returned"),
    Program("a worker of Node.js", ["checksum.mjs"], 0, "returned"),
]
TEXTS = ["a", "text that is a little longer", "x" * 10000]


def environment(group):
    return {**os.environ, "R3_PROGRAM": group.program, "NODE_OPTIONS": WITHOUT_FETCH}


def run(group, command, **how):
    settings = {"cwd": group.room, "stdin": subprocess.DEVNULL, "env": environment(group), **how}
    ran = subprocess.run(
        command, stdout=subprocess.PIPE, stderr=subprocess.PIPE, timeout=6 * LIMIT, check=False, **settings
    )
    return Answer(ran.returncode, ran.stdout, ran.stderr)


def captured(group, name, words, **how):
    """Captures a program. Returns what it printed, its folder and its report, which is None if there is none."""
    folder = group.path(re.sub(r"\W+", "_", name))
    answer = run(group, [CAPTURE, "-o", folder, *words], **how)
    group.expect(answer.status == 0, f"{name}: the capture ends with status 0", answer)
    report = os.path.join(folder, "report.json")
    return answer, folder, json.loads(contents(report)) if os.path.exists(report) else None


def inputs(folder):
    names = ["module.wasm", "decls.json", "script.json"]
    return [os.path.join(folder, name) for name in names if os.path.exists(os.path.join(folder, name))]


def checks_of_folder(group, name, folder, report, end):
    """Checks a captured folder by r3 and by Node.js. A record that was cut ends in either way."""
    declared = os.path.exists(os.path.join(folder, "decls.json"))
    history = group.call("foreign-history" if declared else "history", *inputs(folder), "2000000")
    lines = history.out.decode().splitlines()
    counts = collections.Counter(line.split(" ", 1)[0] for line in lines)
    ways = report["crossings"]
    seen = (sum(ways["in"].values()), sum(ways["out"].values()))
    r3_has = (counts["host-call"], counts["import-call"])
    group.expect(
        history.status == 0 and seen == r3_has,
        f"{name}: the history has the calls of the report, {r3_has} and not {seen}",
        history,
    )
    group.expect(seen[0] > 0 and bool(report["functions"]["entered"]), f"{name}: functions of the module ran")
    compared = report["comparison"]
    group.expect(compared is not None and compared["agrees"], f"{name}: the report has a comparison")
    group.expect(report["end"]["kind"] == end, f"{name}: the run ends as `{end}`, and not `{report['end']['kind']}`")
    replay = os.path.join(folder, "replay.wasm")
    shown = group.call("replay", replay, "20000000")
    returns = shown.out.decode().splitlines()[-1:] == ["ended"]
    is_end = end == "cut" or returns == (end == "returned")
    group.expect(shown.status == 0 and is_end, f"{name}: r3 replays it to its end", shown)
    ran = run(group, ["node", "-e", RUN_REPLAY, replay])
    group.expect(
        ran.out.decode().strip() == ("returned" if returns else "trapped"), f"{name}: V8 replays it to its end", ran
    )
    text = contents(os.path.join(folder, "report.txt")).decode()
    group.expect("module 0 taken" in text or " taken: " in text, f"{name}: report.txt says which module is taken")


def plain_command(words):
    """The command that runs a program without a capture."""
    if not words[0].endswith(".wasm"):
        return ["node", *words]
    settings = {"module": words[0], "name": words[0], "words": words[1:], "folders": [[".", "."]], "environment": {}}
    return ["node", "--no-warnings", PLAIN_WASI, json.dumps(settings)]


def put_programs(group):
    """Copies the programs to the group's folder, unpacks the one that is compressed, and writes an input."""
    for name in os.listdir(PROGRAMS):
        if os.path.isfile(os.path.join(PROGRAMS, name)):
            shutil.copy(os.path.join(PROGRAMS, name), group.path(name))
    group.put("words.wasm", gzip.decompress(contents(os.path.join(PROGRAMS, "words.wasm.gz"))))
    group.put("numbers.txt", b"17 4 -2\n99 5\n")


def checks(group):
    """The programs of Node.js."""
    node = shutil.which("node")
    if not node or major_version(node) < OLDEST:
        group.notes.append(f"Node.js {OLDEST} is not here: programs are not captured")
        return
    put_programs(group)
    for program in IN_NODE:
        answer, folder, report = captured(group, program.name, program.words)
        plain = run(group, plain_command(program.words))
        group.expect(
            plain.status == program.status and plain.out != b"", f"{program.name}: it runs without a capture", plain
        )
        group.expect(answer.out == plain.out, f"{program.name}: it prints what it prints without a capture", answer)
        if report is None:
            continue
        group.expect(report["program"]["status"] == program.status, f"{program.name}: the report has its status")
        checks_of_folder(group, program.name, folder, report, program.end)


def next_board(board):
    size = len(board)

    def lives(x, y):
        around = [board[(y + dy) % size][(x + dx) % size] for dy in (-1, 0, 1) for dx in (-1, 0, 1) if dx or dy]
        return sum(around) == 3 or (sum(around) == 2 and board[y][x])

    return [[bool(lives(x, y)) for x in range(size)] for y in range(size)]


def boards(size, count):
    """The boards of life.c, by musl's random numbers."""
    seed, board = 0, []
    for _ in range(size * size):
        seed = (6364136223846793005 * seed + 1) % 2**64
        board.append(bool(seed >> 41 & 1))
    board = [board[row * size : (row + 1) * size] for row in range(size)]
    for _ in range(count):
        board = next_board(board)
        yield board


def life_checks(group):
    """A page with a canvas: it prints how many cells live, and its picture shows them."""
    name, size, frames = "a page that draws on a canvas", 32, 4
    answer, folder, report = captured(group, name, ["life.html"])
    lines = [line for line in answer.err.decode().splitlines() if line.startswith("page: ")]
    alive = [sum(map(sum, board)) for board in boards(size, frames)]
    expected = [
        f"page: frame {place + 1}: {count} alive, {count / size / size:.3f} of all" for place, count in enumerate(alive)
    ]
    group.expect(lines == expected, f"{name}: it prints what life.c says, {expected[-1]} and not {lines[-1:]}")
    if report is None:
        return
    checks_of_folder(group, name, folder, report, "returned")
    *_, board = boards(size, frames)
    rows = pixels(contents(os.path.join(folder, "page.png")), 8 + 8 * size)
    drawn = [[rows[8 + 8 * y + 4][8 + 8 * x + 4][:3] != (255, 255, 255) for x in range(size)] for y in range(size)]
    group.expect(drawn == board, f"{name}: the picture has the cells of the last board")


def worker_checks(group):
    """A page with a worker, which prints checksums and closes itself."""
    name = "a worker of a page"
    answer, folder, report = captured(group, name, ["checksum.html"])
    lines = [line for line in answer.err.decode().splitlines() if line.startswith("page: ")]
    expected = [f"page: checksum {zlib.crc32(text.encode()):x}" for text in TEXTS]
    group.expect(lines == expected, f"{name}: it prints the checksums {expected}, and not {lines}")
    if report is not None:
        group.expect(report["program"]["end"] == "the page closed itself", f"{name}: it closes itself")
        checks_of_folder(group, name, folder, report, "returned")


def pages(group):
    """The programs of pages."""
    node = shutil.which("node")
    if not node or major_version(node) < OLDEST:
        group.notes.append(f"Node.js {OLDEST} is not here: pages are not captured")
        return
    if not any(shutil.which(browser) for browser in BROWSERS):
        group.notes.append(f"no browser is here ({', '.join(BROWSERS)}): pages are not captured")
        return
    put_programs(group)
    life_checks(group)
    worker_checks(group)
