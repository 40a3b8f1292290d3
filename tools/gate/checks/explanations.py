"""What ./r3 explain says of modules that r3 refuses. The folder explained/ has them, and what they were compiled by. The
functions, bytes and instructions that are expected are those that wasm-objdump shows, the causes are the sources'."""
import os
import re
import shutil
import subprocess

from node_tests import major_version
from group import ROOT, contents

EXPLAIN = os.path.join(ROOT, "tools", "use", "explain")
FOLDER = os.path.join(os.path.dirname(os.path.realpath(__file__)), "explained")
PAGE = os.path.join(ROOT, "docs", "STATUSES.md")
OLDEST = 20

# The file, its status and line, and lines that are printed for it.
ROWS = [
    ("vectors.wasm", 5, "malformed: at 202", ["func 1 <twice>, instruction 2", "> 0000d6 2 v128.load", "simd128:"]),
    ("conversion.wasm", 5, "malformed: at 203", ["func 1 <whole>", "i32.trunc_sat_f64_s", "nontrapping-fptoint:"]),
    ("threads.wasm", 5, "malformed: at 202", ["func 1 <next>", "i32.atomic.rmw.add", "atomics:"]),
    ("exceptions.wasm", 5, "malformed: at 174", ["tag, which begins at byte 174 (0xae)", "exception-handling:"]),
    ("catch.wasm", 5, "malformed: at 18", ["func 0 <calm>, instruction 0", "> 000017 0 try", "exception-handling:"]),
    ("tail_call.wasm", 5, "malformed: at 217", ["<jump>", "return_call 0 <other>", "tail-call:"]),
    (
        "table_call.wasm",
        5,
        "malformed: at 244",
        ["func 1 <pick>, instruction 2", "> 000100 2 call_indirect", "overlong"],
    ),
    ("tables.wasm", 5, "malformed: at 27", ["<pick>", "call_indirect 1 (type 0)", "reference-types:"]),
    ("block.wasm", 5, "malformed: at 33", ["func 0 <sum>, instruction 2", "> 00002a 2 block (type 1)", "multivalue:"]),
    ("copies.wasm", 5, "malformed: at 233", ["DataCount, which begins at byte 233 (0xe9)", "bulk-memory:"]),
    ("passive.wasm", 5, "malformed: at 30", ["DataCount", "in 1 function: func 0 <init> has 1"]),
    ("shared.wasm", 5, "malformed: at 8", ["memory, which begins at byte 8 (0x8)", "threads share", "atomics:"]),
    ("externref.wasm", 5, "malformed: at 8", ["table, which begins at byte 8 (0x8)", "externref", "reference-types:"]),
    ("reference.wasm", 5, "malformed: at 8", ["type, which begins at byte 8 (0x8)", "the type externref, at byte 13"]),
    ("element.wasm", 5, "malformed: at 18", ["element, which begins at byte 18 (0x12)", "is passive", "bulk-memory:"]),
    ("cut.wasm", 5, "malformed: at 20", ["1 functions with a type, and 0 bodies"]),
    ("machine.o", 5, "malformed: at 0", ["another machine (ELF)"]),
    ("wrong_body.wasm", 6, "invalid: function 2", ["func 2 <bad>", "0 i64.const 1", "expected i32, got i64"]),
    ("pairs.wasm", 6, "invalid: module", ["results i32 i32", "func 1 <swap>", "multivalue:"]),
    ("memories.wasm", 6, "invalid: module", ["2 memories", "multimemory:"]),
    ("constant.wasm", 6, "invalid: module", ["global 1 is calculated by 3 instructions", "extended-const:"]),
    (
        "half_rust.wasm",
        7,
        "unsupported: function 0 instruction 2 float arithmetic",
        ["func 0 <half>, instruction 2", "> 000072 2 f64.mul", "1 instruction in 1 function"],
    ),
    (
        "less.wasm",
        7,
        "unsupported: function 1 instruction 2 float comparison",
        ["func 1 <less>, instruction 2", "2 f64.lt", "1 instruction in 1 function"],
    ),
    (
        "half_emscripten.wasm",
        7,
        "unsupported: function 1 instruction 2 float conversion",
        ["func 1 <half>, instruction 2", "2 f32.convert_i32_s"],
    ),
    ("many_param.wasm", 8, "limit: parameters 1001", ["type 0 has 1,001 parameters", "func 0 <many>", "at most 1,000"]),
    ("many_local.wasm", 8, "limit: locals 50001", ["func 0 <many> has 50,001 locals", "at most 50,000"]),
    ("large_table.wasm", 8, "limit: table 1000001", ["1,000,001 entries", "at most 1,000,000"]),
    ("large_memory.wasm", 8, "limit: memory 4097", ["import, host.memory", "4,097 pages", "at most 4,096"]),
    ("reserved.wasm", 8, "reserved: import 1", ["import 1 is the function x of the module r3"]),
]

# Lines that r3 prints for a module together with other files, and what is printed of taken.wasm for them.
HANDED_IN = [
    ("link: missing import 1", ["import 1 is the memory m of the module left"]),
    ("link: mismatch import 1", ["import 1 is the memory m of the module left"]),
    ("link: segment 0", ["exceeds its table or memory"]),
    ("declarations: reserved 0", ["import 0 is the function f of the module foreign"]),
    ("pair: unresolved left 1", ["import 1 is the memory m of the module left"]),
    ("pair: mismatch right 0", ["import 0 is the function f of the module foreign"]),
    ("pair: two memories", ["neither module imports the memory"]),
    ("pair: two starts", ["both have a start function"]),
    ("too long: m.wasm 8388608", ["a file is longer than its limit"]),
    ("hooked limit: 134217728", ["the instrumented module has more bytes"]),
    ("script: unknown f", ["the module has no such import or export"]),
]

# Lines that are of no such module.
DISAGREEING = [
    ("less.wasm", "unsupported: function 1 instruction 2 float arithmetic", "is f64.lt, which is a float comparison"),
    ("less.wasm", "unsupported: function 1 instruction 99 float arithmetic", "has no instruction 99"),
    ("less.wasm", "unsupported: function 77 instruction 2 float arithmetic", "no body of a function 77"),
    ("less.wasm", "malformed: at 30", "explain reads no fault"),
    ("vectors.wasm", "malformed: at 8", "stops reading at byte 202 (0xca), and not at byte 8"),
    ("less.wasm", "invalid: function 1", "finds no fault in func 1"),
    ("less.wasm", "invalid: module", "finds no fault outside the bodies"),
    ("less.wasm", "limit: locals 70000", "nothing of this module has 70000 locals"),
    ("less.wasm", "reserved: import 5", "only 0 imports"),
]

# Words that are refused, the status, and the line.
WORDS = [
    ([], 2, "explain: which module?: explain --help prints the words"),
    (["a", "b"], 2, "explain: one module at a time: explain --help prints the words"),
    (["--what", "a"], 2, "explain: there is no option --what: explain --help prints the words"),
    (["a", "--line"], 2, "explain: --line needs a line: explain --help prints the words"),
    (["a", "--line", "x", "--line", "y"], 2, "explain: --line is given twice: explain --help prints the words"),
]


def printed(text):
    """A text of the page as it is printed: of a link its words and the page."""
    place = lambda found: found.group(2) if not found.group(2).startswith("#") else "STATUSES.md" + found.group(2)
    return re.sub(r"\[([^]]*)\]\(([^)]*)\)", lambda found: f"{found.group(1)} (docs/{place(found)})", text)


def cure_of(line, said):
    """What the page says is to be done, of the first row that has the line; of malformed modules, of the section's."""
    page = contents(PAGE).decode()
    if line.startswith("malformed"):
        name = "the code section" if "section   code" in said else "the section `DataCount`"
        name = name if "section   code" in said or "section   DataCount" in said else "another section, or its end"
        return printed(re.search(rf"^\| {re.escape(name)} \| .*? \| (.*?) \|$", page, re.M).group(1))
    beginning = re.escape(re.split(r"[ ](?=\d)", line)[0])
    row = re.search(rf"^\| \d+ \| [^|]*`{beginning}[^|]*\| [^|]* \| ([^|]*)\|$", page, re.M)
    return printed(row.group(1).strip())


def checks(group):
    node = shutil.which("node") or shutil.which("nodejs")
    if not node or major_version(node) < OLDEST:
        group.notes.append(f"Node.js {OLDEST} is not here: ./r3 explain is not checked")
        return
    for name, status, line, parts in ROWS:
        path = os.path.join(FOLDER, name)
        group.refused(["instrument", path], status, line)
        answer = group.call(path, "--line", line, program=EXPLAIN)
        said = answer.out.decode()
        is_well = answer.status == 0 and not answer.err and all(part in said for part in parts)
        group.expect(is_well, f"explain {name}: {parts}", answer)
        group.expect(f"to do     {cure_of(line, said)}" in said, f"explain {name} has the cure of the page", answer)
    taken = os.path.join(FOLDER, "taken.wasm")
    for line, parts in HANDED_IN:
        answer = group.call(taken, "--line", line, program=EXPLAIN)
        is_well = answer.status == 0 and all(part in answer.out.decode() for part in parts)
        group.expect(is_well, f"explain --line `{line}`: {parts}", answer)
    for name, line, part in DISAGREEING:
        answer = group.call(os.path.join(FOLDER, name), "--line", line, program=EXPLAIN)
        is_one_line = answer.err.startswith(b"explain: ") and answer.err.count(b"\n") == 1
        group.expect(answer.status == 1 and is_one_line and part in answer.err.decode(), f"explain: {part}", answer)
    for words, status, line in WORDS:
        group.refused(words, status, line, program=EXPLAIN)
    check_without_line(group, taken)


def check_without_line(group, taken):
    """The line is that of the program that ./r3 runs, if there is one."""
    if subprocess.run([os.path.join(ROOT, "r3"), "instrument", taken], capture_output=True, check=False).returncode:
        group.notes.append("./r3 runs no program: explain without --line is not checked")
        return
    answer = group.call(taken, program=EXPLAIN)
    group.expect(answer.status == 0 and answer.out == b"r3 takes this module\n", "explain takes taken.wasm", answer)
    answer = group.call(os.path.join(FOLDER, "less.wasm"), program=EXPLAIN)
    group.expect(answer.status == 0 and b"2 f64.lt" in answer.out, "explain asks r3 for the line", answer)
    answer = group.call("absent.wasm", program=EXPLAIN)
    is_one_line = answer.err.startswith(b"explain: the module: ") and answer.err.count(b"\n") == 1
    group.expect(answer.status == 1 and not answer.out and is_one_line, "explain of an absent file", answer)
