"""What the options of tools/capture -o choose, and what a program gets that is run again."""
import json
import os
import shutil
import subprocess

from node_tests import major_version
from group import contents
from programs import CAPTURE, OLDEST, captured, checks_of_folder, environment, put_programs, run

# bad() calls h.f with 0, and good(x) with x.
THROWING = bytes.fromhex(
    "0061736d01000000 010902 60017f017f 600000 0207010168016600 00 0303020100 070e02 03626164 0001 04676f6f64 0002"
    "0a1002 07 00410010001a0b 06 00200010000b".replace(" ", "")
)
# bad() ends by an exception that is caught here, so the program is run again without it. What good gets is of all kinds of
# clocks and random numbers, and of standard input.
READS = """
import fs from 'node:fs';
const imports = { h: { f: number => { if (number === 0) throw new Error('zero'); return number; } } };
const { instance } = await WebAssembly.instantiate(fs.readFileSync('throwing.wasm'), imports);
const { bad, good } = instance.exports;
try { bad(); } catch (error) { console.log(error.message); }
const some = crypto.getRandomValues(new Int32Array(2));
const numbers = [Math.random() * 2 ** 31, Date.now() % 2 ** 31, new Date().getTime() % 2 ** 31, performance.now() * 1000, some[0], some[1],
  process.hrtime()[1], Number(process.hrtime.bigint() % 1000000007n), ...fs.readFileSync(0)];
for (const number of numbers) console.log(good(number | 1));
"""


# What the interface for JavaScript shows of itself. A program that prints this prints the same with a capture.
INTERFACE = """
import fs from 'node:fs';
const bytes = fs.readFileSync('throwing.wasm');
const W = WebAssembly;
const f = number => number;
const imports = { h: { f } };
const said = [];
const tried = async (name, call) => {
  try { const value = await call(); said.push([name, Object.prototype.toString.call(value), String(value)]); }
  catch (error) { said.push([name, error.constructor.name, error.message]); }
};
const module = new W.Module(bytes);
for (const wrong of [undefined, 5, {}, new Uint8Array(3), Uint8Array.of(0, 97, 115, 109, 2, 0, 0, 0)]) {
  await tried('Module', () => new W.Module(wrong));
  await tried('compile', () => W.compile(wrong));
  await tried('instantiate', () => W.instantiate(wrong, imports));
  await tried('Instance', () => new W.Instance(wrong, imports));
  await tried('validate', () => W.validate(wrong));
}
for (const wrong of [undefined, 5, {}, { h: 1 }, { h: {} }, { h: { f: 1 } }]) {
  await tried('Instance of', () => new W.Instance(module, wrong));
  await tried('instantiate of', () => W.instantiate(module, wrong));
  await tried('instantiate of bytes', () => W.instantiate(bytes, wrong));
}
await tried('without new', () => W.Instance(module, imports));
await tried('Memory', () => new W.Memory({}));
await tried('Table', () => new W.Table({ element: 'anyfunc', initial: 2, maximum: 1 }));
await tried('stream', () => W.compileStreaming(new Response(bytes)));
await tried('stream of a type', () => W.compileStreaming(new Response(bytes, { headers: { 'content-type': 'application/wasm' } })));
await tried('no stream', () => W.instantiateStreaming(5, imports));
class Own extends W.Instance { get answer() { return 42; } }
const all = [new W.Instance(module, imports), await W.instantiate(module, imports), (await W.instantiate(bytes, imports)).instance,
  new Own(module, imports),
  (await W.instantiateStreaming(new Response(bytes, { headers: { 'content-type': 'application/wasm' } }), imports)).instance,
  new W.Instance(structuredClone(module), imports)];
for (const instance of all) {
  const { exports } = instance;
  said.push([instance instanceof W.Instance, instance.constructor === W.Instance, instance instanceof Own, instance.answer,
    Object.getOwnPropertyNames(instance), Object.keys(exports), Object.isFrozen(exports), Object.getPrototypeOf(exports),
    exports === instance.exports, exports.good.name, exports.good.length, exports.good(7), exports.good === exports.good]);
}
said.push(W.Module.exports(module), W.Module.imports(module), W.Module.customSections(module, 'name'));
for (const name of Object.getOwnPropertyNames(W).sort()) {
  const { value, get, ...flags } = Object.getOwnPropertyDescriptor(W, name);
  said.push([name, typeof value, value?.name, value?.length, flags, value?.prototype?.constructor === value]);
}
const { get, ...flags } = Object.getOwnPropertyDescriptor(W.Instance.prototype, 'exports');
said.push([get.name, get.length, flags, process.execArgv, Object.keys(process.env).filter(name => name.startsWith('R3_C'))]);
await tried('getter', () => get.call({}));
console.log(said.map(item => JSON.stringify(item)).join('\\n'));
"""


def arguments(folder):
    """The arguments of the host's calls of a script's main, in order."""
    script = json.loads(contents(os.path.join(folder, "script.json")))
    return [argument["i32"] for action in script["main"] if "call" in action for argument in action["args"]]


def run_again(group, name, **how):
    """Captures the program that reads, with standard input by a pipe or by a file."""
    folder = group.path(name)
    ran = subprocess.run(
        [CAPTURE, "-o", folder, "reads.mjs"],
        cwd=group.room,
        env=environment(group),
        stdout=subprocess.PIPE,
        stderr=subprocess.PIPE,
        check=False,
        **how,
    )
    group.expect(ran.returncode == 0, f"{name}: the capture ends with status 0: {ran.stderr[-300:]!r}")
    if ran.returncode != 0:
        return
    lines = ran.stdout.decode().splitlines()
    group.expect(lines[:1] == ["zero"] and len(lines) == 14, f"{name}: the program is heard once: {lines}")
    report = json.loads(contents(os.path.join(folder, "report.json")))
    group.expect(
        report["runs"]["count"] == 2 and report["functions"]["kept"] == ["good"], f"{name}: it is run again without bad"
    )
    given = arguments(folder)
    group.expect(
        [int(line) for line in lines[1:]] == given,
        f"{name}: the second run reads what the first one did, {lines[1:]} and not {given}",
    )
    checks_of_folder(group, name, folder, report, "returned")


def again(group):
    group.put("throwing.wasm", THROWING)
    group.put("reads.mjs", READS.encode())
    run_again(group, "input by a pipe", input=b"input")
    with open(group.put("input", b"..input"), "rb", buffering=0) as file:
        file.read(2)
        run_again(group, "input by a file", stdin=file)


def interface(group):
    group.put("interface.mjs", INTERFACE.encode())
    env = {**os.environ, "R3_PROGRAM": group.program}
    plain = run(group, ["node", "interface.mjs"], env=env)
    answer, _, report = captured(group, "interface", ["--all", "interface.mjs"], env=env)
    lines = [text.decode().splitlines() for text in (plain.out, answer.out)]
    others = [pair for pair in zip(*lines) if pair[0] != pair[1]]
    group.expect(
        len(lines[0]) > 60 and len(lines[0]) == len(lines[1]) and not others,
        f"the interface is as it would be: {others[:3]}",
    )
    modules = report["modules"] if report else []
    recorded = sum(item["recorded"] and not item["of_node"] for item in modules)
    group.expect(recorded == 5, f"five of the instances are recorded, and not {recorded}")


def kept(group, name, words):
    _, folder, report = captured(group, name, words)
    if report is None:
        return []
    checks_of_folder(group, name, folder, report, report["end"]["kind"])
    return report["functions"]["kept"]


def functions(group):
    """Which functions of features.wasm are kept: func 5 is called by down, and func 1 and func 2 by the table."""
    program = "features.mjs"
    every = kept(group, "all that r3 takes", [program])
    group.expect(
        {"applied", "digits"} < set(every) and not {"sum", "down", "put", "swap"} & set(every),
        f"all that r3 takes is kept: {every}",
    )
    group.expect(kept(group, "keep", ["--keep", "applied", program]) == ["applied"], "--keep keeps a function alone")
    under = kept(group, "under", ["--under", "applied", program])
    group.expect(set(under) == {"applied", "func 1", "func 2"}, f"--under keeps what a function reaches: {under}")
    group.expect(
        set(kept(group, "drop", ["--drop", "applied", program])) == set(every) - {"applied"},
        "--drop leaves a function out",
    )


def floats(group):
    """Float instructions of sort.wasm: calls of the host, or none."""
    for choice, are_calls in (("few", True), ("all", True), ("none", False)):
        _, folder, report = captured(group, f"floats {choice}", ["--floats", choice, "sort.wasm"])
        if report is None:
            continue
        found = [name for name in report["crossings"]["out"] if name.startswith("f64.")]
        group.expect(
            bool(found) == are_calls,
            f"--floats {choice}: float instructions are {'' if are_calls else 'not '}calls: {found}",
        )
        checks_of_folder(group, f"floats {choice}", folder, report, "returned")


def checks(group):
    node = shutil.which("node")
    if not node or major_version(node) < OLDEST:
        group.notes.append(f"Node.js {OLDEST} is not here: the options of tools/capture -o are not checked")
        return
    put_programs(group)
    again(group)
    interface(group)
    functions(group)
    floats(group)
