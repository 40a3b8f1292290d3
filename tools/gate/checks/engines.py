"""What other engines make of the printed modules: Node.js validates and runs the replay modules, wabt validates them
and the instrumented ones. Each is used if it is installed."""
import os
import shutil

import examples
from modules import limits, module

# A module with an instruction of each proposal that replay modules use, beside Core 1.0: `ref.null func`, `table.set`,
# `memory.fill`.
PROBE = module(
    [([], [])],
    funcs=[0],
    tables=[limits(1)],
    memories=[limits(1)],
    exports=[("_start", 0, 0)],
    bodies=[b"\x41\0\xd0\x70\x26\0\x41\0\x41\0\x41\0\xfc\x0b\0"],
)
SCRIPT = os.path.join(os.path.dirname(os.path.realpath(__file__)), "replays.js")


def run_by_node(group, node, outcomes):
    """Checks that each replay module ends as the history's last line says. A trap of the host is a trap."""
    words = [f"{name}={group.path(name + '.replay.wasm')}" for name in outcomes]
    words.append("probe=" + group.path("probe"))
    answer = group.call(SCRIPT, *words, program=node)
    group.expect(answer.status == 0, "node runs all replay modules", answer)
    found = dict(line.split(" ", 1) for line in answer.out.decode().splitlines())
    if found.get("probe") != "ended":
        group.notes.append("Node.js is too old here for replay modules: they run in no other engine")
        return
    for name, last in outcomes.items():
        wanted = "ended" if last == "ended" else "trapped"
        group.expect(found.get(name) == wanted, f"{name}.replay.wasm {wanted} in Node.js: {found.get(name)}")


def checks(group):
    outcomes = dict(examples.replayed())
    group.put("probe", PROBE)
    node = shutil.which("node") or shutil.which("nodejs")
    if node:
        run_by_node(group, node, outcomes)
    else:
        group.notes.append("Node.js is not here: the replay modules run in no other engine")
    validate = shutil.which("wasm-validate")
    if validate and group.call("probe", program=validate).status == 0:
        for name in sorted(os.listdir(group.room)):
            if name.endswith(".wasm"):
                answer = group.call(name, program=validate)
                group.expect(answer.status == 0, f"wasm-validate accepts {name}", answer)
    else:
        group.notes.append("wabt is not here, or too old for replay modules: wasm-validate reads no module")
