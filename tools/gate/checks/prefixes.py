"""Every proper prefix of a small module, script, log, tape and replay module: no prefix is taken for a whole file.

A prefix of a module is a module itself if it ends with a section, and has either no function section or the code
section too. A prefix of a script or of declarations is no JSON text, since the text is one object or list and ends
with its bracket. A prefix of a log or of a tape is never whole, since both end with the one byte that closes them.
"""
import re

import pairs
from modules import example, section_ends

TURNS = "1000"
DECLARATIONS = b'[{"name":"own","params":["i32"],"results":[]}]'


def well_formed(binary):
    """The lengths of the proper prefixes of a module that are modules themselves."""
    ends, numbers = section_ends(binary)
    code = next((place for place, number in enumerate(numbers) if number == 10), len(numbers))
    function = next((place for place, number in enumerate(numbers) if number == 3), code)
    return {end for place, end in enumerate(ends[:-1]) if place < function or place >= code}


def is_place(line, text, most):
    """Whether a line is a text and a place from 0 to `most`, which the program prints without leading zeros."""
    found = re.fullmatch(text.encode() + rb"(0|[1-9][0-9]*)\n", line)
    return bool(found) and int(found.group(1)) <= most


def each_prefix(group, name, data):
    """Each proper prefix of a file, put in the file's place."""
    for length in range(len(data)):
        group.put(name, data[:length])
        yield length


def cut_files(group, name, data, commands, text, status):
    """Checks that each prefix is refused with this status and a place in it, by each command."""
    for length in each_prefix(group, name, data):
        for words in commands:
            answer = group.call(*words)
            is_well = answer.status == status and not answer.out and is_place(answer.err, text, length)
            group.expect(is_well, f"`{words[0]}` refuses the first {length} bytes of {name}", answer)


def cut_module(group, module, script):
    """The first sections of the module are a module, without what the script names: it is instrumented, and the script
    does not fit it."""
    whole = well_formed(module)
    played = group.put("script.json", script)
    for length in each_prefix(group, "module.wasm", module):
        instrumented = group.call("instrument", "module.wasm")
        made = [group.call(command, "module.wasm", played, TURNS) for command in ("make", "history")]
        if length in whole:
            group.expect(instrumented.status == 0, f"the first {length} bytes of the module are a module", instrumented)
            for answer in made:
                is_well = answer.status == 9 and not answer.out and answer.err.startswith(b"script: unknown ")
                group.expect(is_well, f"the script does not fit the first {length} bytes of the module", answer)
        else:
            for answer in [instrumented, *made]:
                is_well = answer.status == 5 and not answer.out and is_place(answer.err, "malformed: at ", length)
                group.expect(is_well, f"the first {length} bytes of the module are refused", answer)


def cut_pair(group):
    """The first sections of a module of a pair. Those of the left one export nothing that the script names, and those of
    the right one nothing that the left one imports."""
    files = pairs.put_pair(group, "whole", pairs.LEFT, pairs.RIGHT, pairs.SCRIPT)
    answers = [(pairs.LEFT, 9, b"script: unknown left.g\n"), (pairs.RIGHT, 21, b"pair: unresolved left 0\n")]
    for place, (binary, status, line) in enumerate(answers):
        whole = well_formed(binary)
        words = [*files[:place], "cut.wasm", *files[place + 1 :], TURNS]
        for length in each_prefix(group, "cut.wasm", binary):
            for command in ("pair", "pair-history"):
                answer = group.call(command, *words)
                if length in whole:
                    is_well = answer == (status, b"", line)
                else:
                    is_well = answer.status == 5 and not answer.out and is_place(answer.err, "malformed: at ", length)
                group.expect(is_well, f"`{command}` refuses the first {length} bytes of its module {place}", answer)


def cut_replay(group, replay):
    """A prefix of a replay module that is a module has no layout yet, which comes last."""
    whole = well_formed(replay)
    for length in each_prefix(group, "replay.wasm", replay):
        answer = group.call("replay", "replay.wasm", TURNS)
        if length in whole:
            is_well = answer == (17, b"", b"replay: layout\n")
        else:
            is_well = answer.status == 5 and not answer.out and is_place(answer.err, "malformed: at ", length)
        group.expect(is_well, f"`replay` refuses the first {length} bytes of a replay module", answer)


def cut_script(group, module, script):
    path = group.put("whole.wasm", module)
    for length in each_prefix(group, "script.json", script):
        for command in ("make", "history"):
            what = f"`{command}` with the first {length} bytes of a script"
            group.refused([command, path, "script.json", TURNS], 9, "script: not json", what=what)


def cut_declarations(group, files):
    for length in each_prefix(group, "decls.json", DECLARATIONS):
        for command in ("foreign", "foreign-history"):
            what = f"`{command}` with the first {length} bytes of declarations"
            words = [command, files[0], "decls.json", files[1], TURNS]
            group.refused(words, 20, "declarations: not json", what=what)


def checks(group):
    module, script = example("two_answers.wasm"), example("two_answers.json").rstrip()
    files = [group.put("m.wasm", module), group.put("s.json", script)]
    cut_module(group, module, script)
    cut_script(group, module, script)
    cut_declarations(group, files)
    cut_pair(group)
    hooked = group.put("hooked.wasm", group.done("instrument", files[0]))
    log = group.done("record", hooked, files[1], TURNS)
    tape = group.done("reduce", group.put("whole.log", log))
    cut_files(group, "log", log, [["reduce", "log"], ["show", "log"]], "trace: bad at ", 15)
    cut_files(group, "tape", tape, [["build", *files, "tape"], ["show", "tape"]], "trace: bad at ", 15)
    cut_replay(group, group.done("make", *files, TURNS))
