"""Small modules, and whether `instrument` takes them: the answers were worked out from the standard by hand.

Core 1.0 refuses what later editions take: types with two results, two tables, and a `br_table` after `unreachable`
whose labels have two types. Of Core 2.0 the sign extensions, `memory.copy` and `memory.fill` are taken, and no more.
"""
import module_rows_bodies
import module_rows_jumps
import module_rows_limits
import module_rows_memory
import module_rows_numeric
import module_rows_opcode_numbers
import module_rows_outside
import module_rows_places
import module_rows_profile
import module_rows_uses
from module_faults import TAKEN, limit
from modules import MAGIC

# Each row has a name, the bytes in hexadecimal, and the answer to them.
TABLES = [
    module_rows_bodies.ROWS,
    module_rows_jumps.ROWS,
    module_rows_memory.ROWS,
    module_rows_numeric.ROWS,
    module_rows_opcode_numbers.ROWS,
    module_rows_outside.ROWS,
    module_rows_places.INDICES,
    module_rows_places.FAULTS,
    module_rows_profile.INSTRUCTIONS,
    module_rows_profile.PLACES,
    module_rows_limits.QUANTITIES,
    module_rows_limits.IMPORTED,
    module_rows_limits.PARAMETERS,
    module_rows_uses.ROWS,
]


def check_answer(group, name, text, answer):
    """A module that is taken is instrumented, and another one is refused by its first fault."""
    group.put("m.wasm", bytes.fromhex(text))
    words = ["instrument", "m.wasm"]
    if answer == TAKEN:
        seen = group.call(*words)
        is_module = seen.out.startswith(MAGIC) and seen.out != MAGIC
        group.expect(seen.status == 0 and not seen.err and is_module, f"{name}: it is taken", seen)
    else:
        group.refused(words, *answer, what=name)


def check_locals(group):
    """An instrumented module may have five locals more. One that has no hooks is refused for its form alone."""
    check_answer(group, "50,001 locals", module_rows_limits.MORE_LOCALS, limit("locals", 50001))
    group.put("h.wasm", bytes.fromhex(module_rows_limits.MORE_LOCALS))
    group.put("s.json", b"{}")
    words = ["record", "h.wasm", "s.json", "1"]
    group.refused(words, 17, "not hooked", what="50,001 locals of an instrumented module")
    group.put("h.wasm", bytes.fromhex(module_rows_limits.TOO_MANY_LOCALS))
    group.refused(words, *limit("locals", 50006), what="50,006 locals of an instrumented module")


def checks(group):
    for table in TABLES:
        for row in table:
            check_answer(group, *row)
    check_locals(group)
