"""Runs of two linked modules with their lines, and pairs and calls that are refused."""
from pair_modules import (
    ADDS_STEP,
    ALL_TWICE,
    CALLS_FIRST,
    CALLS_HOST,
    CALLS_RUN,
    FLOAT_BODY,
    HAS_COUNTER,
    HAS_F_GLOBAL,
    HAS_MEMORY,
    HAS_TABLE,
    LEFT_ADDER,
    LONG_ADDER,
    NO_CONSTANT,
    OFFSET_MEMORY,
    ONE_PAGE,
    OVERWRITE,
    PASSED_BACK,
    PASSES_HOST,
    PASSES_OFFSET,
    PASSES_ON_B,
    PASSES_ON_C,
    PASSES_SEVEN,
    PAST_MEMORY,
    PAST_TABLE,
    RIGHT_ADDER,
    SECOND_PASSED_ON,
    STARTS,
    STARTS_LEFT,
    STORES_BYTE,
    TABLE_ENTRY,
    TRAPS_LATE,
    TWO_ANSWERS,
    WANTS_GLOBAL,
    WANTS_NOTHING_THERE,
    WANTS_PAGES,
)

# Each run has a name, both modules, the script, the turns that it takes, and its lines.
RUNS = [
    (
        "the left module calls the right one twice, which calls the host",
        LEFT_ADDER,
        RIGHT_ADDER,
        b"""{"imports":{"h":{"f":{"calls":[{"return":{"i32":5}},{"return":{"i32":7}}]}}},
                "main":[{"call":"left.g"}]}""",
        10,
        b"""host-call 1
step 1 0 ->
enter 2
step 2 0 ->
import-call 0
import-return 0 i32:00000005
step 2 1 -> i32:00000001
step 2 2 i32:00000005 i32:00000001 -> i32:00000006
exit 2 i32:00000006
step 1 1 ->
enter 2
step 2 0 ->
import-call 0
import-return 0 i32:00000007
step 2 1 -> i32:00000001
step 2 2 i32:00000007 i32:00000001 -> i32:00000008
exit 2 i32:00000008
step 1 2 i32:00000006 i32:00000008 -> i32:0000000e
host-return 1 i32:0000000e
ended
""",
    ),
    (
        "the host calls the left module back, which calls the right one again",
        CALLS_RUN,
        CALLS_HOST,
        b"""{"imports":{"h":{"f":{"calls":[{"do":[{"call":"left.back"}],"return":{"i32":5}}]}}},
                "main":[{"call":"left.g"}]}""",
        8,
        b"""host-call 1
step 1 0 ->
enter 3
step 3 0 ->
import-call 0
host-call 2
step 2 0 ->
enter 4
step 4 0 -> i32:00000004
exit 4 i32:00000004
host-return 2 i32:00000004
import-return 0 i32:00000005
exit 3 i32:00000005
step 1 1 -> i32:00000001
step 1 2 i32:00000005 i32:00000001 -> i32:00000006
host-return 1 i32:00000006
ended
""",
    ),
    (
        "a trap in the right module, inside a call by the left one",
        PASSES_SEVEN,
        TRAPS_LATE,
        b'{"main":[{"call":"left.g"}]}',
        5,
        b"""host-call 0
step 0 0 -> i32:00000007
step 0 1 i32:00000007 ->
enter 1
step 1 0 -> i32:00000007
trap 1 1 unreachable
trapped
""",
    ),
    (
        "a mutable global of the left module, and a constant of its immutable one",
        HAS_COUNTER,
        ADDS_STEP,
        b"""{"main":[{"set_global":"left.count","value":{"i32":20}},{"call":"right.bump"},
                {"call":"left.g"}]}""",
        13,
        b"""host-call 1
step 1 0 -> i32:00000014
step 1 1 -> i32:00000003
step 1 2 i32:00000014 i32:00000003 -> i32:00000017
step 1 3 i32:00000017 ->
host-return 1
host-call 0
step 0 0 ->
enter 1
step 1 0 -> i32:00000017
step 1 1 -> i32:00000003
step 1 2 i32:00000017 i32:00000003 -> i32:0000001a
step 1 3 i32:0000001a ->
exit 1
step 0 1 -> i32:0000001a
host-return 0 i32:0000001a
ended
""",
    ),
    (
        "element segments of both modules in one table, and a type that both have",
        HAS_TABLE,
        CALLS_FIRST,
        b'{"main":[{"call_table":1}]}',
        4,
        b"""host-call 1
step 1 0 -> i32:00000000
step 1 1 i32:00000000 -> found 0
enter 0
step 0 0 -> i32:00000007
exit 0 i32:00000007
host-return 1 i32:00000007
ended
""",
    ),
    (
        "a chain of three imports",
        PASSES_ON_C,
        PASSES_ON_B,
        b'{"main":[{"call":"left.g"},{"call":"right.a"}]}',
        5,
        b"""host-call 0
step 0 0 ->
enter 1
step 1 0 -> i32:00000008
exit 1 i32:00000008
host-return 0 i32:00000008
host-call 1
step 1 0 -> i32:00000008
host-return 1 i32:00000008
ended
""",
    ),
    (
        "one memory, with data segments of both modules",
        HAS_MEMORY,
        STORES_BYTE,
        b'{"main":[{"write":11,"bytes":"80"},{"call":"left.g"}]}',
        9,
        b"""host-call 0
step 0 0 -> i32:00000005
step 0 1 i32:00000005 ->
enter 1
step 1 0 -> i32:00000008
step 1 1 -> i32:00000005
step 1 2 i32:00000008 i32:00000005 ->
exit 1
step 0 2 -> i32:00000008
step 0 3 i32:00000008 -> i32:80030705
host-return 0 i32:80030705
ended
""",
    ),
    (
        "an offset that the host supplies to the right module",
        OFFSET_MEMORY,
        PASSES_OFFSET,
        b'{"globals":{"h":{"b":{"i32":16}}},"main":[{"call":"left.g"}]}',
        3,
        b"""host-call 0
step 0 0 -> i32:00000010
step 0 1 i32:00000010 -> i32:0000002a
host-return 0 i32:0000002a
ended
""",
    ),
    (
        "a start function that calls an import of the left module, and two imports of one name",
        PASSES_HOST,
        STARTS_LEFT,
        b'{"imports":{"h":{"f":{"calls":[{}]}}},"main":[{"call":"left.g"}]}',
        3,
        b"""host-call 3
step 3 0 ->
import-call 0
import-return 0
host-return 3
host-call 2
step 2 0 ->
import-call 1
import-return 1
host-return 2
ended
""",
    ),
]

# Each pair that does not link has a name, both modules and the line. Its script is `{`, which is looked at later.
UNLINKED = [
    ("the right module exports nothing of that name", LEFT_ADDER, TWO_ANSWERS, "pair: unresolved left 0"),
    (
        "the right module exports a global of that name",
        WANTS_NOTHING_THERE,
        HAS_F_GLOBAL,
        "pair: unresolved left 0",
    ),
    ("a chain that comes back to itself", SECOND_PASSED_ON, PASSED_BACK, "pair: unresolved left 1"),
    ("a global that does not begin with one constant", NO_CONSTANT, WANTS_GLOBAL, "pair: unresolved right 0"),
    ("a function of another type", LONG_ADDER, RIGHT_ADDER, "pair: mismatch left 0"),
    (
        "a function of another type, before a later import that is not there",
        WANTS_NOTHING_THERE,
        RIGHT_ADDER,
        "pair: mismatch left 0",
    ),
    ("a memory that is too small", ONE_PAGE, WANTS_PAGES, "pair: mismatch right 0"),
    ("the left module's imports, before the right one's", LEFT_ADDER, WANTS_GLOBAL, "pair: unresolved left 0"),
    ("two memories", OVERWRITE, OVERWRITE, "pair: two memories"),
    ("two tables", TABLE_ENTRY, TABLE_ENTRY, "pair: two tables"),
    ("two start functions", STARTS, STARTS, "pair: two starts"),
    ("two memories, before two tables", ALL_TWICE, ALL_TWICE, "pair: two memories"),
]

# Each refused call has a name, both modules, the script, the turns, the status and the line. The calls are in the
# order of the causes.
REFUSED = [
    (
        "the left module, before the right one",
        FLOAT_BODY,
        b"\0",
        b"{",
        5,
        7,
        "unsupported: function 2 instruction 3 float arithmetic",
    ),
    (
        "the right module, before the links",
        LEFT_ADDER,
        FLOAT_BODY,
        b"{",
        5,
        7,
        "unsupported: function 2 instruction 3 float arithmetic",
    ),
    ("the links, before the script", LEFT_ADDER, TWO_ANSWERS, b"{", 5, 21, "pair: unresolved left 0"),
    ("a name without its module", LEFT_ADDER, RIGHT_ADDER, b'{"main":[{"call":"g"}]}', 5, 9, "script: unknown g"),
    (
        "an import that is linked, and none of the host's",
        LEFT_ADDER,
        RIGHT_ADDER,
        b'{"imports":{"right":{"f":{}}}}',
        5,
        9,
        "script: unknown right",
    ),
    (
        "the script, before a global that is not supplied",
        OFFSET_MEMORY,
        PASSES_OFFSET,
        b'{"main":[{"call":"right.g"}]}',
        5,
        9,
        "script: unknown right.g",
    ),
    (
        "a global that is not supplied",
        OFFSET_MEMORY,
        PASSES_OFFSET,
        b'{"main":[{"call":"left.g"}]}',
        5,
        10,
        "link: missing import 0",
    ),
    (
        "a segment that passes the memory",
        OFFSET_MEMORY,
        PASSES_OFFSET,
        b'{"globals":{"h":{"b":{"i32":65536}}}}',
        5,
        10,
        "link: segment 0",
    ),
    (
        "an element segment of the right module, before a data segment of the left one",
        PAST_MEMORY,
        PAST_TABLE,
        b"{}",
        5,
        10,
        "link: segment 2",
    ),
    (
        "no answer for the right module",
        LEFT_ADDER,
        RIGHT_ADDER,
        b'{"main":[{"call":"left.g"}]}',
        5,
        11,
        "script fault: turn 3 no response",
    ),
    (
        "one turn too few",
        LEFT_ADDER,
        RIGHT_ADDER,
        b"""{"imports":{"h":{"f":{"calls":[{"return":{"i32":5}},{"return":{"i32":7}}]}}},
                "main":[{"call":"left.g"}]}""",
        9,
        12,
        "turns spent: 9",
    ),
]

# These words are not of these commands, whatever the files are.
USAGE = [
    ["pair"],
    ["pair", "l.wasm", "r.wasm", "s.json"],
    ["pair", "l.wasm", "r.wasm", "s.json", "0"],
    ["pair", "l.wasm", "r.wasm", "s.json", "1000000001"],
    ["pair", "l.wasm", "s.json", "5"],
    ["pair-history", "l.wasm", "r.wasm", "s.json", "2000001"],
    ["pair-history", "l.wasm", "r.wasm", "s.json", "5", "5"],
    ["pair_history", "l.wasm", "r.wasm", "s.json", "5"],
]
