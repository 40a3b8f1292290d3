"""Runs with foreign functions, whose lines were worked out by hand, and declarations and calls that are refused."""
from foreign_modules import CALLED_BACK, FLOAT_BODY, FOREIGN_IMPORT, IMPORTED_TABLE, TABLE_ENTRY

# It declares a callback that returns an i32.
CALLBACK = b'[{"name":"cb","params":[],"results":["i32"]}]'

# Each run has a name, the module, the declarations, the script, the turns that it takes, and its lines.
RUNS = [
    (
        "the import puts a foreign function into the table",
        TABLE_ENTRY,
        CALLBACK,
        b"""{"imports":{"foreign":{"cb":{"calls":[{"return":{"i32":9}}]}},
                "h":{"f":{"calls":[{"do":[{"set_table":0,"func":"cb"}]}]}}},"main":[{"call":"g"}]}""",
        5,
        b"""host-call 2
step 2 0 ->
import-call 0
import-return 0
step 2 1 -> i32:00000000
step 2 2 i32:00000000 -> found 1
import-call 1
import-return 1 i32:00000009
host-return 2 i32:00000009
ended
""",
    ),
    (
        "a foreign function calls back",
        CALLED_BACK,
        b'[{"name":"log","params":["i64"],"results":[]},{"name":"cb","params":[],"results":["i32"]}]',
        b"""{"imports":{"foreign":{"cb":{"calls":[{"do":[{"call":"e"}],"return":{"i32":9}}]}},
                "h":{"f":{"calls":[{"do":[{"set_table":0,"func":"cb"}]}]}}},"main":[{"call":"g"}]}""",
        10,
        b"""host-call 3
step 3 0 ->
import-call 0
import-return 0
step 3 1 -> i32:00000000
step 3 2 i32:00000000 -> found 2
import-call 2
host-call 4
step 4 0 ->
enter 5
step 5 0 -> i32:00000007
exit 5 i32:00000007
step 4 1 -> i32:00000001
step 4 2 i32:00000007 i32:00000001 -> i32:00000008
host-return 4 i32:00000008
import-return 2 i32:00000009
host-return 3 i32:00000009
ended
""",
    ),
    (
        "the declared type is another one than the expected type",
        TABLE_ENTRY,
        b'[{"name":"cb","params":[],"results":["i64"]}]',
        b'{"imports":{"h":{"f":{"calls":[{"do":[{"set_table":0,"func":"cb"}]}]}}},"main":[{"call":"g"}]}',
        5,
        b"""host-call 2
step 2 0 ->
import-call 0
import-return 0
step 2 1 -> i32:00000000
trap 2 2 signature i32:00000000 found 1
trapped
""",
    ),
    (
        "the host calls what an element segment put into the table",
        TABLE_ENTRY,
        CALLBACK,
        b'{"main":[{"call_table":0}]}',
        2,
        b"""host-call 3
step 3 0 -> i32:00000007
host-return 3 i32:00000007
ended
""",
    ),
    (
        "an imported table, and no imported function",
        IMPORTED_TABLE,
        b'[{"name":"cb","params":["i32"],"results":["i32"]}]',
        b"""{"table":{"size":2,"max":2},"imports":{"foreign":{"cb":{"calls":[{"return":{"i32":6}}]}}},
                "main":[{"set_table":1,"func":"cb"},{"call_table":0}]}""",
        5,
        b"""host-call 1
step 1 0 -> i32:00000005
step 1 1 -> i32:00000001
step 1 2 i32:00000005 i32:00000001 -> found 0
import-call 0 i32:00000005
import-return 0 i32:00000006
host-return 1 i32:00000006
ended
""",
    ),
    (
        "no declarations",
        TABLE_ENTRY,
        b" [ ]\n",
        b'{"imports":{"h":{"f":{"rest":{}}}},"main":[{"call":"b"}]}',
        2,
        b"""host-call 3
host-return 3
ended
""",
    ),
]

# Each refused call has a name, the module, the declarations, the script, the turns, the status and the line. The
# calls are in the order of the causes.
REFUSED = [
    (
        "a name that an export has",
        TABLE_ENTRY,
        b'[{"name":"g","params":[],"results":[]}]',
        b"{}",
        5,
        20,
        "declarations: taken g",
    ),
    (
        "a name that an earlier declaration has, before one that an export has",
        TABLE_ENTRY,
        b"""[{"name":"cb","params":[],"results":[]},{"name":"cb","params":[],"results":[]},
                {"name":"g","params":[],"results":[]}]""",
        b"{}",
        5,
        20,
        "declarations: taken cb",
    ),
    (
        "an import from foreign, before a name that is taken",
        FOREIGN_IMPORT,
        b'[{"name":"cb","params":[],"results":[]},{"name":"cb","params":[],"results":[]}]',
        b"{}",
        5,
        20,
        "declarations: reserved 0",
    ),
    (
        "a form that is wrong, before an import from foreign",
        FOREIGN_IMPORT,
        b'[{"name":"cb","params":["i32","i33"],"results":[]}]',
        b"{}",
        5,
        20,
        "declarations: shape /0/params/1",
    ),
    (
        "an unlisted key, before a key of the wrong form",
        TABLE_ENTRY,
        rb'[{"name":5,"params":[],"results":[],"~/\u00e9":0}]',
        b"{}",
        5,
        20,
        "declarations: shape /0",
    ),
    (
        "two results",
        TABLE_ENTRY,
        b'[{"name":"a","params":[],"results":[]},{"name":"b","params":[],"results":["i32","i32"]}]',
        b"{}",
        5,
        20,
        "declarations: shape /1/results",
    ),
    ("a text that ends early", TABLE_ENTRY, b'[{"name":"cb"', b"{}", 5, 20, "declarations: not json"),
    ("declarations, before the script", TABLE_ENTRY, b"{}", b"{", 5, 20, "declarations: shape "),
    (
        "the module, before the declarations",
        FLOAT_BODY,
        b"{}",
        b"{",
        5,
        7,
        "unsupported: function 2 instruction 3 float arithmetic",
    ),
    (
        "a script that answers a function which is not declared",
        TABLE_ENTRY,
        b"[]",
        b'{"imports":{"foreign":{"cb":{"rest":{}}}}}',
        5,
        9,
        "script: unknown foreign",
    ),
    (
        "a script whose answer has another type than the declared one",
        TABLE_ENTRY,
        CALLBACK,
        b'{"imports":{"foreign":{"cb":{"rest":{"return":{"i64":1}}}}}}',
        5,
        9,
        "script: type cb",
    ),
    (
        "a script that calls a foreign function",
        TABLE_ENTRY,
        CALLBACK,
        b'{"main":[{"call":"cb"}]}',
        5,
        9,
        "script: calls own cb",
    ),
    ("a table that is not supplied", IMPORTED_TABLE, CALLBACK, b'{"main":[]}', 5, 10, "link: missing import 0"),
    (
        "the host calls its own function through the table",
        TABLE_ENTRY,
        CALLBACK,
        b'{"main":[{"set_table":0,"func":"cb"},{"call_table":0}]}',
        5,
        11,
        "script fault: turn 2 calls own",
    ),
    (
        "a foreign function without an answer",
        TABLE_ENTRY,
        CALLBACK,
        b'{"imports":{"h":{"f":{"rest":{"do":[{"set_table":0,"func":"cb"}]}}}},"main":[{"call":"g"}]}',
        5,
        11,
        "script fault: turn 5 no response",
    ),
    (
        "one turn too few",
        TABLE_ENTRY,
        CALLBACK,
        b"""{"imports":{"foreign":{"cb":{"rest":{"return":{"i32":9}}}},
                "h":{"f":{"rest":{"do":[{"set_table":0,"func":"cb"}]}}}},"main":[{"call":"g"}]}""",
        4,
        12,
        "turns spent: 4",
    ),
]

# These words are not of these commands, whatever the files are.
USAGE = [
    ["foreign"],
    ["foreign", "m.wasm", "d.json", "s.json"],
    ["foreign", "m.wasm", "d.json", "s.json", "0"],
    ["foreign", "m.wasm", "d.json", "s.json", "1000000001"],
    ["foreign", "m.wasm", "s.json", "5"],
    ["foreign-history", "m.wasm", "d.json", "s.json", "2000001"],
    ["foreign-history", "m.wasm", "d.json", "s.json", "5", "5"],
    ["foreign_history", "m.wasm", "d.json", "s.json", "5"],
]
