"""Modules and scripts of single calls, with the statuses and lines that were worked out by hand."""
from modules import example

COPY_LOAD = example("copy_load.wasm")
C_BUFFERS = example("c_buffers.wasm")
FLOAT_BODY = example("float_body.wasm")
FLOAT_GLOBAL = example("float_global.wasm")
IMPORTED_OFFSET = example("imported_offset.wasm")
NESTED_CALL = example("nested_call.wasm")
NESTED_TRAP = example("nested_trap.wasm")
OVERWRITE = example("overwrite.wasm")
REPLAY_TWO_ANSWERS = example("replay_two_answers.wasm")
TABLE_GROWTH = example("table_growth.wasm")
TWO_ANSWERS = example("two_answers.wasm")

# The adder's script: the import `h.f` answers 5 and 7.
ANSWERS = b'{"imports":{"h":{"f":{"calls":[{"return":{"i32":5}},{"return":{"i32":7}}]}}},"main":[{"call":"g"}]}'

# The adder's lines, which are those of the run of `REPLAY_TWO_ANSWERS` too.
LINES = b"""host-call 1
step 1 0 ->
import-call 0
import-return 0 i32:00000005
step 1 1 ->
import-call 0
import-return 0 i32:00000007
step 1 2 i32:00000005 i32:00000007 -> i32:0000000c
host-return 1 i32:0000000c
ended
"""

# The host sets a float global in its answer.
SETTING = (
    b'{"imports":{"h":{"f":{"calls":[{"do":[{"set_global":"x","value":{"f32":2141192193}}]}]}}},'
    b'"main":[{"call":"g"}]}'
)

# The host calls in its first answer of two.
CALLING_TWICE = (
    b'{"imports":{"h":{"f":{"calls":[{"do":[{"call":"e"}],"return":{"i32":1}},'
    b'{"return":{"i32":2}}]}}},"main":[{"call":"g"}]}'
)

# The host calls `g` in the first answer to a call of `g`.
CALLING = (
    b'{"imports":{"h":{"f":{"calls":[{"do":[{"call":"g"}],"return":{"i32":1}},{"return":{"i32":2}},'
    b'{"return":{"i32":3}},{"return":{"i32":4}}]}}},"main":[{"call":"g"}]}'
)

# A table of at most two entries.
# (module (table (export "t") 1 2 funcref))
TABLE_OF_TWO = bytes.fromhex("0061736d010000000405017001010207050101740100")

# The adder, except that its export `g` is the import.
# (module (import "h" "f" (func (result i32))) (func (result i32) call 0 call 0 i32.add)
#   (export "g" (func 0)))
EXPORTED_IMPORT = bytes.fromhex(
    "0061736d010000000105016000017f02070101680166000003020100070501016700000a09010700100010006a0b"
)

# The adder with the type index of its function in five bytes, which changes nothing.
# (module (import "h" "f" (func (result i32))) (func (export "g") (result i32) call 0 call 0 i32.add)), with
#   the type index of the function in five bytes
LONG_INDEX = bytes.fromhex(
    "0061736d010000000105016000017f0207010168016600000306018080808000070501016700010a09010700100010006a0b"
)

# A function that calls itself without an end.
# (module (import "h" "f" (func (result i32))) (func (export "g") (result i32) call 1))
RECURSION = bytes.fromhex("0061736d010000000105016000017f02070101680166000003020100070501016700010a0601040010010b")

# Calls of `history` that are refused: modules and scripts, the turns, the status and the line.
HISTORIES = [
    (
        "answers used up",
        TWO_ANSWERS,
        (
            b'{"imports":{"h":{"f":{"calls":[{"return":{"i32":5}},{"return":{"i32":7}}]}}},"main":[{"call":"g"},'
            b'{"call":"g"}]}'
        ),
        "100",
        11,
        "script fault: turn 6 no response",
    ),
    ("an import that is not supplied", IMPORTED_OFFSET, b"{}", "100", 10, "link: missing import 0"),
    (
        "a global of another type",
        IMPORTED_OFFSET,
        b'{"globals":{"h":{"b":{"i64":16}}},"main":[{"call":"g"}]}',
        "100",
        10,
        "link: mismatch import 0",
    ),
    (
        "a data segment past the memory",
        IMPORTED_OFFSET,
        b'{"globals":{"h":{"b":{"i32":65536}}},"main":[{"call":"g"}]}',
        "100",
        10,
        "link: segment 0",
    ),
    ("float_body", FLOAT_BODY, b"{}", "100", 7, "unsupported: function 2 instruction 3 float arithmetic"),
    ("a turn too few", TWO_ANSWERS, ANSWERS, "3", 12, "turns spent: 3"),
    (
        "a turn too few in c_buffers",
        C_BUFFERS,
        (
            b'{"imports":{"env":{"read":{"calls":[{"do":[{"write":{"arg":0},"bytes":"68690a00"},{"write":{"arg":2},'
            b'"bytes":"03000000"}],"return":{"i32":0}}]}}},"main":[{"call":"run"}]}'
        ),
        "28",
        12,
        "turns spent: 28",
    ),
    ("no turns", TWO_ANSWERS, ANSWERS, "0", 2, "usage"),
    ("a zero in front", TWO_ANSWERS, ANSWERS, "04", 2, "usage"),
    ("more turns than the most", TWO_ANSWERS, ANSWERS, "2000001", 2, "usage"),
    ("no JSON", TWO_ANSWERS, b"{", "100", 9, "script: not json"),
    ("another action", TWO_ANSWERS, b'{"main":[{"jump":1}]}', "100", 9, "script: shape /main/0"),
    ("an unknown export", TWO_ANSWERS, b'{"main":[{"call":"zz"}]}', "100", 9, "script: unknown zz"),
    ("a needless argument", TWO_ANSWERS, b'{"main":[{"call":"g","args":[{"i32":1}]}]}', "100", 9, "script: type g"),
    ("no memory", TWO_ANSWERS, b'{"main":[{"write":0,"bytes":"00"}]}', "100", 9, "script: no access memory"),
    ("a call of an import", EXPORTED_IMPORT, ANSWERS, "100", 9, "script: calls own g"),
    (
        "a write past the memory",
        OVERWRITE,
        b'{"imports":{"h":{"f":{"calls":[{"do":[{"write":65535,"bytes":"aabb"}]}]}}},"main":[{"call":"g"}]}',
        "100",
        11,
        "script fault: turn 3 outside",
    ),
    (
        "a turn too few in nested_call",
        NESTED_CALL,
        (
            b'{"imports":{"h":{"f":{"calls":[{"do":[{"call":"e"},{"write":0,"bytes":"04"}],"return":{"i32":1}},'
            b'{"return":{"i32":2}}]}}},"main":[{"call":"g"}]}'
        ),
        "7",
        12,
        "turns spent: 7",
    ),
    (
        "answers used up within an answer",
        NESTED_CALL,
        b'{"imports":{"h":{"f":{"calls":[{"do":[{"call":"e"}],"return":{"i32":1}}]}}},"main":[{"call":"g"}]}',
        "100",
        11,
        "script fault: turn 4 no response",
    ),
    (
        "a turn too few in copy_load",
        COPY_LOAD,
        b'{"imports":{"h":{"f":{"calls":[{"do":[{"write":8,"bytes":"85000001"}]}]}}},"main":[{"call":"g"}]}',
        "9",
        12,
        "turns spent: 9",
    ),
    (
        "a turn too few in table_growth",
        TABLE_GROWTH,
        (
            b'{"imports":{"h":{"f":{"calls":[{"do":[{"grow_table":4},{"set_table":5,"func":"b"}]}]}}},'
            b'"main":[{"call":"g"}]}'
        ),
        "5",
        12,
        "turns spent: 5",
    ),
    (
        "table_growth_refused",
        TABLE_GROWTH,
        b'{"imports":{"h":{"f":{"calls":[{"do":[{"grow_table":999999}]}]}}},"main":[{"call":"g"}]}',
        "100",
        11,
        "script fault: turn 3 grow refused",
    ),
    (
        "a growth of a table by one entry past the most",
        TABLE_GROWTH,
        b'{"main":[{"grow_table":999998},{"grow_table":1}]}',
        "100",
        11,
        "script fault: turn 2 grow refused",
    ),
    (
        "a growth of a table past its maximum",
        TABLE_OF_TWO,
        b'{"main":[{"grow_table":1},{"grow_table":1}]}',
        "100",
        11,
        "script fault: turn 2 grow refused",
    ),
    (
        "an entry past a table that grew",
        TABLE_OF_TWO,
        b'{"main":[{"grow_table":1},{"set_table":2,"func":null}]}',
        "100",
        11,
        "script fault: turn 2 table outside",
    ),
    (
        "an entry that a growth made",
        TABLE_OF_TWO,
        b'{"main":[{"grow_table":1},{"call_table":1}]}',
        "100",
        11,
        "script fault: turn 2 empty entry",
    ),
]

# Modules that `make` refuses before it reads the script, the status and the line.
MODULES = [
    (
        "two_answers, cut short after 40 bytes",
        # malformed: the code section says 9 bytes, and 3 are left; two_answers has `10 00 10 00 6a 0b` here
        bytes.fromhex("0061736d010000000105016000017f02070101680166000003020100070501016700010a09010700"),
        5,
        "malformed: at 35",
    ),
    (
        "two_answers with a type index in six bytes",
        # malformed: the encoding of the type index in the function section has six bytes, `80 80 80 80 80 00`,
        # and five are the most
        bytes.fromhex(
            "0061736d010000000105016000017f020701016801660000030701808080808000070501016700010a09010700100010006a0b"
        ),
        5,
        "malformed: at 24",
    ),
    (
        "two_answers with `nop`s in place of its second call",
        # (module (import "h" "f" (func (result i32))) (func (export "g") (result i32) call 0 nop nop i32.add))
        bytes.fromhex("0061736d010000000105016000017f02070101680166000003020100070501016700010a09010700100001016a0b"),
        6,
        "invalid: function 1",
    ),
    (
        "two memories",
        # (module (memory 0) (memory 0))
        bytes.fromhex("0061736d0100000005050200000000"),
        6,
        "invalid: module",
    ),
    ("f64.add in the third function", FLOAT_BODY, 7, "unsupported: function 2 instruction 3 float arithmetic"),
    (
        "a memory of 4,097 pages",
        # (module (memory 4097))
        bytes.fromhex("0061736d01000000050401008120"),
        8,
        "limit: memory 4097",
    ),
    (
        "two_answers with an import from `r3`",
        # (module (import "r3" "f" (func (result i32))) (func (export "g") (result i32) call 0 call 0 i32.add))
        bytes.fromhex("0061736d010000000105016000017f0208010272330166000003020100070501016700010a09010700100010006a0b"),
        8,
        "reserved: import 0",
    ),
]

# Scripts that `make` refuses before the run with status 9, and the line.
SCRIPTS = [
    (TWO_ANSWERS, b"{", "script: not json"),
    (TWO_ANSWERS, b'{"main":[{"jump":1}]}', "script: shape /main/0"),
    (TWO_ANSWERS, b'{"main":[{"call":"zz"}]}', "script: unknown zz"),
    (TWO_ANSWERS, b'{"main":[{"call":"g","args":[{"i32":1}]}]}', "script: type g"),
    (TWO_ANSWERS, b'{"main":[{"write":0,"bytes":"00"}]}', "script: no access memory"),
    (EXPORTED_IMPORT, ANSWERS, "script: calls own g"),
]

# Modules that `replay` refuses, the turns, the status and the line.
REPLAYS = [
    (
        "cut short",
        # the first 40 bytes of replay_two_answers
        # malformed: the export section says 10 bytes, and 6 are left
        bytes.fromhex("0061736d010000000108026000017f6000000304030000010606017f0141000b070a01065f737461"),
        "100",
        5,
        "malformed: at 32",
    ),
    (
        "a body that is not valid",
        # (module (func (export "_start") i32.const 0)), with a custom section "r3.layout" of the bytes 00 01 at the end
        bytes.fromhex(
            "0061736d0100000001040160000003020100070a01065f737461727400000a0601040041000b000c0972332e6c61796f75740001"
        ),
        "100",
        6,
        "invalid: function 0",
    ),
    (
        "an instruction that is refused",
        # (module (func (export "_start") f32.const 0 f32.abs drop)),
        #   with a custom section "r3.layout" of the bytes 00 01 at the end
        bytes.fromhex(
            "0061736d0100000001040160000003020100070a01065f737461727400000a0b01090043000000008b1a0b000c0972332e6c6179"
            "6f75740001"
        ),
        "100",
        7,
        "unsupported: function 0 instruction 1 float arithmetic",
    ),
    (
        "a large memory",
        # (module (memory 4097)), with a custom section "r3.layout" of the bytes 00 00 at the end
        bytes.fromhex("0061736d01000000050401008120000c0972332e6c61796f75740000"),
        "100",
        8,
        "limit: memory 4097",
    ),
    (
        "an import from `r3`",
        # (module (import "r3" "m" (memory 1)))
        bytes.fromhex("0061736d01000000020901027233016d020001"),
        "100",
        8,
        "reserved: import 0",
    ),
    ("no layout", TWO_ANSWERS, "100", 17, "replay: layout"),
    (
        "imports",
        # (module (import "h" "f" (func (result i32))) (func (export "g") (result i32) call 0 call 0 i32.add)), with a
        #   custom section "r3.layout" of the bytes 01 01 at the end
        bytes.fromhex(
            "0061736d010000000105016000017f02070101680166000003020100070501016700010a09010700100010006a0b000c0972332e"
            "6c61796f75740101"
        ),
        "100",
        17,
        "replay: imports",
    ),
    (
        "no entry",
        # (module (func)), with a custom section "r3.layout" of the bytes 00 01 at the end
        bytes.fromhex("0061736d01000000010401600000030201000a040102000b000c0972332e6c61796f75740001"),
        "100",
        17,
        "replay: entry",
    ),
    (
        "a data segment that passes the memory",
        # (module (memory 1) (func (export "_start")) (data (i32.const 0) "A") (data (i32.const 65536) "A")),
        #   with a custom section "r3.layout" of the bytes 00 01 at the end
        bytes.fromhex(
            "0061736d01000000010401600000030201000503010001070a01065f737461727400000a040102000b0b0f020041000b01410041"
            "8080040b0141000c0972332e6c61796f75740001"
        ),
        "100",
        10,
        "link: segment 1",
    ),
    ("a turn too few", REPLAY_TWO_ANSWERS, "18", 12, "turns spent: 18"),
]

# Scripts whose answers are used up by the run of the adder, and the line.
USED_UP = [
    (b'{"main":[{"call":"g"}]}', "script fault: turn 2 no response"),
    (
        (
            b'{"imports":{"h":{"f":{"calls":[{"return":{"i32":5}},{"return":{"i32":7}}]}}},"main":[{"call":"g"},'
            b'{"call":"g"}]}'
        ),
        "script fault: turn 6 no response",
    ),
]

# Commands, and words that are no number of turns that they take.
NO_TURNS = [
    ("make", "0"),
    ("make", "04"),
    ("make", "1000000001"),
    ("make", ""),
    ("make", "+4"),
    ("make", "99999999999999999999"),
    ("history", "0"),
    ("history", "04"),
    ("history", "2000001"),
    ("history", "1000000000"),
]

# Modules and scripts: what `make` prints shows what `history` prints.
MADE = [
    (
        "a memory",
        # (module (memory 1))
        bytes.fromhex("0061736d010000000503010001"),
        b"{}",
    ),
    ("a float global that the host sets", FLOAT_GLOBAL, SETTING),
    (
        "a host that writes",
        OVERWRITE,
        b'{"imports":{"h":{"f":{"calls":[{"do":[{"write":8,"bytes":"aabbccdd"}]}]}}},"main":[{"call":"g"}]}',
    ),
    ("a host that traps", TWO_ANSWERS, b'{"imports":{"h":{"f":{"calls":[{"trap":true}]}}},"main":[{"call":"g"}]}'),
    (
        "an answer to every call",
        TWO_ANSWERS,
        b'{"imports":{"h":{"f":{"rest":{"return":{"i32":5}}}}},"main":[{"call":"g"}]}',
    ),
    ("a host that calls in an answer", TWO_ANSWERS, CALLING),
    ("a host that calls in an answer, and a memory", NESTED_CALL, CALLING_TWICE),
    (
        "a call in an answer that traps",
        NESTED_TRAP,
        b'{"imports":{"h":{"f":{"calls":[{"do":[{"call":"e"}],"return":{"i32":1}}]}}},"main":[{"call":"g"}]}',
    ),
    ("a copy", COPY_LOAD, b"{}"),
    ("a host that grows a table", TABLE_GROWTH, b'{"main":[{"grow_table":999998}]}'),
]
