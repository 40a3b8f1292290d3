"""Runs whose lines were worked out by hand. Each row of a module's table is `- NAME | TURNS | SCRIPT => LINES`."""
from modules import example

# Modules with their runs.
RUNS = [
    (
        example("two_answers.wasm"),
        """
- two_answers | 4 | {"imports":{"h":{"f":{"calls":[{"return":{"i32":5}},{"return":{"i32":7}}]}}},
  "main":[{"call":"g"}]}
  => host-call 1; step 1 0 ->; import-call 0; import-return 0 i32:00000005; step 1 1 ->; import-call 0;
  import-return 0 i32:00000007; step 1 2 i32:00000005 i32:00000007 -> i32:0000000c; host-return 1 i32:0000000c;
  ended
- two_answers, a host that calls nothing | 100 | {"main":[]}
  => ended
- two_answers, a host that traps | 100 | {"imports":{"h":{"f":{"calls":[{"trap":true}]}}},"main":[{"call":"g"}]}
  => host-call 1; step 1 0 ->; import-call 0; host-trap; host-trapped
- two_answers in the most turns | 2000000 | {"imports":{"h":{"f":{"calls":[{"return":{"i32":5}},
  {"return":{"i32":7}}]}}},"main":[{"call":"g"}]}
  => host-call 1; step 1 0 ->; import-call 0; import-return 0 i32:00000005; step 1 1 ->; import-call 0;
  import-return 0 i32:00000007; step 1 2 i32:00000005 i32:00000007 -> i32:0000000c; host-return 1 i32:0000000c;
  ended
""",
    ),
    (
        example("empty.wasm"),
        """
- empty | 1 | {}
  => ended
""",
    ),
    (
        example("overwrite.wasm"),
        """
- overwrite | 100 | {"imports":{"h":{"f":{"calls":[{"do":[{"write":8,"bytes":"aabbccdd"}]}]}}},
  "main":[{"call":"g"}]}
  => host-call 1; step 1 0 ->; import-call 0; import-return 0; step 1 1 -> i32:00000008;
  step 1 2 -> i32:00000001; step 1 3 i32:00000008 i32:00000001 ->; step 1 4 -> i32:00000008;
  step 1 5 i32:00000008 -> i32:ddcc0001; host-return 1 i32:ddcc0001; ended
- overwrite_unread | 100 | {"imports":{"h":{"f":{"calls":[{"do":[{"write":100,"bytes":"ff"}]}]}}},
  "main":[{"call":"g"}]}
  => host-call 1; step 1 0 ->; import-call 0; import-return 0; step 1 1 -> i32:00000008;
  step 1 2 -> i32:00000001; step 1 3 i32:00000008 i32:00000001 ->; step 1 4 -> i32:00000008;
  step 1 5 i32:00000008 -> i32:00000001; host-return 1 i32:00000001; ended
""",
    ),
    (
        example("grow_access.wasm"),
        """
- grow_access | 100 | {"imports":{"h":{"f":{"calls":[{"do":[{"grow":1}]}]}}},"main":[{"call":"g"}]}
  => host-call 1; step 1 0 ->; import-call 0; import-return 0; step 1 1 -> i32:00010000;
  step 1 2 -> i32:00000009; step 1 3 i32:00010000 i32:00000009 ->; host-return 1; ended
- grow_access_none | 100 | {"imports":{"h":{"f":{"calls":[{}]}}},"main":[{"call":"g"}]}
  => host-call 1; step 1 0 ->; import-call 0; import-return 0; step 1 1 -> i32:00010000;
  step 1 2 -> i32:00000009; trap 1 3 memory i32:00010000 i32:00000009 found 1; trapped
""",
    ),
    (
        example("grow_failed.wasm"),
        """
- grow_failed | 100 | {"imports":{"h":{"f":{"calls":[{"do":[{"grow":4}]}]}}},"main":[{"call":"g"}]}
  => host-call 1; step 1 0 ->; import-call 0; import-return 0; step 1 1 -> i32:00000003;
  step 1 2 i32:00000003 -> i32:ffffffff found 8; host-return 1 i32:ffffffff; ended
""",
    ),
    (
        example("table_entry.wasm"),
        """
- table_entry | 100 | {"imports":{"h":{"f":{"calls":[{"do":[{"set_table":0,"func":"b"}]}]}}},
  "main":[{"call":"g"}]}
  => host-call 1; step 1 0 ->; import-call 0; import-return 0; step 1 1 -> i32:00000000;
  trap 1 2 signature i32:00000000 found 3; trapped
- table_entry_null | 100 | {"imports":{"h":{"f":{"calls":[{"do":[{"set_table":0,"func":null}]}]}}},
  "main":[{"call":"g"}]}
  => host-call 1; step 1 0 ->; import-call 0; import-return 0; step 1 1 -> i32:00000000;
  trap 1 2 empty i32:00000000; trapped
- table_entry, a host that calls by the table in an answer | 100 |
  {"imports":{"h":{"f":{"calls":[{"do":[{"call_table":0}]}]}}},"main":[{"call":"g"}]}
  => host-call 1; step 1 0 ->; import-call 0; host-call 2; step 2 0 -> i32:00000007; host-return 2 i32:00000007;
  import-return 0; step 1 1 -> i32:00000000; step 1 2 i32:00000000 -> found 2; enter 2;
  step 2 0 -> i32:00000007; exit 2 i32:00000007; host-return 1 i32:00000007; ended
""",
    ),
    (
        example("table_entry_import.wasm"),
        """
- table_entry_import | 100 | {"imports":{"h":{"f":{"calls":[{"do":[{"set_table":0,"func":"b"}]}]}}},
  "main":[{"call":"g"}]}
  => host-call 1; step 1 0 ->; import-call 0; import-return 0; step 1 1 -> i32:00000000;
  trap 1 2 signature i32:00000000 found 0; trapped
""",
    ),
    (
        example("float_global.wasm"),
        """
- float_global | 100 | {"imports":{"h":{"f":{"calls":[{"do":[{"set_global":"x",
  "value":{"f32":2141192193}}]}]}}},"main":[{"call":"g"}]}
  => host-call 1; step 1 0 ->; import-call 0; import-return 0; step 1 1 -> f32:7fa00001;
  host-return 1 f32:7fa00001; ended
""",
    ),
    (
        example("imported_offset.wasm"),
        """
- imported_offset | 100 | {"globals":{"h":{"b":{"i32":16}}},"main":[{"call":"g"}]}
  => host-call 0; step 0 0 -> i32:00000010; step 0 1 i32:00000010 -> i32:00000041; host-return 0 i32:00000041;
  ended
""",
    ),
    (
        example("c_buffers.wasm"),
        """
- c_buffers | 29 | {"imports":{"env":{"read":{"calls":[{"do":[{"write":{"arg":0},"bytes":"68690a00"},
  {"write":{"arg":2},"bytes":"03000000"}],"return":{"i32":0}}]}}},"main":[{"call":"run"}]}
  => host-call 1; step 1 0 -> i32:00010400; step 1 1 -> i32:00000010;
  step 1 2 i32:00010400 i32:00000010 -> i32:000103f0; step 1 3 i32:000103f0 -> i32:000103f0;
  step 1 4 i32:000103f0 ->; step 1 5 -> i32:000103f0; step 1 6 -> i32:00000004; step 1 7 -> i32:000103f0;
  step 1 8 -> i32:00000008; step 1 9 i32:000103f0 i32:00000008 -> i32:000103f8;
  step 1 10 i32:000103f0 i32:00000004 i32:000103f8 ->; import-call 0 i32:000103f0 i32:00000004 i32:000103f8;
  import-return 0 i32:00000000; step 1 11 i32:00000000 ->; step 1 12 -> i32:000103f0;
  step 1 13 i32:000103f0 -> i32:000a6968; step 1 14 -> i32:000103f0; step 1 15 i32:000103f0 -> i32:00000003;
  step 1 16 i32:000a6968 i32:00000003 -> i32:000a696b; step 1 17 -> i32:00000001;
  step 1 18 i32:000a696b i32:00000001 -> found 2; enter 2; step 2 0 -> i32:000a696b; step 2 1 -> i32:00000001;
  step 2 2 i32:000a696b i32:00000001 -> i32:0014d2d6; exit 2 i32:0014d2d6; step 1 19 -> i32:000103f0;
  step 1 20 -> i32:00000010; step 1 21 i32:000103f0 i32:00000010 -> i32:00010400; step 1 22 i32:00010400 ->;
  host-return 1 i32:0014d2d6; ended
""",
    ),
    (
        example("nested_call.wasm"),
        """
- nested_call | 8 | {"imports":{"h":{"f":{"calls":[{"do":[{"call":"e"},{"write":0,"bytes":"04"}],
  "return":{"i32":1}},{"return":{"i32":2}}]}}},"main":[{"call":"g"}]}
  => host-call 1; step 1 0 ->; import-call 0; host-call 2; step 2 0 ->; import-call 0;
  import-return 0 i32:00000002; host-return 2 i32:00000002; import-return 0 i32:00000001;
  step 1 1 -> i32:00000000; step 1 2 i32:00000000 -> i32:00000004;
  step 1 3 i32:00000001 i32:00000004 -> i32:00000005; host-return 1 i32:00000005; ended
- nested_call, a host that traps in the inner answer | 4 | {"imports":{"h":{"f":{"calls":[{"do":[{"call":"e"}],
  "return":{"i32":1}},{"trap":true}]}}},"main":[{"call":"g"}]}
  => host-call 1; step 1 0 ->; import-call 0; host-call 2; step 2 0 ->; import-call 0; host-trap; host-trapped
""",
    ),
    (
        example("nested_trap.wasm"),
        """
- nested_trap | 4 | {"imports":{"h":{"f":{"calls":[{"do":[{"call":"e"},{"write":0,"bytes":"04"}],
  "return":{"i32":1}},{"return":{"i32":2}}]}}},"main":[{"call":"g"}]}
  => host-call 1; step 1 0 ->; import-call 0; host-call 2; trap 2 0 unreachable; trapped
""",
    ),
    (
        example("copy_load.wasm"),
        """
- copy_load | 10 | {"imports":{"h":{"f":{"calls":[{"do":[{"write":8,"bytes":"85000001"}]}]}}},
  "main":[{"call":"g"}]}
  => host-call 1; step 1 0 ->; import-call 0; import-return 0; step 1 1 -> i32:00000000;
  step 1 2 -> i32:00000008; step 1 3 -> i32:00000004; step 1 4 i32:00000000 i32:00000008 i32:00000004 ->;
  step 1 5 -> i32:00000000; step 1 6 i32:00000000 -> i32:01000085; step 1 7 i32:01000085 -> i32:ffffff85;
  host-return 1 i32:ffffff85; ended
""",
    ),
    (
        example("fill_past.wasm"),
        """
- fill_past | 100 | {"imports":{"h":{"f":{"calls":[{}]}}},"main":[{"call":"g"}]}
  => host-call 1; step 1 0 ->; import-call 0; import-return 0; step 1 1 -> i32:0000ffff;
  step 1 2 -> i32:00000007; step 1 3 -> i32:00000002;
  trap 1 4 memory i32:0000ffff i32:00000007 i32:00000002 found 1; trapped
- fill_past_grown | 100 | {"imports":{"h":{"f":{"calls":[{"do":[{"grow":1}]}]}}},"main":[{"call":"g"}]}
  => host-call 1; step 1 0 ->; import-call 0; import-return 0; step 1 1 -> i32:0000ffff;
  step 1 2 -> i32:00000007; step 1 3 -> i32:00000002; step 1 4 i32:0000ffff i32:00000007 i32:00000002 ->;
  host-return 1; ended
""",
    ),
    (
        example("table_growth.wasm"),
        """
- table_growth | 6 | {"imports":{"h":{"f":{"calls":[{"do":[{"grow_table":4},{"set_table":5,"func":"b"}]}]}}},
  "main":[{"call":"g"}]}
  => host-call 1; step 1 0 ->; import-call 0; import-return 0; step 1 1 -> i32:00000005;
  trap 1 2 signature i32:00000005 found 3; trapped
- table_growth_past | 100 | {"imports":{"h":{"f":{"calls":[{"do":[{"grow_table":2}]}]}}},"main":[{"call":"g"}]}
  => host-call 1; step 1 0 ->; import-call 0; import-return 0; step 1 1 -> i32:00000005;
  trap 1 2 table i32:00000005 found 4; trapped
- table_growth_none | 100 | {"imports":{"h":{"f":{"calls":[{}]}}},"main":[{"call":"g"}]}
  => host-call 1; step 1 0 ->; import-call 0; import-return 0; step 1 1 -> i32:00000005;
  trap 1 2 table i32:00000005 found 2; trapped
- a table of as many entries as there may be | 4 | {"main":[{"grow_table":999997},{"grow_table":1},
  {"set_table":999999,"func":"b"},{"call_table":999999}]}
  => host-call 3; host-return 3; ended
""",
    ),
]

# A memory of 4,096 pages is the largest that is accepted.
LARGEST_MEMORY = [
    (
        # (module (memory 4096))
        bytes.fromhex("0061736d01000000050401008020"),
        """
- 4,096 pages | 1 | {} => ended
""",
    ),
]
