"""Logs and tapes, the lines that `show` prints of them, and files that it refuses, worked out by hand."""
from modules import LOG, TAPE

# The digest that each of the files has.
DIGEST = bytes(range(32))

# The log of a run in which a function calls an import twice, which answers 5 and 7: the bytes after the digest.
LOG_OF_TWO_ANSWERS = bytes.fromhex("0101010003010004017f0500000003010004017f07000000020110")
# The lines of that log after the first.
LOG_LINES_OF_TWO_ANSWERS = b"""enter 1
pre 0
post i32:00000005
pre 0
post i32:00000007
leave 1
ended
"""

# The tape of the run with two answers: the bytes after the digest.
TAPE_OF_TWO_ANSWERS = bytes.fromhex("000020010001000021017f0500000001000021017f070000000200222f")
# The lines of that tape after the first.
TAPE_LINES_OF_TWO_ANSWERS = b"""segment begin
call 1
segment import 0
return i32:00000005
segment import 0
return i32:00000007
segment back
end
close
"""

# A log with each kind of event: the bytes after the digest.
EACH_EVENT = bytes.fromhex(
    "010101027f050000007e060000000000000002010301000300040004017d0000803f0502060a05070a02ccdd0800010308010009027c"
    "000000000000f03f11"
)
# The lines of that log after the first.
LINES_OF_EACH_EVENT = b"""enter 1 i32:00000005 i64:0000000000000006
leave 1
pre 0
pre none
post
post f32:3f800000
grow 2
seen
table 5
bytes 10 ccdd
entry 0 3
entry 1 none
global 2 f64:3ff0000000000000
trapped
"""

# A tape with each kind of effect: the bytes after the digest.
EACH_EFFECT = bytes.fromhex("000505020a05070a02ccdd0800010309027f0700000021000201080100232f")
# The lines of that tape after the first.
LINES_OF_EACH_EFFECT = b"""segment begin
grow 2
table 5
bytes 10 ccdd
entry 0 3
global 2 i32:00000007
return
segment back
entry 1 none
trap
close
"""

# Files that are shown: the first bytes, the version, the bytes after the digest, and the lines after the first.
SHOWN = [
    ("a log", LOG, 2, LOG_OF_TWO_ANSWERS, LOG_LINES_OF_TWO_ANSWERS),
    ("a log of the first version", LOG, 1, LOG_OF_TWO_ANSWERS, LOG_LINES_OF_TWO_ANSWERS),
    ("each kind of event", LOG, 2, EACH_EVENT, LINES_OF_EACH_EVENT),
    ("a tape", TAPE, 2, TAPE_OF_TWO_ANSWERS, TAPE_LINES_OF_TWO_ANSWERS),
    ("a tape of the first version", TAPE, 1, TAPE_OF_TWO_ANSWERS, TAPE_LINES_OF_TWO_ANSWERS),
    ("each kind of effect", TAPE, 2, EACH_EFFECT, LINES_OF_EACH_EFFECT),
]

# Files that are refused: the first bytes, the version, the bytes after the digest, and the line. The header of a log
# with few imported functions has 38 bytes, that of a tape 37.
DAMAGED = [
    ("the third version of a log", LOG, 3, LOG_OF_TWO_ANSWERS, "trace: version 3"),
    ("the third version of a tape", TAPE, 3, TAPE_OF_TWO_ANSWERS, "trace: version 3"),
    ("version 255", LOG, 255, b"", "trace: version 255"),
    ("neither a log nor a tape", b"r3lh", 2, LOG_OF_TWO_ANSWERS, "trace: bad at 0"),
    ("no number of imports", LOG, 2, b"", "trace: bad at 0"),
    ("a table in the first version", LOG, 1, bytes.fromhex("010a0510"), "trace: bad at 38"),
    ("a long number", LOG, 2, bytes.fromhex("0102810010"), "trace: bad at 38"),
    ("no outcome", LOG, 2, bytes.fromhex("010206"), "trace: bad at 40"),
    ("a byte after the outcome", LOG, 2, bytes.fromhex("01061000"), "trace: bad at 40"),
    ("no segments and no end", TAPE, 2, b"", "trace: bad at 37"),
    ("a byte after the end", TAPE, 2, bytes.fromhex("2f00"), "trace: bad at 38"),
    ("a tape's segment in a log", LOG, 2, bytes.fromhex("0100002001002f"), "trace: bad at 38"),
]

# Files with their length, and with the places at which their header ends, and each of their events or segments.
WHOLE_PARTS = [
    (LOG, LOG_OF_TWO_ANSWERS, 64, [38, 41, 44, 51, 54, 61, 63]),
    (TAPE, TAPE_OF_TWO_ANSWERS, 66, [37, 42, 52, 62, 65]),
]
