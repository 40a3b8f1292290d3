"""The module and the script of a load, as `load` makes them for a number of calls."""

# The module imports a function `h` `f`, and exports its memory `m` and two functions. `run` calls the import with 0, 1
# and so on, up to below its argument but at least once, and returns the sum of the answers and of the bytes at these
# addresses after each call. `tick` counts its calls in a global.
# (module (import "h" "f" (func (param i32) (result i32)))
#   (func (export "run") (param i32) (result i32) (local i32 i32) loop local.get 2 local.get 1 call 0 i32.add
#     local.get 1 i32.load8_u i32.add local.set 2 local.get 1 i32.const 1 i32.add local.tee 1 local.get 0 i32.lt_u
#     br_if 0 end local.get 2)
#   (func (export "tick") global.get 0 i32.const 1 i32.add global.set 0)
#   (memory (export "m") 1) (global (mut i32) (i32.const 0)))
LOAD_MODULE = bytes.fromhex(
    # the preamble
    "0061736d01000000"
    # types: [i32] -> [i32], [] -> []
    "01090260017f017f600000"
    # an import of a function, h f, of the first type
    "020701016801660000"
    # two functions, one of each type
    "0303020001"
    # a memory of a page
    "0503010001"
    # a mutable i32 that begins with 0
    "0606017f0141000b"
    # exports: run, tick, the memory m
    "0712030372756e0001047469636b0002016d0200"
    # bodies
    "0a30022401027f03402002200110006a20012d00006a2102200141016a22012000490d000b20020b0900230041016a24000b"
)


def response(call):
    """The response to a call: the host writes a byte at the address that is passed, calls back in each sixteenth call,
    and answers with the call's number."""
    tick = ',{"call":"tick"}' if call % 16 == 15 else ""
    byte = (7 * call + 3) % 256
    return '{"do":[{"write":{"arg":0},"bytes":"%02x"}%s],"return":{"i32":%d}}' % (byte, tick, call)


def load_script(number):
    """The script for a number of calls."""
    calls = ",".join(map(response, range(number)))
    main = '[{"call":"run","args":[{"i32":%d}]}]' % number
    return ('{"imports":{"h":{"f":{"calls":[%s]}}},"main":%s}' % (calls, main)).encode()


def sizes_of_tape(lines):
    """The number of segments of a tape and its weight, by the lines that `show` prints."""
    segments = weight = 0
    for line in lines.decode().splitlines()[1:]:
        word, *rest = line.split(" ")
        if word == "segment":
            segments += 1
        elif word == "bytes":
            weight += len(rest[1]) // 2
        elif word == "call":
            weight += len(rest)
        elif word == "return":
            weight += 1 + len(rest)
        elif word != "close":
            weight += 1
    return segments, weight
