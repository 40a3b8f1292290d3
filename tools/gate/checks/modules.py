"""Small modules, logs and tapes as bytes, written by the binary formats alone."""
import hashlib
import os

from group import EXAMPLES, contents

MAGIC = b"\0asm\x01\0\0\0"
I32, I64, F32, F64 = 0x7F, 0x7E, 0x7D, 0x7C
FUNC, TABLE, MEMORY, GLOBAL = range(4)
LOG, TAPE = b"r3lg", b"r3tp"


def u32(number):
    """The shortest unsigned LEB128 of a number."""
    low, rest = number & 0x7F, number >> 7
    return bytes([low]) if rest == 0 else bytes([low | 0x80]) + u32(rest)


def last_within(places, length):
    """The last of the places in a file that is within its first bytes; 0 if there is none."""
    return max((place for place in places if place <= length), default=0)


def s32(number):
    """The shortest signed LEB128 of a number."""
    low, rest = number & 0x7F, number >> 7
    is_last = (rest == 0 and low < 64) or (rest == -1 and low >= 64)
    return bytes([low]) if is_last else bytes([low | 0x80]) + s32(rest)


def vector(items):
    return u32(len(items)) + b"".join(items)


def name(text):
    return u32(len(text)) + text.encode()


def section(number, items):
    data = vector(items)
    return bytes([number]) + u32(len(data)) + data if items else b""


def func_type(params, results):
    return b"\x60" + vector([bytes([it]) for it in params]) + vector([bytes([it]) for it in results])


def limits(least, most=None):
    return b"\0" + u32(least) if most is None else b"\1" + u32(least) + u32(most)


def code(body, locals_of_i32=0):
    """A function's code: locals of type i32, and a body without its last `end`."""
    runs = [u32(locals_of_i32) + bytes([I32])] if locals_of_i32 else []
    data = vector(runs) + body + b"\x0b"
    return u32(len(data)) + data


def global_of(value_type, is_mutable, init):
    """A global with a constant expression, without its `end`."""
    return bytes([value_type, is_mutable]) + init + b"\x0b"


def module(
    types=(),
    imports=(),
    funcs=(),
    tables=(),
    memories=(),
    globals_=(),
    exports=(),
    start=None,
    elements=(),
    bodies=(),
    datas=(),
    customs=(),
):
    """A module: types of pairs of lists, imports of two names and the rest, types of functions by index, limits of
    tables and memories, globals, exports of a name, a kind and an index, the start function, lists of functions at 0 in
    the table, bodies, bytes at 0 in the memory, custom sections."""
    return b"".join(
        [
            MAGIC,
            section(1, [func_type(*it) for it in types]),
            section(2, [name(first) + name(second) + rest for first, second, rest in imports]),
            section(3, [u32(it) for it in funcs]),
            section(4, [b"\x70" + it for it in tables]),
            section(5, list(memories)),
            section(6, list(globals_)),
            section(7, [name(text) + bytes([kind]) + u32(index) for text, kind, index in exports]),
            b"" if start is None else b"\x08" + u32(len(u32(start))) + u32(start),
            section(9, [b"\0\x41\0\x0b" + vector([u32(it) for it in funcs_at_0]) for funcs_at_0 in elements]),
            section(10, [code(it) if isinstance(it, bytes) else code(*it) for it in bodies]),
            section(11, [b"\0\x41\0\x0b" + u32(len(it)) + it for it in datas]),
            *(custom(*it) for it in customs),
        ]
    )


def custom(text, data):
    whole = name(text) + data
    return b"\0" + u32(len(whole)) + whole


def trace(kind, module_bytes, rest, version=1):
    """The file of a log or a tape of a module: its header and the bytes behind the digest."""
    return kind + bytes([version]) + hashlib.sha256(module_bytes).digest() + rest


def example(file):
    return contents(os.path.join(EXAMPLES, file))


def section_ends(binary):
    """Where the sections of a module end, the magic's end first, and the numbers of the sections."""
    ends, numbers, place = [8], [None], 8
    while place < len(binary):
        numbers.append(binary[place])
        size = shift = 0
        place += 1
        while True:
            byte = binary[place]
            size |= (byte & 0x7F) << shift
            shift += 7
            place += 1
            if byte < 0x80:
                break
        place += size
        ends.append(place)
    return ends, numbers
