"""Reads pictures in the format PNG: 8 bits a channel, no palette, not interlaced."""
import struct
import zlib

CHANNELS = {0: 1, 2: 3, 4: 2, 6: 4}


def chunks(data):
    at = 8
    while at < len(data):
        length, kind = struct.unpack(">I4s", data[at : at + 8])
        yield kind, data[at + 8 : at + 8 + length]
        at += length + 12


def nearest(left, above, corner):
    """The predictor of Paeth."""
    guess = left + above - corner
    by_distance = sorted(((abs(guess - value), place) for place, value in enumerate((left, above, corner))))
    return (left, above, corner)[by_distance[0][1]]


def unfiltered(kind, line, above, width):
    """The bytes of a line, of which `width` are a pixel."""
    out = bytearray(line)
    for place, byte in enumerate(line):
        left = out[place - width] if place >= width else 0
        corner = above[place - width] if place >= width else 0
        if kind == 1:
            out[place] = (byte + left) & 255
        elif kind == 2:
            out[place] = (byte + above[place]) & 255
        elif kind == 3:
            out[place] = (byte + (left + above[place]) // 2) & 255
        elif kind == 4:
            out[place] = (byte + nearest(left, above[place], corner)) & 255
    return out


def pixels(data, rows):
    """The first rows of a picture, each a list of pixels, which are tuples of channels."""
    if data[:8] != b"\x89PNG\r\n\x1a\n":
        raise ValueError("the file is no PNG")
    found = dict(chunks(data))
    columns, _, depth, colour, _, _, interlaced = struct.unpack(">IIBBBBB", found[b"IHDR"])
    if depth != 8 or colour not in CHANNELS or interlaced:
        raise ValueError("a form of PNG that is not read here")
    packed = zlib.decompress(b"".join(part for kind, part in chunks(data) if kind == b"IDAT"))
    width = CHANNELS[colour]
    length = width * columns
    above, lines = bytes(length), []
    for row in range(rows):
        begin = row * (length + 1)
        above = unfiltered(packed[begin], packed[begin + 1 : begin + 1 + length], above, width)
        lines.append([tuple(above[place : place + width]) for place in range(0, length, width)])
    return lines
