"""A reader of PKM, KTX 1, KTX 2, DDS and sheets, written from their public texts, for oracle/files to hold the library to.

open_file(bytes) gives the facts of a file and its levels, or raises Refused with a number. One rule stands above the texts: a field
that decides no pixel never refuses a file; what decides pixels must be there and fit.

A container is known by its whole identifier: "PKM ", "DDS ", the twelve bytes of KTX 1 or KTX 2, or a sheet's first six bytes; anything
else, be it a part of one, is refused with 21. Where several things are wrong with a file the first of these is answered:

    20  the header is not whole (of KTX 2 the 80 bytes; of DDS with FourCC DX10 all 148)
    22  PKM's version, KTX 1's byte order
    25  a volume, an array or a cube
    41  supercompressed (KTX 2); before the format, since vkFormat is 0 in files of BasisLZ
    23  the format
    26  no pixel
    1   a side above 65,536
    24  PKM's padded sizes; more levels than halving the larger side down to 1 gives
    37, 24  level by level from the largest: a field of its place or length that is not there (37), a length that is not its blocks' (24),
        bytes of it that are not there (37)

A sheet is walked as oracle/sheets walks it, and refused with its own numbers before 26. The order is a convention, the library's own.
"""
import struct
from collections import namedtuple

Facts = namedtuple("Facts", "container format srgb width height levels big_endian orientation left_over")
Level = namedtuple("Level", "width height start length")

PKM, KTX1, KTX2, DDS, SHEET = 1, 2, 3, 4, 5
UNTOLD, TOP_DOWN, BOTTOM_UP = 0, 1, 2
LIMIT = 65536
SHEET_LIMIT = 16384

# The formats by their numbers.
(ETC1, RGB, RGBA1, RGBA8, R, R_SIGNED, RG, RG_SIGNED, BC1, BC1A, BC3, BC7, BC2, BC4, BC4_SIGNED, BC5, BC5_SIGNED) = range(17)
WIDE = {RGBA8, RG, RG_SIGNED, BC3, BC7, BC2, BC5, BC5_SIGNED}  # 16 bytes to a block, the others 8

# Those that the library reads.
READ = set(range(BC5_SIGNED + 1))


class Refused(Exception):
    """With the number of the refusal."""

    number = property(lambda self: self.args[0])


def need(holds, number):
    if not holds:
        raise Refused(number)


def blocks(form, width, height):
    """The bytes of a picture's blocks, each of 4 by 4 pixels."""
    return (width + 3) // 4 * ((height + 3) // 4) * (16 if form in WIDE else 8)


def halved(side, n):
    return max(1, side >> n)


def known(table, number):
    """The format of a number in a table, and whether it is sRGB."""
    need(number in table and table[number][0] in READ, 23)
    return table[number]


def sized(width, height):
    need(width and height, 26)
    need(width <= LIMIT and height <= LIMIT, 1)


def counted(levels, width, height):
    """How many levels there are, of a field in which 0 means one: no more than until both sides are 1."""
    need(levels <= max(width, height).bit_length(), 24)
    return max(1, levels)


def open_file(data):
    for start, reader in READERS:
        if data.startswith(start):
            return reader(data)
    raise Refused(21)


def file_level(data, n):
    levels = open_file(data)[1]
    need(n < len(levels), 38)
    return levels[n]


# PKM, from etcpack: "PKM ", the version in two digits, then 16-bit numbers, the highest byte first: the type, the width and the height
# rounded up to whole blocks, and the width and the height. The types are those of etcpack's list; number 2 was an older RGBA.

PKM_TYPES = {
    0: (ETC1, 0),
    1: (RGB, 0),
    3: (RGBA8, 0),
    4: (RGBA1, 0),
    5: (R, 0),
    6: (RG, 0),
    7: (R_SIGNED, 0),
    8: (RG_SIGNED, 0),
    9: (RGB, 1),
    10: (RGBA8, 1),
    11: (RGBA1, 1),
}


def pkm(data):
    need(len(data) >= 16, 20)
    version = data[4:6]
    need(version in (b"10", b"20"), 22)
    number, padded_width, padded_height, width, height = struct.unpack_from(">5H", data, 6)
    form, srgb = known(PKM_TYPES if version == b"20" else {0: (ETC1, 0)}, number)
    sized(width, height)
    need((padded_width, padded_height) == ((width + 3) // 4 * 4, (height + 3) // 4 * 4), 24)
    level = Level(width, height, 16, blocks(form, width, height))
    end = level.start + level.length
    need(end <= len(data), 37)
    return Facts(PKM, form, srgb, width, height, 1, 1, UNTOLD, len(data) - end), [level]


# KTX 1: the identifier, then thirteen 32-bit words in the byte order that the first of them tells.

GL = {
    0x8D64: (ETC1, 0),
    0x9270: (R, 0),
    0x9271: (R_SIGNED, 0),
    0x9272: (RG, 0),
    0x9273: (RG_SIGNED, 0),
    0x9274: (RGB, 0),
    0x9275: (RGB, 1),
    0x9276: (RGBA1, 0),
    0x9277: (RGBA1, 1),
    0x9278: (RGBA8, 0),
    0x9279: (RGBA8, 1),
    0x83F0: (BC1, 0),
    0x83F1: (BC1A, 0),
    0x83F2: (BC2, 0),
    0x83F3: (BC3, 0),
    0x8C4C: (BC1, 1),
    0x8C4D: (BC1A, 1),
    0x8C4E: (BC2, 1),
    0x8C4F: (BC3, 1),
    0x8DBB: (BC4, 0),
    0x8DBC: (BC4_SIGNED, 0),
    0x8DBD: (BC5, 0),
    0x8DBE: (BC5_SIGNED, 0),
    0x8E8C: (BC7, 0),
    0x8E8D: (BC7, 1),
}


def ktx1(data):
    need(len(data) >= 64, 20)
    order = {b"\1\2\3\4": "<", b"\4\3\2\1": ">"}.get(bytes(data[12:16]))
    need(order, 22)
    words = struct.unpack_from(order + "12I", data, 16)
    internal, width, height, depth, elements, faces, levels, pairs = words[3:4] + words[5:12]
    need(depth <= 1 and elements <= 1 and faces <= 1, 25)
    form, srgb = known(GL, internal)
    sized(width, height)
    found, at = [], 64 + pairs
    for n in range(counted(levels, width, height)):
        level = Level(halved(width, n), halved(height, n), at + 4, blocks(form, halved(width, n), halved(height, n)))
        need(at + 4 <= len(data), 37)
        need(struct.unpack_from(order + "I", data, at)[0] == level.length, 24)
        at = level.start + level.length  # which is a multiple of 4, so nothing is padded
        need(at <= len(data), 37)
        found.append(level)
    way = orientation(data, order, 64, pairs, slice(3, 7), {b",T=d": TOP_DOWN, b",T=u": BOTTOM_UP})
    return Facts(KTX1, form, srgb, width, height, len(found), int(order == ">"), way, len(data) - at), found


KEYS = (b"KTXorientation\0", b"KTXOrientation\0")  # the text's, and Qt's


def orientation(data, order, start, size, place, ways):
    """What key and value data tells of the rows: a few bytes at a place of the value that the key has, the last one where it has several.

    A pair has a 32-bit size, the key and a 0, the value, and padding to four bytes. Data that is no run of pairs tells nothing.
    """
    if start > len(data) or size > len(data) - start:
        return UNTOLD
    at, stop, told = start, start + size, UNTOLD
    while at != stop:
        if at + 4 > stop:
            return UNTOLD
        length = struct.unpack_from(order + "I", data, at)[0]
        following = at + 4 + (length + 3) // 4 * 4
        if following > stop:
            return UNTOLD
        if data[at + 4 : at + 19] in KEYS:
            told = ways.get(bytes(data[at + 19 : at + 4 + length][place]), UNTOLD)
        at = following
    return told


# KTX 2: the identifier, nine 32-bit words, the places of three more parts, and the level index; all little-endian.

VK = {
    131: (BC1, 0),
    132: (BC1, 1),
    133: (BC1A, 0),
    134: (BC1A, 1),
    135: (BC2, 0),
    136: (BC2, 1),
    137: (BC3, 0),
    138: (BC3, 1),
    139: (BC4, 0),
    140: (BC4_SIGNED, 0),
    141: (BC5, 0),
    142: (BC5_SIGNED, 0),
    145: (BC7, 0),
    146: (BC7, 1),
    147: (RGB, 0),
    148: (RGB, 1),
    149: (RGBA1, 0),
    150: (RGBA1, 1),
    151: (RGBA8, 0),
    152: (RGBA8, 1),
    153: (R, 0),
    154: (R_SIGNED, 0),
    155: (RG, 0),
    156: (RG_SIGNED, 0),
}


def ktx2(data):
    need(len(data) >= 80, 20)
    number, _, width, height, depth, layers, faces, levels, scheme, _, _, pairs, pairs_size = struct.unpack_from("<13I", data, 12)
    need(depth <= 1 and layers <= 1 and faces <= 1, 25)
    need(scheme == 0, 41)
    form, srgb = known(VK, number)
    sized(width, height)
    levels = counted(levels, width, height)
    found = []
    for n in range(levels):
        need(104 + 24 * n <= len(data), 37)
        start, length = struct.unpack_from("<2Q", data, 80 + 24 * n)
        level = Level(halved(width, n), halved(height, n), start, blocks(form, halved(width, n), halved(height, n)))
        need(length == level.length, 24)
        need(start + length <= len(data), 37)
        found.append(level)
    way = orientation(data, "<", pairs, pairs_size, slice(0, 2), {b"rd": TOP_DOWN, b"ru": BOTTOM_UP})
    end = max(level.start + level.length for level in found)
    return Facts(KTX2, form, srgb, width, height, levels, 0, way, len(data) - end), found


# DDS: "DDS ", a header of 124 bytes in 32-bit words, and with FourCC DX10 five words more; all little-endian.

FOURCC = {
    b"DXT1": (BC1A, 0),
    b"DXT2": (BC2, 0),
    b"DXT3": (BC2, 0),
    b"DXT4": (BC3, 0),
    b"DXT5": (BC3, 0),
    b"ATI1": (BC4, 0),
    b"BC4U": (BC4, 0),
    b"BC4S": (BC4_SIGNED, 0),
    b"ATI2": (BC5, 0),
    b"BC5U": (BC5, 0),
    b"BC5S": (BC5_SIGNED, 0),
}

DXGI = {
    **{n: (BC1A, int(n == 72)) for n in (70, 71, 72)},
    **{n: (BC2, int(n == 75)) for n in (73, 74, 75)},
    **{n: (BC3, int(n == 78)) for n in (76, 77, 78)},
    79: (BC4, 0),
    80: (BC4, 0),
    81: (BC4_SIGNED, 0),
    82: (BC5, 0),
    83: (BC5, 0),
    84: (BC5_SIGNED, 0),
    **{n: (BC7, int(n == 99)) for n in (97, 98, 99)},
}
HAS_FOURCC = 4
CUBE, VOLUME = 0x200, 0x200000
DX10_CUBE = 4


def dds(data):
    need(len(data) >= 128, 20)
    height, width, _, _, levels = struct.unpack_from("<5I", data, 12)
    flags, fourcc = struct.unpack_from("<I4s", data, 80)
    caps2 = struct.unpack_from("<I", data, 112)[0]
    table, number, at, flat = FOURCC, fourcc if flags & HAS_FOURCC else None, 128, True
    if number == b"DX10":
        table, at = DXGI, 148
        need(len(data) >= at, 20)
        number, dimension, misc, array = struct.unpack_from("<4I", data, 128)
        flat = dimension in (0, 3) and not misc & DX10_CUBE and array <= 1
    need(flat and not caps2 & (CUBE | VOLUME), 25)
    form, srgb = known(table, number)
    sized(width, height)
    found = []
    for n in range(counted(levels, width, height)):
        level = Level(halved(width, n), halved(height, n), at, blocks(form, halved(width, n), halved(height, n)))
        at += level.length
        need(at <= len(data), 37)
        found.append(level)
    return Facts(DDS, form, srgb, width, height, len(found), 0, UNTOLD, len(data) - at), found


# Sheets, from request M-101: records of a 32-bit length, a 16-bit kind and the payload; all little-endian.


def sheet(data):
    at, head, level = 0, None, None
    while at < len(data):
        need(at + 6 <= len(data), 7)
        length, kind = struct.unpack_from("<IH", data, at)
        start, at = at + 6, at + 6 + length
        need(at <= len(data), 7)
        if head is None:
            need(kind == 1 and length == 9 and data[start] <= 7, 8)
            head = struct.unpack_from("<BII", data, start)
            need(head[1] <= SHEET_LIMIT and head[2] <= SHEET_LIMIT, 1)
        elif kind < 0x8000:
            need(kind == 2, 9)
            need(level is None and length == blocks(*head), 10)
            level = Level(head[1], head[2], start, length)
    need(level is not None, 10)
    sized(level.width, level.height)
    left_over = len(data) - level.start - level.length
    return Facts(SHEET, head[0], 0, level.width, level.height, 1, 0, UNTOLD, left_over), [level]


READERS = (
    (b"PKM ", pkm),
    (b"\xabKTX 11\xbb\r\n\x1a\n", ktx1),
    (b"\xabKTX 20\xbb\r\n\x1a\n", ktx2),
    (b"DDS ", dds),
    (b"\x09\0\0\0\x01\0", sheet),
)
