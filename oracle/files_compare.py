#!/usr/bin/python3 -B
"""Holds what the library answers of texture files to others; oracle/files collects the files and builds the programs.

Answers: what open_file and file_level tell of every file equals what oracle/files.py tells. Besides the files as they are these are
tried: big-endian twins of KTX 1, KTX 2 files and sheets made of the levels of the others, since no program here writes one; every
truncation, and every change of one byte to 16 other values, of one small file of each kind; and random changes of two to four fields
together, so that the order of the refusals is seen.

Pixels: each level of each accepted file equals what Mesa shows of its blocks, of ETC1 what Android's libETC1 does. Besides, by file:
etc1tool's own decoding, piglit's published results, and level 0 of DDS in Pillow, ImageMagick and nvdecompress.

It asks for Debian's own Python, since python3-pil is installed for that one and another may come first on the path.
"""
import argparse
import array
import collections
import pathlib
import random
import shutil
import struct
import subprocess
import sys
import tempfile

from PIL import Image

import files
from files import BC1A, BC2, BC3, BC4_SIGNED, BC5_SIGNED, BC7, ETC1, R, RG_SIGNED

ENDINGS = (".ktx", ".ktx2", ".pkm", ".dds")
MOST = 65536  # the elements of a case of oracle/PROTOCOL.md
SHOWN_ALIKE = {BC1A, BC2, BC3, BC7}  # what other readers of DDS show as colours; of one or two channels each shows something of its own
ROUNDED = {BC4_SIGNED, BC5_SIGNED}  # where Mesa rounds towards zero (docs/DIFFERENCES.md)


def told(data):
    """What the reader of the texts tells, as oracle/files.c prints it."""
    try:
        facts, levels = files.open_file(data)
    except files.Refused as refused:
        return " | ".join([str(refused.number)] * 3)
    rows = [facts, *levels]
    return " | ".join(["0 " + " ".join(map(str, row)) for row in rows] + ["38", "38"])


class Library:
    """oracle/files.c with the archive."""

    def __init__(self, program):
        self.program = program

    def run(self, datas, words=()):
        with tempfile.TemporaryFile() as given:
            for data in datas:
                given.write(struct.pack("<Q", len(data)) + data)
            given.seek(0)
            done = subprocess.run([self.program, *words], stdin=given, stdout=subprocess.PIPE, check=False)
        if done.returncode:
            sys.exit("files: the program that opens them ended with %d" % done.returncode)
        return done.stdout

    def answers(self, datas):
        got = self.run(datas).decode().splitlines()
        if len(got) != len(datas):
            sys.exit("files: %d answers to %d files" % (len(got), len(datas)))
        return got

    def pixels(self, data):
        """The pixels of every level of an accepted file, each four bytes, blue first."""
        line, shown = self.run([data], ["pixels"]).split(b"\n", 1)
        levels = [list(map(int, part.split())) for part in line.decode().split(" | ")[1:-2]]
        found, at = [], 0
        for _, width, height, _, _ in levels:
            found.append(shown[at : at + 4 * width * height])
            at += 4 * width * height
        return found


class Decoder:
    """A program that speaks oracle/PROTOCOL.md."""

    def __init__(self, program):
        self.running = subprocess.Popen([program], stdin=subprocess.PIPE, stdout=subprocess.PIPE, stderr=subprocess.DEVNULL)

    def ask(self, reader, width, height, data):
        head = struct.pack("<8Q", reader, 0, 0, 0, width, height, len(data), width * height)
        self.running.stdin.write(head + data + bytes(4 * width * height))
        self.running.stdin.flush()
        shown = self.running.stdout.read(8 + 4 * width * height)
        if len(shown) != 8 + 4 * width * height:
            sys.exit("files: a decoder ended")
        return shown[8:]


def byte_of(sixteen, signed):
    """The byte of a value whose eleven bits Mesa repeats to sixteen."""
    value = abs(sixteen) // 32 * (-1 if sixteen < 0 else 1)
    return (value + 1023 if signed else value) // 8


def eac_pixels(form, words):
    """The pixels of Mesa's red + 65536 * green."""
    signed, has_green = form % 2 == 1, form > files.R_SIGNED
    halves = array.array("h" if signed else "H", words)
    pixels = bytearray()
    for k in range(0, len(halves), 2):
        green = byte_of(halves[k + 1], signed) if has_green else 0
        pixels += bytes([0, green, byte_of(halves[k], signed), 255])
    return bytes(pixels)


class Second:
    """Mesa and, for ETC1, Android's libETC1: the pixels of blocks, in bands of rows of blocks that a case has room for."""

    def __init__(self, room):
        self.mesa, self.android = Decoder(room / "mesa"), Decoder(room / "android")

    def pixels(self, form, level, data):
        decoder = self.android if form == ETC1 else self.mesa
        rows = MOST // level.width // 4 * 4
        if not rows:
            return None
        shown = b""
        for top in range(0, level.height, rows):
            height = min(rows, level.height - top)
            band = data[level.start + files.blocks(form, level.width, top) :][: files.blocks(form, level.width, height)]
            words = decoder.ask(form, level.width, height, band)
            shown += eac_pixels(form, words) if R <= form <= RG_SIGNED else words
        return shown


class Report:
    """Counts, how many of each differ, and the first of those in full."""

    def __init__(self):
        self.counts, self.differing, self.aside = collections.Counter(), collections.Counter(), collections.Counter()

    def count(self, what, same, name, *facts):
        self.counts[what] += 1
        if same:
            return
        self.differing[what] += 1
        if self.differing[what] <= 3:
            print("%s differ: %s" % (what, name), *facts, sep="\n    ")

    def show(self):
        for what, count in self.counts.items():
            print("%8d %s%s" % (count, what, ", %d differ" % self.differing[what] if self.differing[what] else ""))
        for what, count in self.aside.items():
            print("%8d %s, left aside" % (count, what))
        print("%d compared, %d differences" % (sum(self.counts.values()), sum(self.differing.values())))


# Files of the kinds that no program here writes, made of the levels of those that one does.


def pair_of(order, value):
    """Key and value data that tell the orientation."""
    pair = b"KTXorientation\0" + value + b"\0"
    return struct.pack(order + "I", len(pair)) + pair + bytes(-len(pair) % 4)


def other_order(data):
    """The big-endian twin of a little-endian KTX 1 file without key and value data, with a pair that tells the orientation."""
    pairs = pair_of(">", b"S=r,T=u")
    twin = bytearray(data)
    twin[60:64] = struct.pack("<I", len(pairs))
    for at in list(range(12, 64, 4)) + [level.start - 4 for level in files.open_file(data)[1]]:
        twin[at : at + 4] = twin[at : at + 4][::-1]
    return bytes(twin[:64]) + pairs + bytes(twin[64:])


def as_ktx2(data):
    """The same levels as a KTX 2 file: the smallest first, and a pair that tells the orientation."""
    facts, levels = files.open_file(data)
    number = next((n for n, told in files.VK.items() if told == (facts.format, facts.srgb)), None)
    if number is None:  # ETC1 has none
        return None
    pairs = pair_of("<", b"rd")
    at = 80 + 24 * len(levels) + len(pairs)
    index, body = [], b""
    for level in reversed(levels):
        index.insert(0, struct.pack("<3Q", at + len(body), level.length, level.length))
        body += data[level.start : level.start + level.length]
    head = struct.pack("<9I", number, 1, facts.width, facts.height, 0, 0, 1, len(levels), 0)
    places = struct.pack("<4I2Q", 0, 0, at - len(pairs), len(pairs), 0, 0)
    return b"\xabKTX 20\xbb\r\n\x1a\n" + head + places + b"".join(index) + pairs + body


def as_sheet(data):
    """Level 0 as a sheet, with a record behind it that is skipped."""
    facts, levels = files.open_file(data)
    if facts.format > RG_SIGNED:
        return None
    body = data[levels[0].start :][: levels[0].length]
    head = struct.pack("<IHBII", 9, 1, facts.format, facts.width, facts.height)
    return head + struct.pack("<IH", len(body), 2) + body + struct.pack("<IH", 3, 0x8001) + b"abc"


def is_accepted(data):
    return told(data).startswith("0 ")


def twins(found):
    """More files of those that were found: names and bytes."""
    for name, data in found.items():
        if not is_accepted(data):
            continue
        if data.startswith(b"\xabKTX 11") and data[60:64] == bytes(4):
            yield name + ", big-endian", other_order(data)
        for kind, made in (("KTX 2", as_ktx2(data)), ("sheet", as_sheet(data))):
            if made:
                yield "%s, as %s" % (name, kind), made


# Damaged files.


def truncations(data):
    return [data[:length] for length in range(len(data))]


def one_byte_changes(data, chance):
    """Each byte with 16 other values: each of its bits turned over, the ends, and some by chance."""
    for at, byte in enumerate(data):
        values = dict.fromkeys([byte ^ 1 << k for k in range(8)] + [0, 255, (byte + 1) % 256, (byte - 1) % 256])
        values.pop(byte, None)
        while len(values) < 16:
            values.setdefault(chance.choice([v for v in range(256) if v != byte]))
        for value in values:
            yield data[:at] + bytes([value]) + data[at + 1 :]


# Where the numbers of each kind's header stand, of a sheet from the end too, and how wide they are.
FIELDS = {
    b"PKM ": [(4, 2), (6, 2), (8, 2), (10, 2), (12, 2), (14, 2)],
    b"\xabKTX 11": [(at, 4) for at in range(12, 68, 4)],
    b"\xabKTX 20": [(at, 4) for at in range(12, 64, 4)] + [(at, 8) for at in range(64, 128, 8)],
    b"DDS ": [(at, 4) for at in range(4, 148, 4)],
    b"\x09\0\0\0": [(6, 1), (7, 4), (11, 4), (15, 4), (19, 2), (-9, 4), (-5, 2)],
}
NUMBERS = [0, 1, 2, 3, 4, 5, 6, 7, 8, 9, 12, 13, 16, 17, 21, 22, 64, 255, 256, 512, 16384, 16385, 65535, 65536, 65537, 2**21, 2**31 - 1]
NUMBERS += [2**31, 2**32 - 4, 2**32 - 1, 2**32, 2**63, 2**64 - 16, 2**64 - 8, 2**64 - 1, 0x01020304, 0x04030201, 0x3130, 0x3230]
NUMBERS += [*files.GL, *files.VK, *files.DXGI, *(int.from_bytes(name, "little") for name in files.FOURCC), 0x30315844]


def random_changes(data, count, chance):
    """Two to four fields of the header with other numbers, in either byte order, and sometimes a truncation."""
    fields = next(fields for start, fields in FIELDS.items() if data.startswith(start))
    for _ in range(count):
        changed = bytearray(data)
        for at, size in chance.sample(fields, chance.randint(2, 4)):
            at, order = at % len(data), chance.choice(["little", "big"])
            near = int.from_bytes(data[at : at + size], order) + chance.randint(-4, 4)
            number = chance.choice([near, near, chance.choice(NUMBERS), chance.choice(NUMBERS), chance.getrandbits(8 * size)])
            changed[at : at + size] = (number % 256**size).to_bytes(size, order)
        length = chance.randint(0, len(data)) if chance.random() < 0.1 else len(data)
        yield bytes(changed[:length])


def damaged(small, count, seed):
    """Damaged files of each kind."""
    chance = random.Random(seed)
    for name, data in small.items():
        yield name + ", truncated", truncations(data)
        yield name + ", one byte changed", list(one_byte_changes(data, chance))
        yield name + ", fields changed by chance", list(random_changes(data, count, chance))


def shortest(found, start, also, levels):
    """The shortest accepted file of two blocks across or more, and so many levels, that begins so; and its name."""
    fits = []
    for name, data in found.items():
        if data.startswith(start) and also in data[:148] and is_accepted(data):
            facts = files.open_file(data)[0]
            fits += [(len(data), name)] if facts.width > 4 and facts.levels >= levels else []
    return min(fits)[1], found[min(fits)[1]]


def small_files(found):
    """One small file of each kind."""
    kinds = [(b"PKM ", b"", 1), (b"\xabKTX 11", b"\1\2\3\4", 3), (b"\xabKTX 11", b"\4\3\2\1", 3), (b"\xabKTX 20", b"", 3)]
    kinds += [(b"DDS ", b"DXT", 3), (b"DDS ", b"DX10", 1), (b"\x09\0\0\0", b"", 1)]
    return dict(shortest(found, *kind) for kind in kinds)


# What programs show of whole files: pixels of level 0, four bytes each, blue first; or None.


def blue_first(image):
    red, green, blue, alpha = image.convert("RGBA").split()
    return Image.merge("RGBA", (blue, green, red, alpha)).tobytes()


def pillow(path):
    try:
        return blue_first(Image.open(path))
    except (NotImplementedError, OSError):
        return None


def imagemagick(path):
    done = subprocess.run(["convert-im6", "DDS:%s[0]" % path, "-depth", "8", "BGRA:-"], capture_output=True, check=False)
    return done.stdout if done.returncode == 0 else None


def nvdecompress(path):
    """What the decoder beside nvcompress shows: it writes a picture where it is run."""
    with tempfile.TemporaryDirectory() as folder:
        shutil.copy(path, pathlib.Path(folder) / "in.dds")
        subprocess.run(["nvdecompress", "in.dds"], cwd=folder, capture_output=True, check=True)
        return pillow(pathlib.Path(folder) / "in.tga")


def published(path, form):
    """piglit's result of a compressed file, level by level. A format of one channel is shown there as grey: only its red is taken."""
    name = path.name.replace("-compressed", "-decompressed").replace("-decompressed-etc1", "-decompressed-rgb")
    data = (path.parent / name).read_bytes()
    channels, width, height, levels = (4 if word(data, 24) == 0x1908 else 3), word(data, 36), word(data, 40), word(data, 56)
    at = 64 + word(data, 60)
    for n in range(max(1, levels)):
        size = word(data, at)
        texels = data[at + 4 : at + 4 + size]
        at += 4 + (size + 3) // 4 * 4
        assert size == channels * files.halved(width, n) * files.halved(height, n)
        pixels = (texels[k : k + channels] + b"\xff" for k in range(0, size, channels))
        yield b"".join(bytes([0, 0, p[0], p[3]] if form == R else [p[2], p[1], p[0], p[3]]) for p in pixels)


def word(data, at):
    return struct.unpack_from("<I", data, at)[0]


def compare_whole(path, facts, shown, report):
    """Level 0 as programs show the whole file, and piglit's levels."""
    own = path.with_name(path.name + ".png")
    if own.exists():
        report.count("pictures as etc1tool shows them", pillow(own) == shown[0], path)
    if path.parent.name == "nvcompress" and facts.format in SHOWN_ALIKE:
        report.count("pictures as nvdecompress shows them", nvdecompress(path) == shown[0], path)
    if path.suffix == ".dds" and facts.format in SHOWN_ALIKE:
        for reader, name in ((pillow, "Pillow"), (imagemagick, "ImageMagick")):
            seen = reader(path)
            if seen is None:
                report.aside["DDS files that %s does not read" % name] += 1
            else:
                report.count("pictures as %s shows them" % name, seen == shown[0], path)
    if path.name.startswith("waffles-compressed"):
        for level, due in zip(shown, published(path, facts.format)):
            report.count("levels as piglit publishes them", level == due, path)


def compare_pixels(found, paths, library, room, report):
    second = Second(room)
    for name, data in found.items():
        if not is_accepted(data):
            continue
        facts, levels = files.open_file(data)
        shown = library.pixels(data)
        for n, level in enumerate(levels):
            due = second.pixels(facts.format, level, data)
            if due is None:
                report.aside["levels too wide for a second decoder"] += 1
            elif facts.format in ROUNDED:
                near = all(abs(a - b) <= 1 for a, b in zip(due, shown[n], strict=True))
                report.count("levels of signed BC4 and BC5 as Mesa shows them, within one", near, name, "level %d" % n)
            else:
                report.count("levels as a second decoder shows them", due == shown[n], name, "level %d" % n)
        if name in paths:
            compare_whole(paths[name], facts, shown, report)


def compare_answers(what, datas, names, library, report):
    for name, data, got in zip(names, datas, library.answers(datas)):
        report.count(what, got == told(data), name, "library %s" % got, "texts   %s" % told(data), data[:160].hex())


def collect(room, groups):
    """The files by their names, and their places."""
    folder = room / "files"
    every = (path for group in groups for path in sorted((folder / group).rglob("*")))
    paths = {str(path.relative_to(folder)): path for path in every if path.suffix in ENDINGS}
    return {name: path.read_bytes() for name, path in paths.items()}, paths


def main():
    options = argparse.ArgumentParser(description=__doc__, formatter_class=argparse.RawDescriptionHelpFormatter)
    options.add_argument("--room", type=pathlib.Path, required=True)
    options.add_argument("--seed", type=int, default=1)
    options.add_argument("--random", type=int, default=20000)
    options.add_argument("groups", nargs="+", help="folders of ROOM/files")
    chosen = options.parse_args()
    library, report = Library(chosen.room / "files-opened"), Report()
    found, paths = collect(chosen.room, chosen.groups)
    kinds = collections.Counter("%s, %s" % (name.split("/")[1], told(data).split(" ")[0]) for name, data in found.items())
    for kind, count in sorted(kinds.items()):
        print("%8d files of %s" % (count, kind))
    found.update(dict(twins(found)))
    compare_answers("files, and twins of them, answered", list(found.values()), list(found), library, report)
    for what, datas in damaged(small_files(found), chosen.random, chosen.seed):
        compare_answers(what, datas, ["%s %d" % (what, n) for n in range(len(datas))], library, report)
    compare_pixels(found, paths, library, chosen.room, report)
    report.show()
    sys.exit(bool(report.differing))


if __name__ == "__main__":
    main()
