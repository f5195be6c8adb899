"""Cases and groups of the stored list, as oracle/PROTOCOL.md has them, for the commands here that are written in Python."""
import struct

NAME = 44


def case(numbers, data, image):
    """A case by its number, a, b, c, width and height."""
    head = struct.pack("<8Q", *numbers, len(data), len(image))
    return head + data + struct.pack("<%dI" % len(image), *image)


def answer(number, extra, image):
    return struct.pack("<2I", number, extra) + struct.pack("<%dI" % len(image), *image)


def append(folder, name, pairs):
    """Appends a group of cases, each with the answer that is due, to the files stdin and stdout of a folder."""
    head = name.ljust(NAME).encode() + struct.pack("<2I", len(pairs), 0)
    assert len(head) == NAME + 8
    with open(folder / "stdin", "ab") as cases:
        cases.write(head + b"".join(question + due for question, due in pairs))
    with open(folder / "stdout", "a") as lines:
        lines.write("%s%d cases, 0 differ\n" % (name.ljust(NAME), len(pairs)))
