"""What an object file holds: its sections and its symbols. For little-endian ELF files of 32 and of 64 bits."""

import struct
from collections import namedtuple

WRITTEN, ALLOCATED, RUN = 0x1, 0x2, 0x4  # flags of a section
SYMBOLS = 2  # the kind of a section that has them

Section = namedtuple("Section", "name kind flags at size linked")


def is_wide(data):
    return data[4] == 2


def text_at(data, at):
    return data[at:data.index(b"\0", at)].decode()


def sections(path):
    data = path.read_bytes()
    start, = struct.unpack_from("<Q", data, 0x28) if is_wide(data) else struct.unpack_from("<I", data, 0x20)
    each, count, names = struct.unpack_from("<HHH", data, 0x3A if is_wide(data) else 0x2E)
    form = "<IIQQQQI" if is_wide(data) else "<IIIIIII"
    heads = [struct.unpack_from(form, data, start + each * place) for place in range(count)]
    return [Section(text_at(data, heads[names][4] + name), kind, flags, at, size, linked)
            for name, kind, flags, _, at, size, linked in heads]


def symbols(path):
    """The names that other files see: those that are defined here, and those that are wanted."""
    data, found = path.read_bytes(), {True: set(), False: set()}
    parts = sections(path)
    form = "<IBBHQQ" if is_wide(data) else "<IIIBBH"
    for table in (part for part in parts if part.kind == SYMBOLS):
        for at in range(table.at, table.at + table.size, struct.calcsize(form)):
            head = struct.unpack_from(form, data, at)
            info, section = (head[1], head[3]) if is_wide(data) else (head[3], head[5])
            name = text_at(data, parts[table.linked].at + head[0])
            if name and info >> 4:  # 0 is for this file alone
                found[section != 0].add(name)
    return found[True], found[False]


def sizes(*paths):
    """The bytes of code, of constants and of variables in all."""
    held = [part for path in paths for part in sections(path) if part.flags & ALLOCATED]
    return (sum(part.size for part in held if part.flags & RUN),
            sum(part.size for part in held if part.name.startswith(".rodata")),
            sum(part.size for part in held if part.flags & WRITTEN))
