"""The programs (document 01, "What is built", and request #106): standard input in, standard output out. Those that take
events answer each before they read the next."""

import io

from . import board, dock
from .tag import IMAGE_LENGTH, new

HEAD = 9  # eight ROM bytes and the code
BIT = (b"0\n", b"1\n")


def play(stdin):
    return b"".join(playing(io.BytesIO(stdin)))


def playing(file):
    """What is printed, part by part."""
    head = file.read(HEAD).ljust(HEAD, b"\0")
    number, tag = new(head[:8], head[8], bytearray(IMAGE_LENGTH))
    if number:
        yield refusal(number)
        return
    yield from answers(file, 3, lambda code, high, low: tag.event(code, high << 8 | low))


def shed(stdin, kind=board.Board):
    return b"".join(shedding(io.BytesIO(stdin), kind))


def shedding(file, kind=board.Board):
    """What is printed, part by part, with a board of that kind."""
    heads = heads_in(file)
    number, line = board.new(heads, IMAGE_LENGTH * len(heads), kind)
    if number:
        yield refusal(number)
        return
    yield from answers(file, 4, lambda code, place, high, low: line.event(code, place, high << 8 | low))


def heads_in(file):
    """A number and a code for each tag that the count says. None is read of more than seven, which are refused at once."""
    count = int.from_bytes(file.read(1), "little")
    head = file.read(HEAD * count if count <= board.MOST_TAGS else 0).ljust(HEAD * count, b"\0")
    return [(head[at:at + 8], head[at + 8]) for at in range(0, len(head), HEAD)]


def answers(file, width, event):
    """To the events, groups of so many bytes, up to a refusal. A short last group is dropped."""
    while len(group := file.read(width)) == width:
        number, bit = event(*group)
        yield refusal(number) if number else BIT[bit]
        if number:
            return


def refusal(number):
    return b"R%02d\n" % number


def list_(stdin):
    return dock.listing(stdin)
