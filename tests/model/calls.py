"""A new tag and events, with an image of any length and content, and a record in its ranges or out of them (document 01, "Events
and what they return"): the model of tests/driver/calls.c, with its standard input and output."""

import struct

from .tag import Tag, new

# The kinds of calls, as the driver has them: how much of the image is lent, two that are answered, and the record's fields.
LEND, NEW, EVENT, NUMBER, CODE, READING, MINUTE, WAIT, ENDING = range(9)
FIELDS = {CODE: "code", READING: "last_reading", MINUTE: "minute", WAIT: "until_conversion", ENDING: "ending_offset"}
LENGTH, CALL = struct.Struct("<I"), struct.Struct("<BQI")
LINE = 32  # bytes of the image


class Caller:
    """Who lends the image, and keeps the record between two calls: at first that of all zeros."""

    def __init__(self, image):
        self.image = bytearray(image)
        self.tag = Tag(bytes(8), 0, self.image[:])

    def lend(self, length):
        self.image[:len(self.tag.image)] = self.tag.image
        self.tag.image = self.image[:length]

    def call(self, kind, number, other):
        """The answer's number and the line bit, or None for a kind that has no answer. A new tag's bit is 1 (ruling 72)."""
        if kind == EVENT:
            return self.tag.event(number, other)
        if kind == NEW:
            answer, self.tag = new(number.to_bytes(8, "little"), other, self.tag.image)
            return answer, 1
        if kind == LEND:
            self.lend(number)
        elif kind == NUMBER:
            self.tag.rom = number.to_bytes(8, "little")
        else:
            setattr(self.tag, FIELDS[kind], number)
        self.tag.in_ranges = self.tag.keeps_ranges()
        return None


def stdin_of(image, calls):
    return LENGTH.pack(len(image)) + image + b"".join(CALL.pack(*call) for call in calls)


def taken(stdin):
    """The image, and the calls."""
    end = LENGTH.size + LENGTH.unpack_from(stdin)[0]
    rest = stdin[end:]
    return stdin[LENGTH.size:end], list(CALL.iter_unpack(rest[:len(rest) // CALL.size * CALL.size]))


def play(stdin):
    image, calls = taken(stdin)
    caller = Caller(image)
    answers = [caller.call(*call) for call in calls]
    caller.lend(0)
    lines = ["--" if answer is None else "%02d %d" % answer for answer in answers]
    lines += [caller.image[at:at + LINE].hex().upper() for at in range(0, len(image), LINE)]
    return "".join(line + "\n" for line in lines).encode()
