"""The calls of include/bagtag.h by way of tests/driver/library.c: what it is told, and what it gives."""

import pathlib
import re
import struct
import subprocess
import zlib
from typing import NamedTuple

HEADER = pathlib.Path(__file__).resolve().parents[2] / "include" / "bagtag.h"
NUMBERS = {name: int(number) for name, number in re.findall(r"(?m)^#define BAGTAG_(\w+) (\d+)\b", HEADER.read_text("utf-8"))}
IMAGE, RECORD, HEAD = NUMBERS["IMAGE"], NUMBERS["RECORD"], NUMBERS["HEAD"]
UNUSED = 0x77  # in what a call must fill
# The pieces that a call may change, by the driver's bits.
CHANGED_IMAGE, CHANGED_RECORD, CHANGED_REPLIES, CHANGED_PLACES, CHANGED_HEAD = 1, 2, 8, 32, 64
TIMEOUT = 120


class Died(Exception):
    """A program ended with another status than 0, or not by itself, or gave another number of bytes than it must."""

    def __init__(self, why, status=None, output=b""):
        super().__init__(why)
        self.status, self.output = status, output


def guarded(name, results):
    """Checks of which a program that died is one, and the last."""
    try:
        yield from results
    except Died as died:
        yield name, False, f"a program {died}"


class Made(NamedTuple):
    """What a new tag gave."""
    answer: int
    changed: int


class Event(NamedTuple):
    answer: int
    changed: int
    line: int
    is_ahead_wrong: int  # whether it does not hold what the header says of the slot by BAGTAG_SENDS


class LineEvent(NamedTuple):
    answer: int
    changed: int
    line: int
    is_alone_wrong: int  # whether its tags would have been left otherwise one by one


class Words(NamedTuple):
    answer: int
    changed: int
    done: int
    replies: bytes


class Listed(NamedTuple):
    answer: int
    changed: int
    places: tuple
    head: bytes


class Calls:
    """Calls in a row, with the image and the record that each leaves to the next."""

    def __init__(self):
        self.stdin, self.results, self.image_length, self.record_length = bytearray(), [], 0, 0

    def add(self, letter, data, size=0, read=None):
        """A command; what it gives is so many bytes, which `read` makes something of."""
        self.stdin += letter + data
        if read:
            self.results.append((size, read))

    def image(self, data):
        self.image_length = len(data)
        self.add(b"i", struct.pack("<I", len(data)) + data)

    def lend(self, length):
        self.image_length = length
        self.add(b"l", struct.pack("<I", length))

    def record(self, data):
        self.record_length = len(data)
        self.add(b"r", struct.pack("<I", len(data)) + data)

    def new(self, number, code):
        self.add(b"n", struct.pack("<QB", number, code), 2, lambda gave: Made(*gave))

    def events(self, triples):
        """Three bytes each. What they give stays as it comes, since there may be many: answers, changes, lines, ahead."""
        count = len(triples) // 3
        self.add(b"e", struct.pack("<I", count) + triples[:3 * count], 4 * count,
                 lambda gave: [gave[part::4] for part in range(4)])

    def event(self, code, reading):
        self.add(b"e", struct.pack("<IBBB", 1, code, reading >> 8, reading & 0xFF), 4, lambda gave: Event(*gave))

    def words(self, words, room):
        self.add(b"w", struct.pack(f"<II{len(words)}H", len(words), room, *words), 10 + room,
                 lambda gave: Words(*struct.unpack("<BBQ", gave[:10]), gave[10:]))

    def list(self, dump, places, head):
        self.add(b"d", struct.pack("<III", len(dump), places, head) + dump, 2 + 4 * places + head,
                 lambda gave: Listed(*gave[:2], struct.unpack(f"<{places}i", gave[2:2 + 4 * places]), gave[2 + 4 * places:]))

    def new_line(self, numbers, codes):
        """Image and record are the line's block and its records."""
        self.add(b"L", struct.pack(f"<II{len(numbers)}Q", len(numbers), len(codes), *numbers) + bytes(codes), 2,
                 lambda gave: Made(*gave))

    def line_events(self, tags, groups):
        """Four bytes each. What they give stays as it comes: answers, changes, lines, alone."""
        count = len(groups) // 4
        self.add(b"E", struct.pack("<BI", tags, count) + groups[:4 * count], 4 * count,
                 lambda gave: [gave[part::4] for part in range(4)])

    def line_event(self, tags, code, place, reading):
        self.add(b"E", struct.pack("<BIBBBB", tags, 1, code, place, reading >> 8, reading & 0xFF), 4,
                 lambda gave: LineEvent(*gave))

    def give_image(self):
        self.add(b"I", b"", self.image_length, bytes)

    def give_record(self):
        self.add(b"R", b"", self.record_length, bytes)

    # ---- Running ----

    def run(self, *drivers):
        """What each call gave, in their order. Drivers beside the first must give the same bytes."""
        chosen = str(zlib.crc32(self.stdin))  # at which end a piece lies: another for other calls
        outputs = [run([*driver, chosen], self.stdin) for driver in drivers]
        if any(output != outputs[0] for output in outputs):
            raise Died("gave other bytes under the address sanitizer")
        if len(outputs[0]) != sum(size for size, _ in self.results):
            raise Died(f"gave {len(outputs[0])} bytes")
        at, results = 0, []
        for size, read in self.results:
            results.append(read(outputs[0][at:at + size]))
            at += size
        return results


def run(driver, stdin):
    try:
        ran = subprocess.run(driver, input=stdin, stdout=subprocess.PIPE, stderr=subprocess.PIPE, timeout=TIMEOUT)
    except subprocess.TimeoutExpired:
        raise Died(f"has not ended after {TIMEOUT} seconds")
    if ran.returncode:
        said = re.search(rb"ERROR: (.*)", ran.stderr)
        raise Died(f"ended by signal {-ran.returncode}" if ran.returncode < 0 else
                   f"ended with status {ran.returncode}" + (f": {said[1].decode()}" if said else ""), ran.returncode, ran.stdout)
    return ran.stdout
