"""The inputs of the measurement, made with the independent model of tests/: each is what play or list reads.

slots: a reader at a tag with passwords, over and over: Read ROM, a search, a write and read back of the scratchpad, pages
of the log read with a wrong and a right password. seconds, minutes: ticks in a mission that converts every second (16-bit
entries, rollover) or every minute. dump: a log of 8,192 entries, full and rolled over. bench/count also takes ticks of which
none but the first converts, and a dump of 4,096 entries. The same events go to the programs of lists as words. Those for a line of
several tags are what shed reads.
"""

import pathlib
import random
import struct
import sys

sys.path.insert(0, str(pathlib.Path(__file__).resolve().parent.parent / "tests"))

import boards  # noqa: E402
from model import board, dock, tag  # noqa: E402
from model.crc import crc8  # noqa: E402
from model.master import BoardMaster, Master  # noqa: E402
from model.programs import HEAD  # noqa: E402

PLAYED = {
    "slots": "slots of a reader's commands",
    "seconds": "ticks in a mission, a conversion every second",
    "minutes": "ticks in a mission, a conversion every minute",
}
LEAST_EVENTS = 2_000_000
# How many words a list has; and how many events go to the programs of lists, which take 1,048,576 words, the set-up's included.
LIST_SIZES = (64, 4096)
LISTED_EVENTS = 1_000_000
# How many tags a line has.
COUNTS = (1, 2, 4, 7)
ROM = bytes.fromhex("412BC5FB000000")
ROM += bytes((crc8(ROM),))
CODE = 0x40
# An input of play that has no event.
NEW_TAG = ROM + bytes((CODE,))
# A tick's code as an event of play, and the word of one with reading 0 in a list.
TICK, FIRST_TICK = 3, 4096
FULL, READ = b"GROWER-1", b"INSPECT1"

# Mission control: EHSS, entries of two bytes, rollover.
SECONDS = {"clock_control": 0x03, "rate": 1, "control": 0xD5}
MINUTES = {"clock_control": 0x01, "rate": 1, "control": 0xD5}
# One conversion in 982,980 seconds.
SELDOM = {"clock_control": 0x01, "rate": 16383, "control": 0xD5}
# One byte an entry: all 8,192 places.
BYTES = {"clock_control": 0x03, "rate": 1, "control": 0xD1}


def new_master():
    number, made = tag.new(ROM, CODE, bytearray(tag.IMAGE_LENGTH))
    assert number == 0
    return Master(made)


def set_up(master, settings, *tags):
    """Registers, passwords, Clear and Start, by Skip: the next tick is the first of the mission of these tags."""
    registers = bytearray(32)
    registers[0x00:0x06] = bytes.fromhex("000012150126")
    registers[0x06:0x08] = settings["rate"].to_bytes(2, "little")
    registers[0x08:0x0A] = bytes((0x52, 0x66))
    registers[0x10] = 0x03
    registers[0x12], registers[0x13] = settings["clock_control"], settings["control"]
    master.store(0x0200, registers)
    master.store(0x0220, bytes(7) + b"\xAA" + READ + FULL + bytes(8))
    master.skip()
    master.clear(FULL)
    master.skip()
    master.start(FULL)
    assert all(each.byte_at(0x0215) & 0x02 for each in tags), "the mission runs"


def readings(rng):
    """A bag's readings: they wander, across both thresholds now and then."""
    reading = 700
    while True:
        reading = min(2047, max(0, reading + rng.randint(-3, 3)))
        yield reading


def events_of(master, before, least):
    """A header, what was played before, and the rest of what was played, repeated until it is long enough."""
    return NEW_TAG + repeated(master.triples, before, least * 3)


def repeated(events, before, least):
    """The first of these bytes, and the others again and again, at least so many."""
    body = bytes(events[before:])
    return bytes(events[:before]) + body * -(-least // len(body))


def slots(least):
    master = new_master()
    set_up(master, SECONDS, master.tag)
    before = len(master.triples)
    master.read_rom()
    master.search(ROM)
    master.match(ROM)
    master.write_scratchpad(0x0000, bytes(range(32)))
    master.resume()
    master.read_scratchpad()
    for page in range(0x1000, 0x1100, 0x20):
        master.skip()
        master.read_memory(page, 32, b"SOMEBODY")
        master.skip()
        master.read_memory(page, 32, READ)
    return events_of(master, before, least)


def ticks(settings, count):
    master = new_master()
    set_up(master, settings, master.tag)
    wander = readings(random.Random(1))
    events = bytearray()
    for _ in range(count):
        reading = next(wander)
        events += bytes((TICK, reading >> 8, reading & 0xFF))
    return NEW_TAG + bytes(master.triples) + bytes(events)


def full_dump(settings):
    master = new_master()
    set_up(master, settings, master.tag)
    wander = readings(random.Random(2))
    for _ in range(9000):
        master.tick(next(wander))
    return dock.dump(master.tag)


def played(count):
    """The inputs that are played, of at least so many events."""
    return {"slots": slots(count), "seconds": ticks(SECONDS, count), "minutes": ticks(MINUTES, count)}


def write_all(files):
    """Writes every input to its file; returns the number of events of each that is played."""
    made = {**played(LEAST_EVENTS), "dump": full_dump(BYTES), "empty": b""}
    for name, path in files.items():
        path.write_bytes(made[name])
    return {name: events_in(made[name]) for name in PLAYED}


def events_in(given):
    """How many events an input of play has."""
    return (len(given) - len(NEW_TAG)) // 3


def in_lists(given, size):
    """The tag and the events of an input of play as tests/driver/lists.c takes them: so many words a list, the last one what is
    left, and a reply byte each."""
    words = [FIRST_TICK + reading if code == TICK else code for code, reading in struct.iter_unpack(">BH", given[len(NEW_TAG):])]
    sizes = [min(size, len(words) - at) for at in range(0, len(words), size)]
    return (struct.pack("<II", tag.IMAGE_LENGTH, len(sizes)) + given[:len(NEW_TAG)]
            + b"".join(struct.pack("<II", each, each) for each in sizes) + struct.pack(f"<{len(words)}H", *words))


# ---- A line of several tags: the bytes that shed reads, with at least so many events ----

def new_line(count, settings):
    """A master at a line of so many tags, each in a mission, and what stands before its events."""
    heads = [(rom, CODE) for rom in boards.different_numbers(random.Random(3), count)]
    number, made = board.new(heads, tag.IMAGE_LENGTH * count)
    assert number == 0
    master = BoardMaster(made)
    set_up(master, settings, *made.tags)
    return master, boards.head_of(heads)


def line_slots(choose, count, least):
    """A reader at the tags that `choose` chooses: the scratchpad written and read back, pages of the log read with a wrong and
    with a right password."""
    master, head = new_line(count, SECONDS)
    before = len(master.groups)
    choose(master)
    master.write_scratchpad(0x0000, bytes(range(32)))
    choose(master)
    master.read_scratchpad()
    for page in range(0x1000, 0x1100, 0x20):
        for password in (b"SOMEBODY", READ):
            choose(master)
            master.read_memory(page, 32, password)
    return head + repeated(master.groups, before, least * boards.WIDTH)


def match_last(master):
    master.match(master.tag.tags[-1].rom)


def line_resets(count, least):
    master, head = new_line(count, SECONDS)
    before = len(master.groups)
    master.long_reset()
    return head + repeated(master.groups, before, least * boards.WIDTH)


def line_ticks(settings, count, least):
    """For one tag after the other."""
    master, head = new_line(count, settings)
    wander = readings(random.Random(1))
    ticked = (struct.pack(">BBH", TICK, at % count, next(wander)) for at in range(least))
    return head + bytes(master.groups) + b"".join(ticked)


def line_events_in(given):
    """How many events an input of shed has."""
    return (len(given) - 1 - HEAD * given[0]) // boards.WIDTH
