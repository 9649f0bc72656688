"""Trials for tests/driver/calls.c: a new tag and events, called for as no program of ours does.

The image has any length and content, and the record is put together field by field, in its ranges and out of them. As with
the sessions, everything comes from a seed and a number.
"""

import random

import sessions
from model import calls
from model.calls import CODE, ENDING, EVENT, LEND, MINUTE, NEW, NUMBER, READING, WAIT
from model.crc import crc8
from model.master import Master
from model.tag import (
    CODE_L, CODE_T, DELAY, DEVICE_SAMPLES, ETL, IMAGE_LENGTH, LARGEST_COUNT, LARGEST_READING, LONGEST_PERIOD, MIP,
    MISSION_SAMPLES, PASSWORD_CONTROL, RATE, READ_ROM, RO, STATUS, SUTA, TLFS, Tag)

# Too short or too long: by a byte, by what the low byte of a length doesn't show, and the longest by what the low two don't.
LONGEST = IMAGE_LENGTH + 65536
OTHER_LENGTHS = (0, 1, 8576, 8831, 8833, 9088, 2 * IMAGE_LENGTH, LONGEST)
OTHER_CODES = (0x00, 0x20, 0x41, 0x50, 0x61, 0xC0, 0xFF)
# Where a count of three bytes carries, and its end.
COUNTS = (0xFE, 0xFFFE, *range(LARGEST_COUNT - 3, LARGEST_COUNT + 1), LARGEST_COUNT)


class Caller(Master):
    """A master whose events are calls. Between them may come others, which are refused and leave everything as it was."""

    def __init__(self, tag):
        super().__init__(tag)
        self.calls = []
        self.refused_before = None  # gives the calls before an event

    def event(self, code, reading=0):
        if self.refused_before:
            self.calls += self.refused_before()
        self.calls.append((EVENT, code, reading))
        return self.tag.event(code, reading)[1]


class Trial(sessions.Session):
    """A session whose events are calls. It begins with any counters and any image, behind which lie more bytes to lend."""

    def __init__(self, rng):
        super().__init__(rng, Caller)
        self.image = b""

    def begin(self, reading=0, minute=0, wait=0):
        """With the image as it is now and a record of these counters. Calls up to here don't count."""
        self.image = bytes(self.tag.image) + self.rng.randbytes(self.rng.choice((1, 2, 300, 20000, 65536)))
        self.tag = self.master.tag = Tag(self.rom, self.code, self.tag.image)
        self.tag.last_reading, self.tag.minute, self.tag.until_conversion = reading, minute, wait
        self.master.calls = [(LEND, IMAGE_LENGTH, 0), (NUMBER, number_of(self.rom), 0), (CODE, self.code, 0),
                             (READING, reading, 0), (MINUTE, minute, 0), (WAIT, wait, 0)]

    def stdin(self):
        return calls.stdin_of(self.image, self.master.calls)

    def other_length(self):
        return self.rng.choice([length for length in (*OTHER_LENGTHS, len(self.image)) if length <= len(self.image)])

    def bad_field(self):
        """A field of the record, what it holds, and what it may not hold (docs/RANGES.md)."""
        rng, tag = self.rng, self.tag
        offset = tag.target_address & 0x1F
        return rng.choice((
            (NUMBER, number_of(self.rom), bad_number(rng, self.rom)), (CODE, self.code, rng.choice(OTHER_CODES)),
            (READING, tag.last_reading, rng.choice((LARGEST_READING + 1, 4096, 65535))),
            (MINUTE, tag.minute, rng.choice((60, 128, 255))),
            (WAIT, tag.until_conversion, rng.choice((LONGEST_PERIOD, 1 << 20, 1 << 32, (1 << 64) - 1))),
            (ENDING, tag.ending_offset, rng.choice((32, 255, *range(offset))))))

    def some_refused(self):
        """Calls with a bad length, a bad record or both, or else bad events; then what was bad is put right again."""
        rng = self.rng
        before, after = [], []
        if self.chance(0.5):
            before.append((LEND, self.other_length(), 0))
            after.append((LEND, IMAGE_LENGTH, 0))
        if self.chance(0.5):
            field, good, bad = self.bad_field()
            before.append((field, bad, 0))
            after.append((field, good, 0))
        events = [any_event(rng) if before else bad_event(rng) for _ in range(rng.randint(1, 3))]
        return before + events + after


def number_of(rom):
    """The registration number as a call takes it."""
    return int.from_bytes(rom, "little")


def with_crc(serial):
    return serial + bytes((crc8(serial),))


def bad_number(rng, rom):
    """One bit wrong, another family with a right CRC-8, zeros, or anything."""
    family = rng.choice((0x00, 0x01, 0x40, 0x21, 0xC1))
    return number_of(rng.choice((
        sessions.flipped(rom, rng.choice((8, 56, 63, rng.randrange(64)))), with_crc(bytes((family,)) + rom[1:7]),
        bytes(8), bytes((family ^ 0xFF,)) + rng.randbytes(7))))


def any_event(rng):
    return EVENT, rng.choice((0, 1, 2, 3, 4, 5, 255)), rng.choice((0, LARGEST_READING, LARGEST_READING + 1, 65535))


def bad_event(rng):
    return rng.choice(((EVENT, rng.randrange(5, 256), rng.getrandbits(16)),
                       (EVENT, 3, rng.choice((LARGEST_READING + 1, 65535, rng.randrange(2048, 65536))))))


# ---- Kinds ----

def new_tags(trial):
    """Numbers and codes, right and wrong, in images of any length and content, each with events behind it that show the
    number."""
    rng = trial.rng
    trial.image = rng.randbytes(rng.choice((LONGEST, LONGEST, IMAGE_LENGTH, 8833, 8831, 0, rng.randrange(20000))))
    lengths = [length for length in (IMAGE_LENGTH, *OTHER_LENGTHS) if length <= len(trial.image)]
    shown = [(EVENT, 2, 0), *((EVENT, bit, 0) for bit in sessions.bits_of((READ_ROM, 0xFF, 0xFF))), (EVENT, 3, 1000)]
    for _ in range(rng.randint(10, 20)):
        length = IMAGE_LENGTH if IMAGE_LENGTH in lengths and trial.chance(0.6) else rng.choice(lengths)
        number = number_of(trial.rom) if trial.chance(0.7) else bad_number(rng, trial.rom)
        code = rng.choice((CODE_L, CODE_T)) if trial.chance(0.7) else rng.choice(OTHER_CODES)
        trial.master.calls += [(LEND, length, 0), (NEW, number, code), *shown]
        trial.master.calls += [(LEND, rng.choice(lengths), 0), *shown]


def refused_calls(session):
    """A kind of session that goes on over calls that are refused."""
    def kind(trial):
        trial.begin()
        trial.master.refused_before = lambda: trial.some_refused() if trial.chance(0.02) else []
        session(trial)
    return kind


def device_samples(trial):
    """At their end and before it: conversions of a mission and Forced Conversions, the count looked at after each."""
    rng, master = trial.rng, trial.master
    trial.tag.set_number(DEVICE_SAMPLES, rng.choice(COUNTS))
    trial.begin()
    for forced in rng.choice(((False, True), (True, False), (False, True, False, True))):
        if forced:
            trial.select()
            master.stop()
        else:
            trial.start(control=ETL | rng.choice((0, TLFS)) | rng.choice((0, SUTA)) | rng.choice((0, RO)))
        for _ in range(rng.randint(1, 3)):
            trial.ticks(1)
            if forced:
                trial.select()
                master.force()
            trial.look_at(0x0220, 6)
    trial.look()


def mission_samples(trial):
    """At their end and before it, with and without rollover."""
    rng = trial.rng
    trial.start(control=ETL | rng.choice((0, TLFS)) | rng.choice((0, SUTA, SUTA)) | rng.choice((0, RO, RO, RO)))
    trial.tag.set_number(MISSION_SAMPLES, rng.choice(COUNTS))
    if trial.chance(0.5):
        trial.tag.image[STATUS] = MIP  # it doesn't wait
    trial.begin()
    for _ in range(rng.randint(3, 6)):
        trial.ticks(1)
        trial.look_at(0x020C, 26)
    trial.look()


def any_image(trial):
    """Bytes that no new tag reaches, unnamed bits among them, and counters anywhere in their ranges."""
    rng, master, image = trial.rng, trial.master, trial.tag.image
    image[:] = rng.randbytes(IMAGE_LENGTH)
    image[RATE:RATE + 2] = rng.choice((b"\x01\x40", b"\x01\x80", b"\x02\xC0", b"\x00\xC0", bytes(2)))
    image[DELAY:DELAY + 3] = rng.choice((bytes(3), bytes(3), b"\x01\x00\x00", rng.randbytes(3)))
    image[STATUS] |= rng.choice((0, MIP, MIP))
    image[PASSWORD_CONTROL] = rng.choice((0xAA, image[PASSWORD_CONTROL]))
    trial.tag.set_number(MISSION_SAMPLES, rng.choice((0, 0, 0, 1, 4095, 8191, rng.randrange(1 << 24))))
    trial.begin(rng.choice((0, LARGEST_READING, rng.randrange(2048))), rng.choice((0, 59, rng.randrange(60))),
                rng.choice((0, 0, 0, 0, 1, LONGEST_PERIOD - 1)))
    for _ in range(rng.randint(2, 5)):
        trial.ticks(rng.choice((0, 1, 1, 2, 61)))
        trial.look()
        trial.select()
        rng.choice((master.force, lambda: master.stop(trial.full_password()), lambda: master.clear(trial.full_password()),
                    lambda: master.start(trial.full_password()), lambda: trial.look_at(0x0000, 40)))()


KINDS = [(kind.__name__, kind) for kind in (new_tags, any_image, device_samples, any_image, mission_samples) * 2]
KINDS += [(f"refused_calls, {session.__name__}", refused_calls(session)) for session in (
    sessions.rom_commands, sessions.overdrive, sessions.scratchpad, sessions.delays, sessions.forced, sessions.waiting)]


def trial(seed, number):
    """The kind's name, the driver's standard input, and what it must print."""
    made = Trial(random.Random(f"trial {seed} {number}"))
    name, kind = KINDS[number % len(KINDS)]
    kind(made)
    stdin = made.stdin()
    return name, stdin, calls.play(stdin)
