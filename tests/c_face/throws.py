"""Calls with random and damaged records, images of any length, words that are no events and numbers that are none. Of each, the
answer is known beforehand: by the lengths, by what packed.py takes for a record, and by the event. A refusal must change nothing;
what is accepted must leave a record again, of the same tag, and where that is known, which one.

They come in rows: the calls of a row share an image, which begins as one that a session reached.
"""

import random
from typing import NamedTuple

from model.crc import crc8
from model.tag import CODE_L, CODE_T, FAMILY

from . import packed
from .cases import ZEROS
from .face import (
    CHANGED_IMAGE, CHANGED_RECORD, CHANGED_REPLIES, IMAGE, NUMBERS, RECORD, UNUSED, Calls, Died, Event, Made, Words)
from .played import end_of

ROW = 1000
LONGEST = IMAGE + 65536  # of an image; one as long as the tag's in its low two bytes
OTHER_LENGTHS = (0, 1, 8576, 8831, 8833, 9088, 2 * IMAGE, LONGEST)
SLOT, RESET, TICK, SHORT = (NUMBERS[name] for name in ("SLOT_LOW", "RESET", "TICK", "SHORT_RESET"))
BAD_READING, BAD_EVENT = NUMBERS["BAD_READING"], NUMBERS["BAD_EVENT"]
EDGES = (0, 1, 2, 3, 4, 5, 7, 8, 31, 32, 59, 60, 63, 64, 127, 128, 255)
OVERDRIVE = 2  # of a mode
WORDS = (0, 1, 2, 4, 0, 1, 2, 4, 4096, 6143, 5096)
NO_EVENTS = (3, 5, 4095, 6144, 65535)


class Thrown(NamedTuple):
    """A call, and what it goes with."""
    call: str  # new, event or words
    record: bytes
    length: int  # of the image
    given: tuple


# ---- Records ----

def flipped(rng, record, reached):
    """A few bits wrong."""
    return xored(record, sum(1 << rng.randrange(8 * RECORD) for _ in range(rng.choice((1, 1, 1, 2, 5)))))


def xored(record, bits):
    bits &= (1 << 8 * RECORD) - 1
    return (int.from_bytes(record, "little") ^ bits).to_bytes(RECORD, "little")


def with_byte(rng, record, reached):
    """Another byte, before the scratchpad, which may hold anything."""
    at = rng.randrange(packed.PARTS["SCRATCHPAD"][0])
    return record[:at] + bytes((rng.choice(EDGES),)) + record[at + 1:]


def with_parts(rng, record, reached):
    """Some parts at their edges, or random."""
    names = rng.sample([name for name in packed.PARTS if name not in ("VERSION", "NUMBER")], rng.randint(1, 3))
    return packed.with_parts(record, **{name: some_part(rng, name) for name in names})


def some_part(rng, name):
    start, end = packed.PARTS[name]
    edges = {"READING": (2047, 2048), "WAIT": (982979, 982980), "ADDRESS": (0x2FFF, 0x3000, 0x2FFE, 0x1F), "TA": (0x1F, 0x3E)}
    if name in edges and rng.random() < 0.7:
        return rng.choice(edges[name]).to_bytes(end - start, "little")
    return bytes(rng.choice(EDGES[:8]) if rng.random() < 0.8 else rng.randrange(256) for _ in range(start, end))


def torn(rng, record, reached):
    """The start of one and the rest of another, as a write leaves that the power failed in."""
    at = rng.randrange(RECORD + 1)
    return record[:at] + rng.choice(reached).record[at:]


def of_another_tag(rng, record, reached):
    serial = bytes((rng.choice((FAMILY, FAMILY, 0x40)),)) + rng.randbytes(6)
    return packed.with_parts(record, NUMBER=serial + bytes((crc8(serial) ^ rng.choice((0, 0, 1)),)),
                             CODE=bytes((rng.choice((CODE_L, CODE_T, 0x41)),)))


def of_another_version(rng, record, reached):
    return bytes((rng.choice((0, 2, 255, rng.randrange(256))),)) + record[1:]


def of_another_length(rng, record, reached):
    near = RECORD - 1, RECORD + 1
    return (record * 2)[:rng.choice((*near, *near, 0, 1, 2 * RECORD, rng.randrange(2 * RECORD)))]


def of_anything(rng, record, reached):
    """The version right more often than by chance."""
    return rng.choice((b"\1", rng.randbytes(1))) + rng.randbytes(RECORD - 1)


def as_it_is(rng, record, reached):
    return record


DAMAGES = ((as_it_is,) * 3 + (flipped,) * 5 + (with_byte,) * 5 + (with_parts,) * 6 + (torn,) * 4 + (of_another_tag,) * 2
           + (of_another_version, of_another_length, of_another_length, of_anything))


# ---- What is thrown ----

def some_record(rng, reached):
    return rng.choice(DAMAGES)(rng, rng.choice(reached).record, reached)


def some_length(rng):
    """Of an image: mostly the right one, since all else is refused by it."""
    return IMAGE if rng.random() < 0.9 else rng.choice((*OTHER_LENGTHS, rng.randrange(20000)))


def some_event(rng):
    code = rng.choice((0, 1, 1, 1, 2, 3, 3, 4, 4, 5, rng.randrange(256)))
    return code, rng.choice((0, 2047, 2048, 65535, rng.randrange(2048), rng.randrange(65536)))


def some_words(rng):
    words = [rng.choice(WORDS) if rng.random() < 0.95 else rng.choice((*NO_EVENTS, rng.randrange(65536)))
             for _ in range(rng.choice((0, 1, 3, rng.randrange(40))))]
    return words, max(0, len(words) + rng.choice((0, 0, 0, 0, 1, 40, -1, -len(words))))


def some_number(rng, reached):
    rom = packed.part(rng.choice(reached).record, "NUMBER")
    wrong = rng.choice((0, 0, 1, 1 << 63, 1 << rng.randrange(64)))
    return int.from_bytes(rom, "little") ^ wrong, rng.choice((CODE_L, CODE_T, CODE_L, 0, 0x41, rng.randrange(256)))


def thrown(seed, number, reached):
    rng = random.Random(f"throw {seed} {number}")
    call = rng.choice(("event",) * 6 + ("words",) * 3 + ("new",))
    given = {"event": some_event, "words": some_words, "new": lambda rng: some_number(rng, reached)}[call](rng)
    return Thrown(call, some_record(rng, reached), some_length(rng), given)


def throw(calls, it):
    calls.lend(it.length)
    calls.record(it.record)
    getattr(calls, it.call)(*it.given)
    calls.give_record()


# ---- What must come ----

def refusal(it):
    """The answer, by the order of the refusals, up to what the event or the words themselves are."""
    if it.call == "words" and it.given[1] < len(it.given[0]):
        return NUMBERS["FEW_REPLIES"]
    if it.length != IMAGE:
        return NUMBERS["BAD_IMAGE"]
    if it.call == "new":
        return refusal_of_new(len(it.record), *it.given)
    if not packed.is_record(it.record):
        return NUMBERS["BAD_RECORD"]
    return 0


def refusal_of_new(length, number, code):
    if length != RECORD:
        return NUMBERS["BAD_RECORD"]
    if not packed.is_number(number.to_bytes(8, "little")):
        return NUMBERS["BAD_NUMBER"]
    return 0 if code in (CODE_L, CODE_T) else NUMBERS["BAD_CODE"]


def wrong_new(it, got, record):
    """What is wrong with what came of a new tag, or None."""
    answer = refusal(it)
    number, code = it.given
    expected = ZEROS if answer else packed.with_parts(ZEROS, NUMBER=number.to_bytes(8, "little"), CODE=bytes((code,)))
    if len(it.record) != RECORD:
        expected = it.record
    may_change = CHANGED_RECORD if answer else CHANGED_RECORD | CHANGED_IMAGE
    if got.answer != answer or got.changed & ~may_change or record != expected:
        return f"expected {answer} and {expected.hex()}, got {got} and {record.hex()}"
    return None


def wrong_event(it, got, record):
    code, reading = it.given
    answer = refusal(it) or (BAD_EVENT if code > SHORT else BAD_READING if code == TICK and reading > 2047 else 0)
    if got.answer != answer or got.is_ahead_wrong:
        return f"expected {answer}, got {got}"
    if answer:
        return None if (got.changed, got.line, record) == (0, 1, it.record) else f"a refusal gave {got} and {record.hex()}"
    expected, line = after(it.record, code, reading)
    if got.changed & ~(CHANGED_IMAGE | CHANGED_RECORD) or got.line not in line or not is_next(it.record, record):
        return f"gave {got} and {record.hex()}"
    return None if expected in (None, record) else f"expected {expected.hex()}, got {record.hex()}"


def after(record, code, reading):
    """The record that an event leaves, where it can be told from the record alone, and the bits that may be on the line."""
    mode = packed.number(record, "MODE")
    if code == RESET:
        return packed.after_reset(record, mode & ~OVERDRIVE), (0,)
    if code == SHORT:
        return (packed.after_reset(record, mode), (0,)) if mode & OVERDRIVE else (record, (1,))
    if code == TICK:
        return None, (1,)
    return None, (0,) if code == SLOT else (0, 1)


def is_next(before, record):
    """Whether the second can follow on the first: it is a record, of the same tag."""
    return packed.is_record(record) and all(packed.part(before, name) == packed.part(record, name) for name in ("NUMBER", "CODE"))


def wrong_words(it, got, record):
    words, room = it.given
    answer, done = refusal(it), 0
    if not answer:
        answer, done = end_of(words, room)
    if (got.answer, got.done) != (answer, done) or got.replies[done:].strip(bytes((UNUSED,))) or set(got.replies[:done]) - {0, 1}:
        return f"expected {answer} and {done} done, got {got}"
    if not done:
        return None if (got.changed, record) == (0, it.record) else f"nothing was done, which gave {got} and {record.hex()}"
    if got.changed & ~(CHANGED_IMAGE | CHANGED_RECORD | CHANGED_REPLIES) or not is_next(it.record, record):
        return f"gave {got} and {record.hex()}"
    return None


WRONG = {Made: wrong_new, Event: wrong_event, Words: wrong_words}


# ---- Throwing ----

def row(reached, image, throws):
    """The calls of these throws, over an image and what lies behind it."""
    calls = Calls()
    calls.image(image)
    for it in throws:
        throw(calls, it)
    return calls


def checks(drivers, seed, total, reached, counts):
    """`counts` gets how often each answer came."""
    for start in range(0, total, ROW):
        rng = random.Random(f"row {seed} {start}")
        image = rng.choice(reached).image + rng.randbytes(LONGEST - IMAGE)
        throws = [thrown(seed, number, reached) for number in range(start, min(start + ROW, total))]
        name = f"throws {start} to {start + len(throws) - 1}, seed {seed}"
        try:
            results = row(reached, image, throws).run(*drivers)
        except Died as died:
            yield name, False, f"the driver {died}, with {shown(shortest(drivers, reached, image, throws))}"
            continue
        counts.update(result.answer for result in results[::2])
        wrong = [(it, WRONG[type(got)](it, got, record)) for it, got, record in zip(throws, results[::2], results[1::2])]
        yield name, not any(why for _, why in wrong), next((f"{shown(it)}: {why}" for it, why in wrong if why), None)


def alike(driver, seed, total, reached):
    """Words that a damaged record goes through with must leave the same as its events one by one."""
    for number in range(total):
        rng = random.Random(f"alike {seed} {number}")
        start = rng.choice(reached)
        record = next(filter(packed.is_record, (some_record(rng, reached) for _ in iter(int, 1))))
        words = [rng.choice(WORDS) for _ in range(rng.randrange(1, 60))]
        calls = Calls()
        for in_a_list in (True, False):
            calls.image(start.image)
            calls.record(record)
            if in_a_list:
                calls.words(words, len(words))
            else:
                calls.events(triples_of(words))
            calls.give_record()
            calls.give_image()
        try:
            listed, *left, single, record_after, image_after = calls.run(driver)
        except Died as died:
            yield f"list {number}, seed {seed}", False, f"the driver {died}, with {record.hex()} and {words}"
            continue
        right = not any(single[0]) and [listed.replies, *left] == [single[2], record_after, image_after]
        yield f"list {number}, seed {seed}: as its events one by one", right, f"{record.hex()} and {words}"


def triples_of(words):
    return b"".join(bytes((TICK, word - 4096 >> 8, word & 0xFF)) if word >= 4096 else bytes((word, 0, 0)) for word in words)


def shortest(drivers, reached, image, throws):
    """The throw that the driver dies of: the last of the fewest from the start, found by halving."""
    low, high = 0, len(throws)
    while high - low > 1:
        middle = (low + high) // 2
        try:
            row(reached, image, throws[:middle]).run(*drivers)
            low = middle
        except Died:
            high = middle
    return throws[high - 1]


def shown(it):
    return f"{it.call} {it.given} with an image of {it.length} bytes and the record {it.record.hex() or 'of no byte'}"
