"""Several tags on one line through the C face: each refusal of a new line and of an event in its order, with what it leaves; random
sessions (boards.py) against the model; and what is thrown at a line, made of records that sessions of one tag reached, of which the
answer is known beforehand. What is accepted must have left each tag as its own event leaves it alone: the driver compares that."""

import random
from typing import NamedTuple

import boards
from model import board
from model.programs import HEAD
from model.tag import CODE_L, CODE_T

from . import packed
from .cases import ANY_IMAGE, ANY_RECORD, NEW_IMAGE, ZEROS, difference, equal
from .face import CHANGED_IMAGE, CHANGED_RECORD, IMAGE, NUMBERS, RECORD, Calls, Died, LineEvent, Made
from .throws import some_record

MOST, WIDTH = NUMBERS["LINE_TAGS"], boards.WIDTH
SAME, PLACE, LENGTH, BAD = (NUMBERS[name] for name in ("SAME_NUMBER", "BAD_PLACE", "BAD_IMAGE", "BAD_RECORD"))
RESET, TICK, SHORT = (NUMBERS[name] for name in ("RESET", "TICK", "SHORT_RESET"))
FIRST, SECOND = (int.from_bytes(rom, "little") for rom in (boards.FIRST, boards.SECOND))
ROW = 100
STATE = {CHANGED_IMAGE | CHANGED_RECORD, CHANGED_IMAGE, CHANGED_RECORD, 0}


def new_record(number, code=CODE_L):
    return packed.with_parts(ZEROS, NUMBER=number.to_bytes(8, "little"), CODE=bytes((code,)))


def cases(driver):
    yield from new_lines(driver)
    yield from refused_events(driver)


# ---- A new line ----

def new_number(block, records, numbers, codes):
    """The answer to a new line, by the header: 14, 3, 13, 6, then place by place 4, 5."""
    count = len(numbers)
    if not 1 <= count <= MOST or len(codes) != count:
        return PLACE
    if len(block) != IMAGE * count:
        return LENGTH
    if len(set(numbers)) < count:
        return SAME
    if len(records) != RECORD * count:
        return BAD
    for number, code in zip(numbers, codes):
        if not packed.is_number(number.to_bytes(8, "little")):
            return NUMBERS["BAD_NUMBER"]
        if code not in (CODE_L, CODE_T):
            return NUMBERS["BAD_CODE"]
    return 0


def left_of_new(block, records, numbers, codes):
    """What a new line gives, and what it leaves of block and records."""
    answer, count = new_number(block, records, numbers, codes), len(numbers)
    if not answer:
        after = NEW_IMAGE * count, b"".join(map(new_record, numbers, codes))
    elif 1 <= count <= MOST and len(records) == RECORD * count:
        after = block, ZEROS * count
    else:
        after = block, records
    changed = CHANGED_IMAGE * (after[0] != block) | CHANGED_RECORD * (after[1] != records)
    return [Made(answer, changed), *after]


def new_lines(driver):
    """Each length and each number right and wrong, in every way together."""
    for count in (0, 1, 2, MOST, MOST + 1):
        good = [int.from_bytes(rom, "little") for rom in boards.different_numbers(random.Random(count), count)]
        block, records = ANY_IMAGE * min(count, MOST), ANY_RECORD * count
        for numbers in (good, good[:-1] + [0], good[:1] * count) if count else ([],):
            for codes in ([CODE_T] * count, [CODE_L] * (count + 1), [CODE_L] * (count - 1) + [0x41], [0x41] * count):
                calls, expected = Calls(), []
                for lent in ((block, records), (block[:-1], records), (block, records + b"\0"), (block, records[:-1]), (b"", b"")):
                    calls.image(lent[0])
                    calls.record(lent[1])
                    calls.new_line(numbers, codes)
                    calls.give_image()
                    calls.give_record()
                    expected += left_of_new(*lent, numbers, codes)
                yield f"new lines with the numbers {numbers} and the codes {codes}", *equal(calls.run(driver), expected)


# ---- Events in exact numbers ----

TWO = new_record(FIRST) + new_record(SECOND)
BLOCKS = {"of its length": NEW_IMAGE * 2, "a byte short": (NEW_IMAGE * 2)[:-1], "of one image": NEW_IMAGE, "empty": b""}
RECORDS = {"whole": TWO, "a byte short": TWO[:-1], "a byte long": TWO + b"\0", "of three": TWO + ZEROS, "of one": TWO[:RECORD],
           "empty": b"", "twice the same": TWO[:RECORD] * 2, "of all zeros": ZEROS * 2, "of one, of all zeros": ZEROS,
           "the first of all zeros": ZEROS + TWO[RECORD:],
           "the second of another version": TWO[:RECORD] + b"\2" + TWO[RECORD + 1:],
           "the second with minute 60": TWO[:RECORD] + packed.with_parts(TWO[RECORD:], MINUTE=b"\x3C"),
           "twice the same, the second without its last byte": (TWO[:RECORD] * 2)[:-1],
           "twice the same and a byte": TWO[:RECORD] * 2 + b"\0",
           "the same number behind the two": TWO + TWO[:RECORD]}
EVENTS = ((RESET, 9, 65535), (1, 2, 65535), (SHORT, 255, 0), (TICK, 1, 2047), (TICK, 0, 2048), (TICK, 2, 0), (TICK, 2, 2048),
          (5, 9, 2048), (255, 0, 0))


def event_number(length, records, tags, code, place, reading):
    """The answer to an event, by the header: 14, 3, 13, 6, 1, 2."""
    if not 1 <= tags <= MOST or code == TICK and place >= tags:
        return PLACE
    if length != IMAGE * tags:
        return LENGTH
    parts = [records[at:at + RECORD] for at in range(0, RECORD * tags, RECORD)]
    numbers = [packed.part(part, "NUMBER") for part in parts if len(part) == RECORD]
    if len(set(numbers)) < len(numbers):
        return SAME
    if len(records) != RECORD * tags or not all(map(packed.is_record, parts)):
        return BAD
    if code > SHORT:
        return NUMBERS["BAD_EVENT"]
    return NUMBERS["BAD_READING"] if code == TICK and reading > 2047 else 0


def refused_events(driver):
    for block_name, block in BLOCKS.items():
        for records_name, records in RECORDS.items():
            given = [(tags, *event) for tags in (0, 1, 2, 3, 8) for event in EVENTS]
            answers = [event_number(len(block), records, *event) for event in given]
            refused = {event: answer for event, answer in zip(given, answers) if answer}
            calls = Calls()
            calls.image(block)
            calls.record(records)
            for event in refused:
                calls.line_event(*event)
            calls.give_image()
            calls.give_record()
            expected = [LineEvent(answer, 0, 1, 0) for answer in refused.values()] + [block, records]
            yield f"a block {block_name} and records {records_name}: {len(refused)} events", *equal(calls.run(driver), expected)


# ---- Random sessions ----

class Session:
    """One session: what the line is made of, its events, and what the model says."""

    def __init__(self, seed, number):
        self.kind, stdin, self.expected = boards.session(seed, number)
        self.name = f"line {number} ({self.kind}), seed {seed}"
        self.rng = random.Random(f"library line {seed} {number}")
        count = (stdin or b"\0")[0]
        heads = stdin[1:1 + HEAD * count].ljust(HEAD * count, b"\0")
        self.heads = [(heads[at:at + 8], heads[at + 8]) for at in range(0, len(heads), HEAD)]
        self.length = IMAGE * min(count, MOST)
        self.refused, self.board = board.new(self.heads, self.length)
        printed = self.expected.count(b"\n")
        self.groups = b"" if self.refused else stdin[1 + HEAD * count:][:WIDTH * printed]

    def calls(self):
        """A line of block and records with anything in them, its events, and what they leave."""
        calls = Calls()
        calls.image(self.rng.randbytes(self.length))
        calls.record(self.rng.randbytes(RECORD * len(self.heads)))
        calls.new_line([int.from_bytes(rom, "little") for rom, _ in self.heads], [code for _, code in self.heads])
        calls.line_events(min(len(self.heads), 255), self.groups)
        calls.give_record()
        calls.give_image()
        return calls

    def play(self):
        """Plays it to the model's tags."""
        for at in range(0, len(self.groups), WIDTH):
            code, place, high, low = self.groups[at:at + WIDTH]
            self.board.event(code, place, high << 8 | low)


def sessions(driver, seed, numbers):
    for number in numbers:
        session = Session(seed, number)
        try:
            made, played, records, block = session.calls().run(driver)
        except Died as died:
            yield session.name, False, f"the driver {died}"
            continue
        yield f"{session.name}: every bit", *equal([text_of(made, *played)], [session.expected])
        yield f"{session.name}: what events change, and each tag as alone", *harmless(*played)
        if not session.refused:
            session.play()
            yield f"{session.name}: records and block at the end", *state_of(session.board.tags, records, block)


def text_of(made, answers, changes, lines, alone):
    """What the program shed prints."""
    if made.answer:
        return b"R%02d\n" % made.answer
    return b"".join(b"R%02d\n" % answer if answer else b"%d\n" % line for answer, line in zip(answers, lines))


def harmless(answers, changes, lines, alone):
    """A refusal, which can be the last event alone, changes nothing and leaves line 1."""
    accepted = len(answers) - bool(answers[-1:].strip(b"\0"))
    return (not any(answers[:accepted]) and set(changes[:accepted]) <= STATE and not any(changes[accepted:])
            and lines[accepted:] in (b"", b"\1") and not any(alone)), (set(answers), set(changes), lines[accepted:], set(alone))


def state_of(tags, records, block):
    """Whether each record holds what the model's tag knows, and the block is the model's images."""
    for place, tag in enumerate(tags):
        record = records[RECORD * place:RECORD * (place + 1)]
        wrong = {name: (packed.part(record, name).hex(), data.hex()) for name, data in packed.of_model(tag).items()
                 if packed.part(record, name) != data}
        if wrong or not packed.is_record(record):
            return False, f"place {place}, got and expected: {wrong}; {record.hex()}"
    images = b"".join(bytes(tag.image) for tag in tags)
    return block == images, difference([block], [images])


# ---- Throwing ----

class Thrown(NamedTuple):
    tags: int
    length: int  # of the block
    records: bytes
    event: tuple


def thrown(rng, reached):
    """Of a line as it may be, with some of it wrong."""
    tags = rng.choice((1, 2, 2, 2, 3, 3, MOST))
    records = [start.record for start in rng.sample(reached, tags)]
    if rng.random() < 0.6:
        records[rng.randrange(tags)] = some_record(rng, reached)
    if rng.random() < 0.15:
        number = packed.part(records[0], "NUMBER").ljust(8, b"\0")
        records[rng.randrange(tags)] = packed.with_parts(rng.choice(records), NUMBER=number)
    joined = b"".join(records)
    if rng.random() < 0.2:
        joined = rng.choice((joined[:-1], joined + b"\0", joined[:RECORD], joined[:rng.randrange(len(joined) + 1)], joined * 2))
    length = IMAGE * tags if rng.random() < 0.9 else rng.choice((0, IMAGE * tags - 1, IMAGE * (tags - 1), IMAGE * MOST))
    if rng.random() < 0.1:
        tags = rng.choice((0, 1, tags + 1, 8, 255))
    code = rng.choice((0, 1, 1, 1, 2, 3, 3, 3, 4, 4, 5, rng.randrange(256)))
    return Thrown(tags, length, joined, (code, rng.choice((0, tags - 1 & 0xFF, tags & 0xFF, rng.randrange(256))),
                                         rng.choice((0, 2047, 2048, rng.randrange(2048), rng.randrange(65536)))))


def throws(drivers, seed, total, reached, counts):
    """`counts` gets how often each answer came. The throws of a row share a block."""
    for start in range(0, total, ROW):
        rng = random.Random(f"line row {seed} {start}")
        rows = [thrown(rng, reached) for _ in range(min(ROW, total - start))]
        calls, name = Calls(), f"line throws {start} to {start + len(rows) - 1}, seed {seed}"
        calls.image(b"".join(rng.choice(reached).image for _ in range(MOST)))
        for it in rows:
            calls.lend(it.length)
            calls.record(it.records)
            calls.line_event(it.tags, *it.event)
            calls.give_record()
        try:
            results = calls.run(*drivers)
        except Died as died:
            yield name, False, f"the driver {died}"
            continue
        counts.update(got.answer for got in results[::2])
        wrong = [(it, wrong_event(it, got, records)) for it, got, records in zip(rows, results[::2], results[1::2])]
        yield name, not any(why for _, why in wrong), next((f"{it}: {why}" for it, why in wrong if why), None)


def wrong_event(it, got, records):
    """What is wrong with what came, or None."""
    answer = event_number(it.length, it.records, it.tags, *it.event)
    if got.answer != answer or got.is_alone_wrong:
        return f"expected {answer}, got {got}"
    if answer:
        return None if (got.changed, got.line, records) == (0, 1, it.records) else f"a refusal gave {got} and {records.hex()}"
    return None if got.changed in STATE and got.line in (0, 1) else f"gave {got}"
