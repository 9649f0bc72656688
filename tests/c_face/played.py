"""Random sessions (sessions.py) through the C face: event by event and in lists, against the program play and the model. After
parts of a session, and at its end, image and record are compared with those of the model's tag."""

import random
from typing import NamedTuple

import batches
import sessions
from model.lists import event_of
from model.tag import new

from . import packed
from .cases import difference, equal
from .face import CHANGED_IMAGE, CHANGED_RECORD, CHANGED_REPLIES, IMAGE, RECORD, UNUSED, Calls, Died, run

HEAD = 9
PLACES = 3  # in a session at which image and record are compared, beside its end
DIGITS = bytes.maketrans(b"\0\1", b"01")
STATE = {CHANGED_IMAGE | CHANGED_RECORD, CHANGED_IMAGE, CHANGED_RECORD, 0}


class Reached(NamedTuple):
    """A record that a session reached, and the image with it."""
    record: bytes
    image: bytes


class Session:
    """One session: what it is played from, and what the model says."""

    def __init__(self, seed, number):
        self.kind, self.stdin, self.expected = sessions.session(seed, number)
        self.name = f"session {number} ({self.kind}), seed {seed}"
        self.rng = random.Random(f"library {seed} {number}")
        head = self.stdin[:HEAD].ljust(HEAD, b"\0")
        self.rom, self.code = head[:8], head[8]
        self.number = int.from_bytes(self.rom, "little")
        self.triples = self.stdin[HEAD:HEAD + 3 * self.expected.count(b"\n")]
        self.refused_tag, self.tag = new(self.rom, self.code, bytearray(IMAGE))
        if self.refused_tag:
            self.triples = b""
        self.words = list(batches.words_of(self.triples))

    def cuts(self):
        """Places at which to look at the tag, in order, the end last."""
        count = len(self.triples) // 3
        return sorted(self.rng.randrange(count + 1) for _ in range(PLACES)) + [count]

    def advance(self, start, end):
        """Plays a part of it to the model's tag."""
        event = self.tag.event
        for at in range(3 * start, 3 * end, 3):
            code, high, low = self.triples[at:at + 3]
            event(code, high << 8 | low)

    def begun(self):
        """Calls that make its tag, of image and record with anything in them."""
        calls = Calls()
        calls.image(self.rng.randbytes(IMAGE))
        calls.record(self.rng.randbytes(RECORD))
        calls.new(self.number, self.code)
        return calls


def checks(driver, play, seed, numbers, reached):
    """The records that sessions reach are added to `reached`."""
    for number in numbers:
        session = Session(seed, number)
        try:
            yield f"{session.name}: as play", *equal([run(play, session.stdin)], [session.expected])
            yield from singly(driver, session, reached)
            for name, lists in (("in lists", batches.cut), ("in careless lists", batches.careless)):
                yield from in_lists(driver, session, f"{session.name}, {name}", lists(session.rng, session.words))
        except Died as died:
            yield session.name, False, f"the driver {died}"


# ---- Event by event ----

def singly(driver, session, reached):
    calls, cuts, start = session.begun(), session.cuts(), 0
    for end in cuts:
        calls.events(session.triples[3 * start:3 * end])
        calls.give_record()
        calls.give_image()
        start = end
    made, *results = calls.run(driver)
    texts, start = [b"R%02d\n" % made.answer if made.answer else b""], 0
    for end, played, record, image in zip(cuts, *(results[part::3] for part in range(3))):
        texts.append(text_of(*played))
        session.advance(start, end)
        yield f"{session.name}: record and image after {end} events", *state_of(session, record, image)
        yield f"{session.name}: what events change, and what is ready for a slot", *harmless(*played)
        if not session.refused_tag:
            reached.append(Reached(record, image))
        start = end
    yield f"{session.name}: every bit", *equal([b"".join(texts)], [session.expected])


def text_of(answers, changes, lines, ahead):
    """What the program play prints of these events; a bit that is none shows as itself."""
    text = bytearray(b"\n" * (2 * len(lines)))
    text[::2] = lines.translate(DIGITS)
    if answers[-1:].strip(b"\0"):
        text[-2:] = b"R%02d\n" % answers[-1]
    return bytes(text)


def harmless(answers, changes, lines, ahead):
    """A refusal, which can be the last event alone, changes nothing and leaves line 1."""
    accepted = len(answers) - bool(answers[-1:].strip(b"\0"))
    return (not any(answers[:accepted]) and set(changes[:accepted]) <= STATE and not any(changes[accepted:])
            and lines[accepted:] in (b"", b"\1") and not any(ahead)), (set(answers), set(changes), lines[accepted:], set(ahead))


def state_of(session, record, image):
    """Whether a record holds what the model's tag knows, and the image is the model's."""
    if session.refused_tag:
        return record[1:] == bytes(RECORD - 1), record.hex()
    wrong = {name: (packed.part(record, name).hex(), data.hex()) for name, data in packed.of_model(session.tag).items()
             if packed.part(record, name) != data}
    if wrong or not packed.is_record(record):
        return False, f"got and expected: {wrong}; {record.hex()}"
    return image == session.tag.image, difference([image], [bytes(session.tag.image)])


# ---- In lists ----

def in_lists(driver, session, name, lists):
    """The same bits and the same end, whatever the lists."""
    if session.refused_tag:
        return
    calls = session.begun()
    for words, room in lists:
        calls.words(words, room)
    calls.give_record()
    calls.give_image()
    _, *results, record, image = calls.run(driver)
    bits = b"".join(result.replies[:result.done] for result in results)
    expected = session.expected[:2 * len(session.words):2].translate(bytes.maketrans(b"01", b"\0\1"))
    yield f"{name}: every bit", *equal([bits], [expected])
    yield f"{name}: answers, and what is left alone", *first_wrong(lists, results)
    yield f"{name}: record and image at the end", *state_of(session, record, image)


def first_wrong(lists, results):
    for place, ((words, room), result) in enumerate(zip(lists, results)):
        answer, done = end_of(words, room)
        may_change = {change | replies for change in STATE for replies in (0, CHANGED_REPLIES)} if done else {0}
        if (result[::2] != (answer, done) or result.changed not in may_change
                or result.replies[done:].strip(bytes((UNUSED,)))):
            return False, f"list {place}: expected answer {answer} and {done} done, got {result!r:.300}"
    return True, None


def end_of(words, room):
    """The answer to a list of a good tag, and how many of its words are done."""
    if room < len(words):
        return 17, 0
    for place, word in enumerate(words):
        if event_of(word) is None:
            return 1, place
    return 0, len(words)
