"""Lists of events for the call that takes many: the cases of the rulings on requests #101 and #103, and random lists.

Random ones come from a seed and a number, as do the sessions (sessions.py) whose events they hold: those of session 17 of
seed 1 are the same whatever else is run.
"""

import random
from typing import NamedTuple

import sessions
from model.lists import UNUSED_IMAGE, Played
from model.tag import ALARMS, BOR, CODE_L, CODE_T, IMAGE_LENGTH, OSCILLATOR

ROM = bytes.fromhex("412BC5FB000000A1")
HEAD = 9  # eight ROM bytes and the code
MOST_WORDS = 20000  # of a session, which is longer mostly where a whole log is read


class Given(NamedTuple):
    """What a new tag is made from, and its lists: of each the words, and how many reply bytes are lent."""
    rom: bytes
    code: int
    length: int  # the image's
    lists: list


# ---- The cases of the rulings, and what stands beside them ----

def slots(*data):
    """Bytes as the master writes them, low bit first."""
    return [byte >> place & 1 for byte in data for place in range(8)]


# Reset, Skip ROM and a Forced Conversion, which stores the last reading at 020Ch. The tag listens, so the bits written come back.
FORCED = [2, *slots(0xCC, 0x55, 0xFF)]
FORCED_LIST = (FORCED, 0, 25, "00" + bytes(FORCED[1:]).hex())
FORCED_IMAGE = {OSCILLATOR: 0x01, 0x0223: 0x01}  # the oscillator runs, and there is one device sample


def case(name, *lists, length=IMAGE_LENGTH, rom=ROM, answer=0, changed=()):
    """A name, what is given, and what must come.

    A list is its words, its answer, the number done and the replies. `answer` is the new tag's, and `changed` the bytes of
    the image that are not a new tag's.
    """
    image = bytearray(UNUSED_IMAGE * length)
    if answer == 0:
        image[:IMAGE_LENGTH] = bytes(IMAGE_LENGTH)
        for address, byte in {ALARMS: BOR, **dict(changed)}.items():
            image[address] = byte
    replies = [bytes.fromhex(text) for *_, text in lists]
    given = Given(rom, CODE_L, length, [(words, len(lent)) for (words, *_), lent in zip(lists, replies)])
    return name, given, Played(answer, [(number, done) for _, number, done, _ in lists], b"".join(replies), bytes(image))


def cases():
    yield case("the first ROM byte", ([2, *slots(0x33, 0xFF)], 0, 17, "00 01 01 00 00 01 01 00 00 01 00 00 00 00 00 01 00"))
    yield case("the same in three lists", ([2, *slots(0x33)], 0, 9, "00 01 01 00 00 01 01 00 00"), ([1], 0, 1, "01"),
               ([1] * 7, 0, 7, "00 00 00 00 00 01 00"))
    yield case("a reading above 2047", ([2, 5096, 6144, 0], 1, 2, "00 01 77 77"), FORCED_LIST,
               changed={**FORCED_IMAGE, 0x020D: 0x7D})  # the last reading is 1000
    for word in (3, 5, 4095, 6144, 65535):
        yield case(f"word {word}", ([word], 1, 0, "77"), ([2, word], 1, 1, "00 77"))
    for word in (4, 4096, 6143):
        yield case(f"word {word}", ([word], 0, 1, "01"))
    # The speed goes on from list to list, also from one that ends with a refused word, until the long reset.
    yield case("short resets", ([4, 2, *slots(0x3C), 4], 0, 11, "01 00 00 00 01 01 01 01 00 00 00"), ([5], 1, 0, "77"),
               ([4, *slots(0x33), 1], 0, 10, "00 01 01 00 00 01 01 00 00 01"), ([2, 4], 0, 2, "00 01"))
    yield case("an empty list", ([], 0, 0, ""), ([], 0, 0, "77 77"))
    yield case("more reply bytes than words", ([2], 0, 1, "00 77 77"))
    yield case("fewer reply bytes than words", ([2, 5096], 17, 0, "77"), FORCED_LIST, changed=FORCED_IMAGE)
    # A good record with a bad image, a record of zeros with a good one, and both bad.
    for length, rom, answer, number in ((8833, ROM, 0, 3), (IMAGE_LENGTH, bytes(8), 4, 6), (8833, bytes(8), 4, 3),
                                        (8831, ROM, 3, 3), (8831, bytes(8), 3, 3), (0, ROM, 3, 3)):
        yield case(f"{length} bytes, ROM {rom.hex().upper()}", ([2], 17, 0, ""), ([2], number, 0, "77"), ([], number, 0, ""),
                   ([3], 17, 0, ""), ([3], number, 0, "77"), length=length, rom=rom, answer=answer)


# ---- Random lists ----

def words_of(triples):
    """The events of a session as words, up to the first that is refused."""
    for code, high, low in zip(triples[::3], triples[1::3], triples[2::3]):
        reading = high << 8 | low
        if code > 4 or code == 3 and reading > 2047:
            return
        yield 4096 + reading if code == 3 else code


def part_at(rng, words, at):
    """The words from there on, any number of them."""
    return words[at:at + rng.choice((0, 1, 2, 8, rng.randrange(20), rng.randrange(100), rng.randrange(1000)))]


def cut(rng, words):
    """All words, in lists; now and then more reply bytes than words. An empty list stands last."""
    lists, at = [], 0
    while at < len(words):
        part = part_at(rng, words, at)
        lists.append((part, len(part) + rng.choice((0, 0, 1, 40))))
        at += len(part)
    return lists + [([], rng.choice((0, 3)))]


def careless(rng, words):
    """All words, in lists of which some hold a word that is no event, and some have too few reply bytes.

    What a list leaves undone comes again in the next, so that each event is done once.
    """
    lists, at = [], 0
    while at < len(words):
        part = part_at(rng, words, at)
        done = len(part)
        if rng.random() < 0.3:
            done = rng.randint(0, len(part))
            part = part[:done] + [no_event(rng)] + part[done:]
        room = len(part) + rng.choice((0, 0, 1, 40))
        if part and rng.random() < 0.2:
            done, room = 0, rng.choice((0, len(part) - 1, rng.randrange(len(part))))
        lists.append((part, room))
        at += done
    return lists + [([], rng.choice((0, 3)))]


def no_event(rng):
    return rng.choice((3, 5, 4095, 6144, 65535, rng.randint(5, 4095), rng.randint(6144, 65535)))


def other_tag(rng, rom):
    """A registration number and a code, right or wrong, and an image's length."""
    return (rng.choice((rom, rom, bytes(8), rng.randbytes(8))), rng.choice((CODE_L, CODE_T, CODE_L, 0)),
            rng.choice((IMAGE_LENGTH, IMAGE_LENGTH, 0, 8831, 8833, rng.randrange(20000))))


def session(seed, number):
    """The kind's name, the bits that the events give one by one, the same events in lists of three kinds, and a few of these
    lists for another tag."""
    kind, stdin, expected = sessions.session(seed, number)
    rng = random.Random(f"lists {seed} {number}")
    head = stdin[:HEAD].ljust(HEAD, b"\0")
    tag = head[:8], head[8], IMAGE_LENGTH
    words = list(words_of(stdin[HEAD:HEAD + 3 * MOST_WORDS]))
    bits = bytes(int(line) for line in expected.split()[:MOST_WORDS] if line in (b"0", b"1"))
    lists = careless(rng, words)
    alike = {"one by one": Given(*tag, [([word], 1) for word in words]), "in lists": Given(*tag, cut(rng, words)),
             "in careless lists": Given(*tag, lists)}
    return kind, bits, alike, Given(*other_tag(rng, head[:8]), lists[:40] + lists[-1:])
