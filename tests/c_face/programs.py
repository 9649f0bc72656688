"""The programs of examples/c: each session of examples/ and random ones through session and firmware, against the program play;
the firmware over power failures, against the model; sessions of several tags through line, against the model; dumps through
listing, against the program list."""

import sys

import boards
import dumps
import sessions
from model.programs import HEAD, play as model_play, refusal
from model.tag import CODE_L, IMAGE_LENGTH, MISSION_SAMPLES, READ_MEMORY, new

from .builds import EXAMPLES, TOP
from .cases import CHOSEN, PASSWORD, ROM, equal, mission, slots, tick
from .face import Died, run
from .throws import triples_of

sys.path.append(str(TOP / "tools"))

from reader import line
from reader.sessions import parse

MOST_WORDS = 4096  # of a list, by session.c
STORED = 81  # bytes of an event that the firmware stores: the record and the mark
PASSWORDS = {"landing": b"INSPECT1"}  # of sessions whose dump is read behind them
DUMPS, LINES = 18, 48  # one of each kind
TICK, SLOTS = 3, (0, 1)


def checks(builds, play, list_, numbers, sources=EXAMPLES):
    session = builds.program("session", sources / "session.c")
    firmware = builds.program("firmware", sources / "firmware.c", sources / "host.c")
    listing = builds.program("listing", sources / "listing.c")
    for name, stdin in (*stored_sessions(), *random_sessions(numbers)):
        yield from played(name, stdin, ended(play, stdin)[1], session, firmware)
    for name, stdin in stored_sessions():
        yield from failing(name, stdin, firmware)
    yield from lost_conversion(firmware)
    yield from lined(builds.program("line", sources / "line.c"), LINES if numbers else 0)
    yield from listed(listing, list_)
    for name, words in (("no number", ("x",)), ("too many words", (str(MOST_WORDS + 1),)), ("two words", ("1", "2"))):
        yield f"session with {name}", *equal(ended([*session, *words], b""), (2, b""))
    for name, words in (("one word", ("1",)), ("no event to fail in", ("0", "1"))):
        yield f"firmware with {name}", *equal(ended([*firmware, *words], b""), (2, b""))


def lined(program, total):
    """Sessions of several tags, whole."""
    for number in range(total):
        kind, stdin, expected = boards.session(1, number)
        yield f"line {number} ({kind}): line", *equal(ended(program, stdin), (int(b"R" in expected), expected))


def ended(words, stdin):
    """The status and what was printed."""
    try:
        return 0, run(words, stdin)
    except Died as died:
        return died.status, died.output


# ---- Sessions ----

def stored_sessions():
    """As the program play takes them; those of which the dump is of use with the dump read behind them."""
    for path in sorted((TOP / "examples").glob("*.session")):
        frames = parse(path.read_text("utf-8"), path.name)
        code, *rom = frames[0].data
        if path.stem in PASSWORDS:
            frames += line.dump_frames(rom, PASSWORDS[path.stem])
        yield path.name, bytes((*rom, code)) + b"".join(map(line.events_of, frames[1:]))


def random_sessions(numbers):
    for number in numbers:
        kind, stdin, _ = sessions.session(1, number)
        yield f"session {number} ({kind})", stdin


def played(name, stdin, expected, session, firmware):
    """Whole, and with the power failing between events, which costs nothing."""
    result = int(b"R" in expected), expected
    yield f"{name}: as by the model", *equal([model_play(stdin)], [expected])
    for words in ((), ("1",), ("64",), (str(MOST_WORDS),)):
        yield f"{name}: session {' '.join(words)}", *equal(ended([*session, *words], stdin), result)
    for words in ((), ("1", str(STORED)), ("7", str(STORED))):
        yield f"{name}: firmware {' '.join(words)}", *equal(ended([*firmware, *words], stdin), result)


# ---- Power failures ----

def failing(name, stdin, firmware):
    """The power fails before the mark has turned: right after the call, within the copy, and before the mark."""
    for first, stored in ((1, 0), (5, 1), (64, 40), (97, STORED - 2), (600, STORED - 1)):
        every, expected = next((every, expected) for every in range(first, first + 1000)
                               if (expected := failed_play(stdin, every)) is not None)
        yield f"{name}: firmware {every} {stored}", *equal(ended([*firmware, str(every), str(stored)], stdin), (0, expected))


def failed_play(stdin, every):
    """What the tag answers if one event in so many is lost, but for what it did to the image, and comes again. None where such an
    event is a slot that changes the image: its record before is not to be had from the model."""
    _, tag = new(stdin[:8], stdin[8], bytearray(IMAGE_LENGTH))
    out = []
    for number, (code, high, low) in enumerate(zip(stdin[HEAD::3], stdin[HEAD + 1::3], stdin[HEAD + 2::3]), 1):
        reading, fails = high << 8 | low, number % every == 0
        if fails and code == TICK:
            lose(tag, reading)
        before = bytes(tag.image) if fails and code in SLOTS else None
        answer, bit = tag.event(code, reading)
        if before is not None and before != tag.image:
            return None
        out.append(refusal(answer) if answer else b"%d\n" % bit)
    return b"".join(out)


def lose(tag, reading):
    """A tick of which the image alone is left."""
    kept = tag.last_reading, tag.minute, tag.until_conversion
    tag.tick(reading)
    tag.last_reading, tag.minute, tag.until_conversion = kept


def lost_conversion(firmware):
    """A tick that converts is lost, but for its image: there is an entry too many, as firmware.c says."""
    begun = mission(10)
    count_read = [*CHOSEN, *slots(READ_MEMORY, MISSION_SAMPLES & 0xFF, MISSION_SAMPLES >> 8), *PASSWORD, *[1] * 24]
    stdin = ROM + bytes((CODE_L,)) + triples_of([*begun, *[tick(700)] * 25, *count_read])
    for name, failure, entries in (("no tick lost", (), 3), ("a tick lost that converts", (len(begun) + 1, STORED - 1), 4)):
        status, text = ended([*firmware, *map(str, failure)], stdin)
        counted = text[-48::2][::-1].decode()
        yield f"firmware, 25 seconds of a mission, {name}", (status, counted) == (0, f"{entries:024b}"), (status, counted)


# ---- Dumps ----

def listed(listing, list_):
    given = [("landing.dump", (TOP / "examples" / "landing.dump").read_bytes())]
    for number in range(DUMPS):
        kind, dump, _ = dumps.dump(1, number)
        given.append((f"dump {number} ({kind})", dump))
    for name, dump in given:
        expected = ended(list_, dump)[1]
        yield f"{name}: as list", *equal(ended(listing, dump), (int(b"R" in expected), expected))
