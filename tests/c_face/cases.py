"""Calls in exact numbers: each refusal in its order, with what it leaves; and where each part of a record stands, shown by
moments in which it is known what the part holds."""

from model.crc import crc16
from model.tag import BOR, CODE_L, CODE_T

from . import packed
from .face import (
    CHANGED_IMAGE, CHANGED_RECORD, CHANGED_REPLIES, HEAD, IMAGE, NUMBERS, RECORD, UNUSED, Calls, Event, Made, Words)

ROM = bytes.fromhex("412BC5FB000000A1")
NUMBER = int.from_bytes(ROM, "little")
WRONG = NUMBER ^ 1 << 63  # its CRC-8 is wrong
FREE, RESET, TICK, SHORT = (NUMBERS[name] for name in ("SLOT_FREE", "RESET", "TICK", "SHORT_RESET"))
ZEROS = bytes((NUMBERS["VERSION"],)) + bytes(RECORD - 1)
ANY_IMAGE, ANY_RECORD = bytes(range(256)) * 34 + bytes(IMAGE - 8704), b"\xA5" * RECORD
NEW_IMAGE = bytes(0x0214) + bytes((BOR,)) + bytes(IMAGE - 0x0215)


def checks(driver):
    yield from new_tags(driver)
    yield from refused_events(driver)
    yield from refused_words(driver)
    yield from refused_heads(driver)
    yield from moments(driver)


def left(driver, image, record, call, *given):
    """What a call gives that is lent these, and what it leaves of them."""
    calls = Calls()
    calls.image(image)
    calls.record(record)
    getattr(calls, call)(*given)
    calls.give_image()
    calls.give_record()
    return calls.run(driver)


# ---- Refusals ----

def new_tags(driver):
    """With every two faults of the order 3, 6, 4, 5 at once, the first counts."""
    faults = {"BAD_IMAGE": (ANY_IMAGE[:-1], ANY_IMAGE + b"\0", b""), "BAD_RECORD": (ANY_RECORD[:-1], ANY_RECORD + b"\0", b""),
              "BAD_NUMBER": (WRONG, 0, NUMBER ^ 1), "BAD_CODE": (0, 0x41, 0x20)}
    right = ANY_IMAGE, ANY_RECORD, NUMBER, CODE_L
    for first, (name, wrongs) in enumerate(faults.items()):
        for wrong in wrongs:
            for second in range(first, 4):
                given = list(right)
                given[second] = list(faults.values())[second][0]
                given[first] = wrong
                zeros = ZEROS if len(given[1]) == RECORD else given[1]
                changed = CHANGED_RECORD if zeros != given[1] else 0
                got = left(driver, *given[:2], "new", *given[2:])
                yield f"a new tag refused for {name}, {given[2:]}", *equal(got, [Made(NUMBERS[name], changed), given[0], zeros])
    for code in (CODE_L, CODE_T):
        new = packed.with_parts(ZEROS, NUMBER=ROM, CODE=bytes((code,)))
        got = left(driver, *right[:2], "new", NUMBER, code)
        yield f"a new tag with code {code:02X}", *equal(got, [Made(0, CHANGED_IMAGE | CHANGED_RECORD), NEW_IMAGE, new])


def equal(got, expected):
    return got == expected, difference(got, expected)


def difference(got, expected):
    """The first of several that differs; of bytes, where."""
    for place, (one, other) in enumerate(zip(got, expected)):
        if isinstance(one, bytes) and isinstance(other, bytes) and len(one) == len(other) and one != other:
            at = next(at for at, (byte, wanted) in enumerate(zip(one, other)) if byte != wanted)
            return f"result {place}, byte {at}: expected {other[at]:02X}, got {one[at]:02X}"
        if one != other:
            return f"result {place}: expected {other!r:.200}, got {one!r:.200}"
    return f"{len(got)} results"


NEW = packed.with_parts(ZEROS, NUMBER=ROM, CODE=bytes((CODE_L,)))
IMAGES = {"of its length": NEW_IMAGE, "a byte short": NEW_IMAGE[:-1], "a byte long": NEW_IMAGE + b"\0", "empty": b""}
RECORDS = {"whole": NEW, "a byte short": NEW[:-1], "a byte long": NEW + b"\0", "empty": b"", "of all zeros": ZEROS,
           "of another version": b"\2" + NEW[1:], "of version 0": b"\0" + NEW[1:], "with PF 2": packed.with_parts(NEW, PF=b"\2"),
           "with AA 255": packed.with_parts(NEW, AA=b"\xFF"), "with mode 4": packed.with_parts(NEW, MODE=b"\4"),
           "silent with something beside": packed.with_parts(NEW, CHOOSING=b"\0\0\1"),
           "of a choosing that is none": packed.with_parts(NEW, CHOOSING=b"\x08\0\0"),
           "of a stage that is none": packed.with_parts(NEW, STAGE=b"\5\0\0"),
           "with reading 2048": packed.with_parts(NEW, READING=b"\0\x08"),
           "with minute 60": packed.with_parts(NEW, MINUTE=b"\x3C"), "with bits past": packed.with_parts(NEW, BITS=b"\1"),
           "with wait 982,980": packed.with_parts(NEW, WAIT=(982980).to_bytes(8, "little")),
           "with another code": packed.with_parts(NEW, CODE=b"\x50"),
           "with another number": packed.with_parts(NEW, NUMBER=bytes(8))}


def first_refusal(image, record):
    """3 or 6, or none."""
    return NUMBERS["BAD_IMAGE"] if len(image) != IMAGE else 0 if record == NEW else NUMBERS["BAD_RECORD"]


# Of each its code, its reading, and what it is refused with by itself.
EVENTS = (RESET, 0, 0), (FREE, 65535, 0), (SHORT, 65535, 0), (TICK, 2047, 0), (TICK, 2048, 2), (5, 2048, 1)
RESET_CHANGES = CHANGED_RECORD | CHANGED_REPLIES  # of a list that is one


def refused_events(driver):
    for image_name, image in IMAGES.items():
        for record_name, record in RECORDS.items():
            for code, reading, own in EVENTS:
                answer = first_refusal(image, record) or own
                if answer:
                    got = left(driver, image, record, "event", code, reading)
                    yield (f"an image {image_name} and a record {record_name}, event {code} with {reading}",
                           *equal(got, [Event(answer, 0, 1, 0), image, record]))


def refused_words(driver):
    """17, 3 and 6 before a word is looked at; 1 with the words before it done."""
    for image_name, image in IMAGES.items():
        for record_name, record in RECORDS.items():
            for words, room in (([RESET], 0), ([RESET], 1), ([3], 0), ([3], 1), ([], 0), ([], 2)):
                answer = NUMBERS["FEW_REPLIES"] if room < len(words) else first_refusal(image, record) or int(3 in words)
                done = 0 if answer else len(words)
                after = packed.after_reset(record, 0) if done else record
                expected = Words(answer, RESET_CHANGES if done else 0, done, (bytes(done) + bytes((UNUSED,)) * room)[:room])
                got = left(driver, image, record, "words", words, room)
                yield (f"an image {image_name} and a record {record_name}, words {words} with {room} replies",
                       *equal(got, [expected, image, after]))
    for word in (3, 5, 4095, 6144, 65535):
        expected = Words(NUMBERS["BAD_EVENT"], RESET_CHANGES, 1, bytes((0, UNUSED, UNUSED)))
        got = left(driver, NEW_IMAGE, NEW, "words", [RESET, word, FREE], 3)
        yield f"word {word}", *equal(got, [expected, NEW_IMAGE, packed.after_reset(NEW, 0)])


def refused_heads(driver):
    """A dump that is none, with heads and places of any length: 7 comes first."""
    for places, head in ((0, 0), (1, HEAD - 1), (NUMBERS["PLACES"], HEAD)):
        calls = Calls()
        calls.list(b"", places, head)
        answer, changed, _, _ = calls.run(driver)[0]
        right = (answer, changed) == (NUMBERS["DUMP_FORM"], 0)
        yield f"no dump, {places} places and a head of {head} bytes", right, (answer, changed)


# ---- Where the parts of a record stand ----

def slots(*data):
    """Bytes as the master writes them, low bit first."""
    return [byte >> place & 1 for byte in data for place in range(8)]


def tick(reading):
    return 4096 + reading


CHOSEN = [RESET, *slots(0xCC)]  # by Skip ROM
PASSWORD = [*slots(*b"\xFF" * 8)]
WRITTEN = [*CHOSEN, *slots(0x0F, 0x25, 0x01, 0x5A)]  # Write Scratchpad to 0125h, and a whole byte
PAGE = bytes(range(1, 33))
# A page of settings to 0200h, in seconds, and Clear and Start.
STORED = [*CHOSEN, *slots(0x99, 0x00, 0x02, 0x1F), *PASSWORD]


def mission(rate, delay=0, seconds=True):
    page = bytearray(32)
    page[6:8], page[0x12], page[0x13], page[0x16] = rate.to_bytes(2, "little"), 2 * seconds, 0x01, delay
    return [*CHOSEN, *slots(0x0F, 0x00, 0x02, *page), *STORED, *CHOSEN, *slots(0x96), *PASSWORD, *slots(0xFF),
            *CHOSEN, *slots(0xCC), *PASSWORD, *slots(0xFF)]


def crc(*data):
    return crc16(bytes(data)).to_bytes(2, "little").hex()


# The words played to a new tag, and what parts then hold. A byte or a field that is heard fills from its high end.
MOMENTS = {
    "a new tag": ([], dict(VERSION="01", CODE="40", CHOOSING="000000", STAGE="000000", NUMBER=ROM.hex(), MODE="00",
                           SCRATCHPAD="00" * 32, WAIT="00" * 8, FIELD="00" * 8)),
    "a reset": ([RESET], dict(CHOOSING="010000", STAGE="010000")),
    "three bits of a ROM command": ([RESET, 1, 1, 0], dict(CHOOSING="016003")),
    "nine bits of Read ROM": ([RESET, *slots(0x33, 0xFF), 1], dict(CHOOSING="020009")),
    "five bits of Match ROM": ([RESET, *slots(0x55), *slots(*ROM)[:5]], dict(CHOOSING="030005", MODE="00")),
    "five bits of Overdrive Match": ([RESET, *slots(0x69), *slots(*ROM)[:5]], dict(CHOOSING="030105", MODE="00")),
    "a Search's first bit": ([RESET, *slots(0xF0), 1], dict(CHOOSING="050000")),
    "its complement": ([RESET, *slots(0xF0), 1, 1], dict(CHOOSING="060000")),
    "its choice": ([RESET, *slots(0xF0), 1, 1, ROM[0] & 1], dict(CHOOSING="040001")),
    "Skip ROM": (CHOSEN, dict(CHOOSING="070000", STAGE="010000", MODE="00")),
    "Match ROM": ([RESET, *slots(0x55, *ROM)], dict(CHOOSING="070000", MODE="01")),
    "Overdrive Skip": ([RESET, *slots(0x3C)], dict(CHOOSING="070000", MODE="02")),
    "Overdrive Match": ([RESET, *slots(0x69, *ROM)], dict(CHOOSING="070000", MODE="03")),
    "three bits of a memory command": ([*CHOSEN, 0, 1, 1], dict(STAGE="010000", BYTE="c0", BITS="03")),
    "Write Scratchpad, a byte and three bits": ([*WRITTEN, 1, 1, 0], dict(
        STAGE="010306", BYTE="60", BITS="03", TA="2501", ADDRESS="2501", ENDING="05", PF="01", AA="00",
        CRC=crc(0x0F, 0x25, 0x01, 0x5A), SCRATCHPAD="00" * 5 + "5a" + "00" * 26)),
    "Write Scratchpad, a byte": (WRITTEN, dict(STAGE="010306", BYTE="00", BITS="00", ENDING="05", PF="00")),
    "a whole page written": ([*CHOSEN, *slots(0x0F, 0x00, 0x01, *PAGE)], dict(
        STAGE="030500", ENDING="1f", PF="00", TA="0001", SCRATCHPAD=PAGE.hex(), CRC=crc(0x0F, 0x00, 0x01, *PAGE))),
    "Read Scratchpad, two bytes": ([*WRITTEN, *CHOSEN, *slots(0xAA, 0xFF, 0xFF), 1], dict(
        STAGE="030200", BYTE="05", BITS="01", CRC=crc(0xAA, 0x25, 0x01))),
    "Copy, five bits of the password": ([*CHOSEN, *slots(0x99, 0x20, 0x01, 0x5F), 1, 0, 1, 1, 0], dict(
        STAGE="020100", BITS="05", STATUS="5f", ADDRESS="2001", FIELD="00" * 7 + "68", TA="0000")),
    "Copy, ten bits of the password": ([*CHOSEN, *slots(0x99, 0x20, 0x01, 0x5F, 0x5A), 1, 0], dict(
        BITS="0a", FIELD="00" * 6 + "8056")),
    "a Copy done": ([*CHOSEN, *slots(0x0F, 0x00, 0x01, *PAGE), *CHOSEN, *slots(0x99, 0x00, 0x01, 0x1F), *PASSWORD, 1], dict(
        STAGE="040000", BITS="01", AA="01", STATUS="1f", TA="0001")),
    "Read Memory, one bit": ([*CHOSEN, *slots(0x69, 0x14, 0x02), *PASSWORD, 1], dict(
        STAGE="030400", ADDRESS="1402", BYTE="f0", BITS="01", CRC=crc(0x69, 0x14, 0x02), FIELD="00" * 8)),
    "a tick": ([tick(0x5A7)], dict(READING="a705")),
    "a mission's delay": ([*mission(10, delay=1), tick(5), tick(6), tick(7)], dict(MINUTE="03", WAIT="00" * 8, READING="0700")),
    "a mission's first conversion": ([*mission(600, seconds=False), tick(9)], dict(
        MINUTE="00", WAIT=(36000 - 1).to_bytes(8, "little").hex())),
}


def moments(driver):
    shown = set()
    for name, (words, parts) in MOMENTS.items():
        played, _, record = left(driver, NEW_IMAGE, NEW, "words", words, len(words))
        got = {part: packed.part(record, part).hex() for part in parts}
        yield f"{name}: the parts of the record", played.answer == 0 and got == parts, f"answer {played.answer}, {got}"
        shown.update(part for part, text in parts.items() if int(text, 16))
    yield "each part holds something in one of these moments", shown == set(packed.PARTS), set(packed.PARTS) - shown
