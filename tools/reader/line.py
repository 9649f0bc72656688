"""Driving the programs `play` and `shed`: frames to events, line bits to bytes, and the dump by Read Memory, slot by slot."""

from . import Fault, Refusal
from .listing import REFUSALS
from .programs import refusal_in, run
from .sessions import (
    ANY, NEW_TAG, READ, RESET, SHORT_RESET, TICK, WRITE, Frame, all_events, events_in, player_of, tags_in, ticked)

FAMILY = 0x41  # the first ROM byte of a DS1922
MATCH_ROM, READ_MEMORY = 0x55, 0x69
PAGES = (0x0200, 0x0220, *range(0x1000, 0x3000, 32))  # of a dump, in its order
PAGE_BYTES, CRC_BYTES = 32, 2

# An event is three bytes for `play`: its code and a reading, which counts for a tick alone.
RESET_EVENT, SHORT_RESET_EVENT = b"\2\0\0", b"\4\0\0"
OF_EVENTS = (1, 2, 6)  # the refusals that are given to an event, and never to a new tag
BYTE_EVENTS = [b"".join(bytes((byte >> place & 1, 0, 0)) for place in range(8)) for byte in range(256)]


def events_of(frame):
    """What `play` reads for a frame; nothing for a new tag, which stands before all events."""
    if frame.kind == NEW_TAG:
        once = b""
    elif frame.kind == RESET:
        once = RESET_EVENT
    elif frame.kind == SHORT_RESET:
        once = SHORT_RESET_EVENT
    elif frame.kind == TICK:
        once = bytes((TICK, *frame.data))
    else:  # a byte is read by eight released slots, as FF is written
        once = b"".join(BYTE_EVENTS[0xFF if frame.kind == READ else byte] for byte in frame.data)
    return once * frame.times


def placed(events, place):
    """The same events for `shed`, where a place stands behind each code."""
    groups = bytearray((place,)) * (len(events) // 3 * 4)
    groups[0::4], groups[2::4], groups[3::4] = events[0::3], events[1::3], events[2::3]
    return bytes(groups)


def shed_events_of(frame, tags):
    """What `shed` reads for a frame, on a line of so many tags."""
    if frame.kind != TICK:
        return placed(events_of(frame), 0)
    second = events_of(frame._replace(times=1))
    return b"".join(placed(second, place) for place in ticked(frame, tags)) * frame.times


def stdin_of(frames):
    """What the program reads that a session is for."""
    tags = tags_in(frames)
    heads = b"".join(bytes((*rom, code)) for code, *rom in (tag.data for tag in tags))
    if len(tags) == 1:
        return heads + b"".join(map(events_of, frames))
    return bytes((len(tags),)) + heads + b"".join(shed_events_of(frame, len(tags)) for frame in frames)


def play(command, frames, name):
    """The bytes that each frame reads, none for frames that read nothing."""
    output = run(command, stdin_of(frames))
    check_answers(output, frames, name)
    answers, at, tags = [], 0, len(tags_in(frames))
    for frame in frames:
        count = events_in(frame, tags)
        bits = output[2 * at:2 * (at + count):2] if frame.kind == READ else b""
        answers.append(bytes(int(bits[i:i + 8][::-1], 2) for i in range(0, len(bits), 8)))
        at += count
    return answers


def check_answers(output, frames, name):
    """Each event has its answer, 0 or 1 and a line feed; a refusal is told with the frame that it came for."""
    total = all_events(frames)
    number = refusal_in(output)
    if number:
        answered = (len(output) - 4) // 2
        where = where_of_event(frames, answered) if answered or number in OF_EVENTS else where_of_tags(frames)
        raise Refusal(f"{name}, {where} refused with {number:02d}: {REFUSALS.get(number, 'no known refusal')}")
    if len(output) != 2 * total or output[::2].strip(b"01") or output[1::2].strip(b"\n"):
        raise Fault(f"'{player_of(frames)}' did not answer each of the {total:,} events of {name} with 0 or 1")


def where_of_event(frames, event):
    """The line of an event, and who took it."""
    tags = len(tags_in(frames))
    who = "the tag" if tags == 1 else "the tags"
    for frame in frames:
        if event < events_in(frame, tags):
            return f"line {frame.line}: {who}"
        event -= events_in(frame, tags)
    return f"line 0: {who}"


def where_of_tags(frames):
    """The lines of the new tags: which of several was refused, the program does not say."""
    first, *others = tags_in(frames)
    return f"lines {first.line} to {others[-1].line}: the tags" if others else f"line {first.line}: the tag"


# ---- The dump ----

def dump_frames(rom, password):
    """Each page read first, by a Read Memory of its own: so that its CRC is over command, address and data. A long reset is heard
    at either speed, whatever the session left."""
    for page in PAGES:
        yield Frame(RESET, [])
        yield Frame(WRITE, [MATCH_ROM, *rom, READ_MEMORY, page & 0xFF, page >> 8, *password])
        yield Frame(READ, [ANY], PAGE_BYTES + CRC_BYTES)


def take_dump(command, frames, password, name, place):
    """Plays a session, then reads the 258 pages of the tag at a place over the line: the dump's text, and the bytes that the
    session's frames read."""
    rom = tags_in(frames)[place].data[1:]
    answers = play(command, [*frames, *dump_frames(rom, password)], name)
    lines = []
    for page, sent in zip(PAGES, answers[len(frames) + 2::3]):
        command_bytes = bytes((READ_MEMORY, page & 0xFF, page >> 8))
        if crc16(command_bytes + sent[:PAGE_BYTES]) ^ 0xFFFF != int.from_bytes(sent[PAGE_BYTES:], "little"):
            raise Refusal(f"{name}: the tag did not give page {page:04X}h: is the password right?")
        lines.append(f"{page:04X}{sent.hex().upper()}\n")
    return "".join(lines), answers[:len(frames)]


# ---- CRCs ----

def crc16(data):
    """x^16+x^15+x^2+1, low bit first, from 0."""
    return crc(data, 0xA001)


def crc8(data):
    """x^8+x^5+x^4+1, low bit first, from 0."""
    return crc(data, 0x8C)


def crc(data, polynomial):
    value = 0
    for byte in data:
        value ^= byte
        for _ in range(8):
            value = value >> 1 ^ (polynomial if value & 1 else 0)
    return value
