"""Sessions: what a master does on the line, as frames in hexadecimal, one a line.

    04 40 412BC5FB000000A1   a new tag: the code, then the eight ROM bytes; the first frames, one for each tag on the line
    00                       reset: the long one, which ends overdrive
    01 CC 69 00 02           bytes written
    02 41 ?? ??              bytes read: ?? is any byte, a byte that is given is compared with what the tag sends
    03 0150                  a tick of one second with its reading, high byte first, 07FF at most: for each tag in turn
    03 0150 @1               a tick for the tag at place 1 alone: places count from 0, in the order of the new tags
    05                       short reset: at overdrive a reset that keeps the speed, at standard speed nothing at all
    03 0150 x3600            a frame that many times; 02 ?? x34 reads 34 bytes

A session with one new tag is for the program `play`, one with two to seven for `shed`: resets and slots go to all of them.
Blanks may stand anywhere between bytes, # begins a comment, lower case is taken. The strict form has none of these: upper
case pairs alone, a line for each frame, 64 bytes at most in a line. It has the frames 00 to 04 alone, and none for a short reset;
and it is of one tag.
"""

import re
from collections import namedtuple
from itertools import takewhile

from . import Misuse

RESET, WRITE, READ, TICK, NEW_TAG, SHORT_RESET = range(6)
ANY = None  # a byte to be read, whatever it is
LARGEST_READING = 2047
MOST_TAGS = 7  # on a line
LARGEST_SESSION = 20_000_000  # events; a tick a second makes 231 days
STRICT_BYTES = 63  # in a line beside the frame's own

# data: its bytes, ANY for ??; line: its number in the file, 0 for a frame that stands in none; place: of the tag that a tick is
# for, None if it is for every tag
Frame = namedtuple("Frame", "kind data times line place", defaults=(1, 0, None))

PAIR = re.compile(r"[0-9A-Fa-f]{2}|\?\?")
BODY = re.compile(r"(?:[0-9A-Fa-f]{2}|\?\?)+")
TIMES = re.compile(r"x([0-9]{1,9})")
PLACE = re.compile(r"@([0-9]{1,9})")


def tags_in(frames):
    """The frames of the new tags, in the order of their places."""
    return list(takewhile(lambda frame: frame.kind == NEW_TAG, frames))


def player_of(frames):
    """The name of the program that a session is for."""
    return "shed" if len(tags_in(frames)) > 1 else "play"


def ticked(frame, tags):
    """The places that a tick is for, on a line of so many tags."""
    return range(tags) if frame.place is None else (frame.place,)


def events_in(frame, tags):
    """How many events a frame is, on a line of so many tags. A new tag is none."""
    if frame.kind in (WRITE, READ):
        return frame.times * 8 * len(frame.data)
    return frame.times * {NEW_TAG: 0, TICK: len(ticked(frame, tags))}.get(frame.kind, 1)


def all_events(frames):
    tags = len(tags_in(frames))
    return sum(events_in(frame, tags) for frame in frames)


# ---- Reading a session ----

def parse(text, name):
    """The frames of a session; its first are the new tags."""
    frames = []
    for number, line in enumerate(text.split("\n"), 1):
        try:
            frame = parse_line(line, number)
            if frame:
                check(frame, frames)
                check_place(frame, frames)
                frames.append(frame)
        except ValueError as error:
            raise Misuse(f"{name}, line {number}: {error}") from None
    if not frames:
        raise Misuse(f"{name}: no frame; a session begins with 04, the code and eight ROM bytes")
    if all_events(frames) > LARGEST_SESSION:
        raise Misuse(f"{name}: more than {LARGEST_SESSION:,} events")
    return frames


def parse_line(line, number):
    """The frame of a line, or None for a line with none."""
    words = line.split("#")[0].split()
    if not words:
        return None
    times, place = taken(words, TIMES, 1), taken(words, PLACE, None)
    body = "".join(words)
    if not BODY.fullmatch(body):
        raise ValueError(f"'{line.split('#')[0].strip()[:40]}' is not pairs of hexadecimal digits")
    kind, *data = (ANY if pair == "??" else int(pair, 16) for pair in PAIR.findall(body))
    return Frame(kind, data, times, number, place)


def taken(words, form, without):
    """Takes the last word away if it has this form, and gives its number; else what holds without one."""
    found = form.fullmatch(words[-1]) if words else None
    return int(words.pop()[1:]) if found else without


def check(frame, before):
    """A ValueError says what is wrong with a frame, behind those before it."""
    kind, data = frame.kind, frame.data
    if kind is ANY or kind > SHORT_RESET:
        raise ValueError(f"{hex_of([kind])} is no frame: 00 reset, 01 write, 02 read, 03 tick, 04 new tag, 05 short reset")
    if not before and kind != NEW_TAG:
        raise ValueError("the first frame is 04, the code and eight ROM bytes")
    if kind == NEW_TAG and before and before[-1].kind != NEW_TAG:
        raise ValueError("new tags come before all other frames")
    if kind == NEW_TAG and len(before) == MOST_TAGS:
        raise ValueError(f"an eighth tag, and a line has {MOST_TAGS} at most")
    if kind != READ and ANY in data:
        raise ValueError("?? is for bytes read, in frame 02, alone")
    if frame.times == 0 or kind == NEW_TAG and frame.times > 1:
        raise ValueError("a new tag comes once" if frame.times else "x0 times is no frame")
    wanted = {NEW_TAG: 9, RESET: 0, SHORT_RESET: 0, TICK: 2}.get(kind)
    if wanted is not None and len(data) != wanted:
        raise ValueError(f"frame {kind:02X} takes {wanted or 'no'} bytes after its own, and here are {len(data)}")
    if wanted is None and not data:
        raise ValueError(f"frame {kind:02X} takes one byte or more after its own")
    if kind == TICK and data[0] << 8 | data[1] > LARGEST_READING:
        raise ValueError(f"the reading {data[0]:02X}{data[1]:02X} is above 07FF")


def check_place(frame, before):
    if frame.place is None:
        return
    if frame.kind != TICK:
        raise ValueError("@ and a place are for a tick, frame 03, alone")
    tags = len(tags_in(before))
    if frame.place >= tags:
        raise ValueError(f"there is no tag at place {frame.place}: {places(tags)}")


def places(tags):
    """Where tags are, in words."""
    return f"places are 0 to {tags - 1}" if tags > 1 else "the session has one tag, at place 0"


def place_in(frames, asked, name):
    """The place of the tag that is asked for. With several tags it must be."""
    tags = len(tags_in(frames))
    if asked is None and tags > 1:
        raise Misuse(f"{name} has {tags} tags: say which with --place; {places(tags)}")
    if asked is not None and asked >= tags:
        raise Misuse(f"--place: there is no tag at place {asked} in {name}: {places(tags)}")
    return asked or 0


# ---- Writing one ----

def hex_of(data):
    return "".join("??" if byte is ANY else f"{byte:02X}" for byte in data)


def filled(text, frames, answers):
    """The session's own text with the bytes read in place of what stood there; answers has them, a frame each."""
    lines = text.split("\n")
    for frame, answer in zip(frames, answers):
        if frame.kind == READ:
            lines[frame.line - 1] = filled_line(lines[frame.line - 1], frame, answer)
    return "\n".join(lines)


def filled_line(line, frame, answer):
    body, mark, comment = line.partition("#")
    kept = body.rstrip()
    blanks = body[len(kept):] if mark else ""
    if frame.times > 1:
        groups = (answer[at:at + 8].hex().upper() for at in range(0, len(answer), 8))
        return " ".join(("02", *groups)) + blanks + mark + comment
    pairs = iter(("02", *(f"{byte:02X}" for byte in answer)))
    return PAIR.sub(lambda _: next(pairs), kept) + blanks + mark + comment


def check_recordable(frames, name):
    """A recording is there to hold another tag against, and its form has no frame for a short reset, nor for a second tag."""
    tags = tags_in(frames)
    if len(tags) > 1:
        raise Misuse(f"{name}, line {tags[1].line}: a second tag, and a recording is of one")
    for frame in frames:
        if frame.kind == SHORT_RESET:
            raise Misuse(f"{name}, line {frame.line}: a short reset (05), which a recording has no frame for")


def strict(frames, answers):
    """The recording of a session: its lines in the strict form, with the bytes read filled in."""
    for frame, answer in zip(frames, answers):
        data = answer if frame.kind == READ else bytes(frame.data) * frame.times
        if frame.kind in (WRITE, READ):
            for at in range(0, len(data), STRICT_BYTES):
                yield f"{frame.kind:02X}{data[at:at + STRICT_BYTES].hex().upper()}\n"
        else:
            yield f"{frame.kind:02X}{hex_of(frame.data)}\n" * frame.times


def disagreements(frames, answers):
    """A sentence for each byte that was given and is not what the tag sent."""
    return [f"line {frame.line}, byte {at} read: the tag sent {sent:02X}, the session says {given:02X}"
            for frame, answer in zip(frames, answers) if frame.kind == READ
            for at, (given, sent) in enumerate(zip(frame.data * frame.times, answer), 1) if given is not ANY and given != sent]
