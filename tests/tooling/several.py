"""Sessions of several tags on one line: how they are written, which tag is shown, and what is told of wrong ones."""

import os
import re
import tempfile

from .common import FAILED, LANDING, MISUSED, NEW_TAG, READER, REFUSED, content, leftovers, one_line, shown, start

SECOND = "41D70AFC00000065"
SECOND_TAG = f"04 40 {SECOND}\n"
TWO = NEW_TAG + SECOND_TAG
GROWERS = "examples/two-growers.session"
FORMS = ("table", "picture", "report")

# What is given to `reader play`, the status and what the line says.
SESSION_FAULTS = (
    (NEW_TAG + "00\n" + SECOND_TAG, MISUSED, "line 3: new tags come before all other frames"),
    (TWO * 4, MISUSED, "line 8: an eighth tag, and a line has 7 at most"),
    (TWO + "04 40 41\n", MISUSED, "line 3: frame 04 takes 9 bytes"),
    (NEW_TAG + SECOND_TAG[:-1] + " x2\n", MISUSED, "line 2: a new tag comes once"),
    (NEW_TAG[:-1] + " @0\n", MISUSED, "line 1: @ and a place are for a tick, frame 03, alone"),
    (TWO + "00 @1\n", MISUSED, "line 3: @ and a place are for a tick"), (TWO + "01 CC @1\n", MISUSED, "line 3: @ and a place"),
    (TWO + "02 ?? @1 x3\n", MISUSED, "line 3: @ and a place"), (TWO + "05 @0\n", MISUSED, "line 3: @ and a place"),
    (TWO + "03 0100 @2\n", MISUSED, "line 3: there is no tag at place 2: places are 0 to 1"),
    (TWO + "03 0100 @999999999 x2\n", MISUSED, "line 3: there is no tag at place 999999999"),
    (NEW_TAG + "03 0100 @1\n", MISUSED, "line 2: there is no tag at place 1: the session has one tag, at place 0"),
    (TWO + "03 0100 x2 @1\n", MISUSED, "line 3: '03 0100 x2 @1' is not pairs"),
    (TWO + "03 0100 @\n", MISUSED, "is not pairs"), (TWO + "03 0100 @-1\n", MISUSED, "is not pairs"),
    (TWO + "03 0100@1\n", MISUSED, "is not pairs"), (TWO + "@1\n", MISUSED, "is not pairs"),
    (TWO + "03 0800 @1\n", MISUSED, "line 3: the reading 0800 is above 07FF"),
    (TWO + "03 0100 x10000001\n", MISUSED, "more than 20,000,000 events"),
    (NEW_TAG * 2, REFUSED, "lines 1 to 2: the tags refused with 13: two tags with the same number"),
    (NEW_TAG + "04 41 412BC5FB000000A2\n", REFUSED, "lines 1 to 2: the tags refused with 04"),
    (NEW_TAG + f"\n04 41 {SECOND}\n", REFUSED, "lines 1 to 3: the tags refused with 05"),
    (TWO + "00\n01 33\n02 41 2B\n", REFUSED, "line 5, byte 2 read: the tag sent 03, the session says 2B"),
)
# Words of a command, which gets a new tag and a reset as standard input.
WORDS = (
    *(([READER, word, GROWERS], MISUSED, f"{GROWERS} has 2 tags: say which with --place; places are 0 to 1")
      for word in ("dump", "show", *FORMS)),
    ([READER, "dump", GROWERS, "--place", "2"], MISUSED, f"there is no tag at place 2 in {GROWERS}: places are 0 to 1"),
    ([READER, "table", "-", "--place", "1"], MISUSED, "no tag at place 1 in standard input: the session has one tag, at place 0"),
    ([READER, "dump", GROWERS, "--place", "first"], MISUSED, "'first' is no place"),
    ([READER, "dump", GROWERS, "--place", "-1"], MISUSED, "'-1' is no place"),
    ([READER, "table", "examples/landing.dump", "--place", "0"], MISUSED, "for a session of several tags, and examples/landing.dump is"),
    ([READER, "report", "examples/landing.listing", "--place", "0"], MISUSED, "and examples/landing.listing is a listing"),
    ([READER, "dump", GROWERS, "--place", "1", "-p", "WRONGPW1"], REFUSED, "did not give page 0200h: is the password right?"),
    ([READER, "table", GROWERS, "--place", "1", "--rom", "412BC5FB000000A1"], MISUSED, f"and the session's tag {SECOND}"),
    ([READER, "play", GROWERS, "--shed", "/nowhere/shed"], FAILED, "can't run '/nowhere/shed': no such file"),
    ([READER, "play", GROWERS, "--shed", ""], MISUSED, "--shed: the command is empty"),
    ([READER, "play", GROWERS, "--shed", "echo"], FAILED, "'shed' did not answer each of the 5,701 events"),
    ([READER, "play", GROWERS, "--shed", "echo R14"], REFUSED, "lines 3 to 4: the tags refused with 14: a count of tags of 0 or"),
    ([READER, "play", GROWERS, "--shed", "echo R02"], REFUSED, "line 7: the tags refused with 02: a tick with a reading above"),
)


def told():
    cases = [([READER, "play", "-"], *case) for case in SESSION_FAULTS]
    cases += [(words, NEW_TAG + "00\n", status, says) for words, status, says in WORDS]
    for words, stdin, status, says in cases:
        yield f"{words} with {stdin[-60:]!r}", *one_line(start(words, stdin), status, says)


def unrecorded():
    """The second tag is told before anything is played, and nothing is written."""
    with tempfile.TemporaryDirectory() as folder:
        touch = f"touch {os.path.join(folder, 'played')}"
        done = start([READER, "record", GROWERS, "--play", touch, "-o", os.path.join(folder, "out")])
        yield "record, several tags", *one_line(done, MISUSED, "line 4: a second tag, and a recording is of one")
        yield "record, several tags, what is left", leftovers(folder) == [], leftovers(folder)


# ---- One tag among others ----

def beside(session):
    """The session with a second tag on the line."""
    return session.replace(NEW_TAG.encode(), TWO.encode(), 1)


def dumped(session, place):
    return shown("dump", "-", *LANDING[1:], "--place", str(place), stdin=session)


def ticks():
    """The landing is set up by Skip and hears its ticks whole: a second tag beside it logs the same, and without its ticks
    nothing."""
    session, dump = content("examples/landing.session"), content("examples/landing.dump").decode()
    for place in (0, 1):
        yield f"a tick for every tag, place {place}", dumped(beside(session), place) == dump, None
    alone = re.sub(rb"(?m)^(03 \w+)", rb"\1 @0", session)
    yield "ticks for place 0 alone, place 0", dumped(beside(alone), 0) == dump, None
    other = dumped(beside(alone), 1)
    yield "ticks for place 0 alone, place 1", other.startswith("0200003005121126") and len(other) == len(dump), other[:80]
    yield "place 0 of one tag", dumped(alone, 0) == dump, None


def sent():
    """What the program is given, byte for byte: count and heads, then code, place and reading of each event."""
    session = TWO + "03 0150 x2\n03 0151 @1 x2\n00\n05\n01 02\n02 ??\n"
    groups = "03000150 03010150" * 2 + "03010151" * 2 + "02000000 04000000"
    groups += "".join(f"0{bit}000000" for bit in "01000000" "11111111")  # 02h, low bit first, and a byte read
    with tempfile.TemporaryDirectory() as folder:
        path = os.path.join(folder, "stdin")
        done = start([READER, "play", "-", "--shed", f"cp /dev/stdin {path}"], session)
        yield "a program that answers nothing", *one_line(done, FAILED, "'shed' did not answer each of the 24 events")
        due = bytes.fromhex(f"02 412BC5FB000000A1 40 {SECOND} 40 {groups}")
        yield "what it was given", content(path) == due, content(path).hex()


def which():
    """What is shown is of the tag that was asked for, and says so."""
    for place, number, highest in ((0, "412BC5FB000000A1", "9.00"), (1, SECOND, "12.00")):
        for word in FORMS:
            got = shown(word, GROWERS, "-p", "INSPECT1", "--place", str(place))
            right = f"{number}, by the session, at place {place}" in got
            yield f"the {word} of place {place}", right and (word == "picture" or highest in got), got[:900]
        page = shown("report", GROWERS, "-p", "INSPECT1", "--place", str(place))
        yield f"the report of place {place} names its program", "a tag played by the program shed, from a session" in page, page[:900]
        with tempfile.TemporaryDirectory() as folder:
            got = shown("show", GROWERS, "-p", "INSPECT1", "--place", str(place), "-o", folder)
            dump = shown("dump", GROWERS, "-p", "INSPECT1", "--place", str(place))
            yield f"show of place {place}", number in got and content(folder, "two-growers.dump").decode() == dump, got[:900]
    played = shown("play", GROWERS, "--play", "false")
    yield "several tags are not played by --play", played == content("examples/two-growers.played").decode(), played[:300]
    played = shown("play", "examples/setup.session", "--shed", "false")
    yield "one tag is not played by --shed", played == content("examples/setup.played").decode(), played[:300]


def checks():
    for group in (told, unrecorded, ticks, sent, which):
        yield from group()
