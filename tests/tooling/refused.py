"""Dumps that the dock refuses: the line that is told, and what `reader mend` makes of them."""

import os
import random
import re
import subprocess
import sys
import tempfile

import dumps
from model import dock

from .common import DONE, MISUSED, READER, REFUSED, TOP, content, one_line, shown, start

sys.path.insert(0, os.path.join(TOP, "tools"))

from reader import dumps as explained
from reader import mend
from reader.listing import REFUSALS

GOOD = content("examples", "landing.dump")
LINES = GOOD.split(b"\n")[:-1]
RANDOM_DUMPS = 150


def with_line(number, line):
    return b"".join(part + b"\n" for part in [*LINES[:number - 1], line, *LINES[number:]])


def with_registers(values):
    """With other values in registers, and the CRCs that their lines then have."""
    data = bytearray(b"".join(bytes.fromhex(line[4:68].decode()) for line in LINES[:2]))
    for address, value in values.items():
        data[address - 0x0200] = value
    first, second = (dock.line(page, bytes(data[page - 0x0200:page - 0x01E0])) for page in (0x0200, 0x0220))
    return first + second + GOOD[2 * 73:]


# What an editor adds, and the words for it.
ADDED = (
    ("CRLF", GOOD.replace(b"\n", b"\r\n"), "lines 1 to 258 end in a return and a line feed (CRLF)"),
    ("CRLF in one line", with_line(9, LINES[8] + b"\r"), "line 9 ends in a return"),
    ("a byte-order mark", b"\xEF\xBB\xBF" + GOOD, "a byte-order mark stands before line 1"),
    ("a blank line", GOOD + b"\n", "blank lines follow line 258"),
    ("blank lines", GOOD + b"\n \t\n", "blank lines follow line 258"),
    ("no last line feed", GOOD[:-1], "the last line has no line feed"),
    ("lower case", GOOD.lower(), "lines from line 1 on have lower-case digits"),
    ("one line in lower case", with_line(5, LINES[4].lower()), "line 5 has lower-case digits"),
    ("all of it", b"\xEF\xBB\xBF" + GOOD.lower().replace(b"\n", b"\r\n") + b"\r\n\r\n",
     "a byte-order mark stands before line 1; lines 1 to"),
)
# What nobody can take away.
DAMAGED = (
    ("cut off after a line", GOOD[:73 * 100], 7, "it is cut off after line 100, and a dump has 258"),
    ("cut off in a line", GOOD[:73 * 100 + 31], 7, "it is cut off in line 101, after 31 of its 72 digits"),
    ("a line too short", with_line(10, LINES[9][:-1]), 7, "line 10 has 71 digits, and a dump's line has 72"),
    ("a line too long", with_line(10, LINES[9] + b"0"), 7, "line 10 has 73 digits"),
    ("a letter", with_line(10, LINES[9][:8] + b"G" + LINES[9][9:]), 7, "line 10, place 9: 'G' is no digit 0-9 A-F"),
    ("a blank in a line", with_line(10, LINES[9][:8] + b" " + LINES[9][9:]), 7, "line 10, place 9: ' ' is no digit"),
    ("an odd byte", with_line(10, LINES[9][:8] + b"\xFF" + LINES[9][9:]), 7, "line 10, place 9: 'FFh' is no digit"),
    ("a line too many", GOOD + LINES[0] + b"\n", 7, "it has 259 lines, and a dump has 258"),
    ("words before it", b"Hello,\n" + GOOD, 7, "line 1, place 1: 'H' is no digit"),
    ("a CRC", with_line(10, LINES[9][:-4] + b"0000"), 8,
     f"line 10 (page 10E0h): its CRC is 0000, and its data give {LINES[9][-4:].decode()}"),
    ("two CRCs", with_line(10, LINES[9][:-4] + b"0000").replace(LINES[20][-4:] + b"\n", b"0000\n", 1), 8, "other line"),
    ("two lines changed over", with_line(5, LINES[5]).replace(LINES[5] + b"\n" + LINES[5], LINES[5] + b"\n" + LINES[4]), 9,
     "line 5 has page 1060h where page 1040h belongs"),
    ("a cleared tag", with_registers({0x0215: 0x08}), 10, "the tag's memory is cleared (MEMCLR is 1)"),
    ("another code", with_registers({0x0226: 0x50}), 11, "its code is 50h, neither 40h (DS1922L) nor 60h (DS1922T)"),
    ("rate 0", with_registers({0x0206: 0}), 11, "its sample rate is 0"),
    ("ETL 0", with_registers({0x0213: 0xC4}), 11, "(ETL is 0)"),
    ("counts without rollover", with_registers({0x0222: 1}), 11,
     "it counts 65,602 entries without rollover, and the log has 4,096 places"),
    ("SUTA and no flag", with_registers({0x0213: 0xE5, 0x0214: 0x70}), 11, "but no alarm is marked"),
)


def told():
    for name, data, says in ADDED:
        done = start([READER, "table", "-"], data)
        yield f"a dump with {name}", *one_line(done, REFUSED, says)
        yield f"a dump with {name}, the way out", b"'reader mend' takes that away" in done.stderr, done.stderr
    for name, data, number, says in DAMAGED:
        done = start([READER, "show", "-"], data)
        yield f"a dump with {name}", *one_line(done, REFUSED, says)
        yield f"a dump with {name}, its number", f"refused the dump with {number:02d}".encode() in done.stderr, done.stderr


def words_fit():
    """For random dumps of every kind, the words found fit the refusal that the model gives; registers fit its listing."""
    seen, wrong = {}, []
    for number in range(RANDOM_DUMPS):
        kind, data, expected = dumps.dump(1, number)
        refusal = re.fullmatch(rb"R(\d\d)\n", expected)
        if refusal:
            which = int(refusal[1])
            words = explained.explain(which, data)
            seen[which] = seen.get(which, 0) + 1
            right = words == REFUSALS[10] if which == 10 else words not in ("", REFUSALS[which])
        else:
            words = explained.registers(data).period
            seconds = [int(line[8:24], 16) for line in expected.split(b"\n")[1:3] if line]
            right = len(seconds) < 2 or (seconds[1] - seconds[0]) % 2 ** 64 == words
        wrong += [] if right else [(number, kind, expected[:60], words)]
    yield "random dumps have words and periods that fit", not wrong, wrong[:2]
    yield "every refusal is among them", all(seen.get(number, 0) > 3 for number in (7, 8, 9, 10, 11)), seen


def registers_read():
    """What the pages say of registers that are not the landing's."""
    bounds = {0x0208: 0x02, 0x0209: 0x54}  # of a DS1922T: 16 and 672, less 16
    for word, values, says in (
            ("table", {0x0226: 0x60, **bounds, 0x0210: 3}, "at or above 41.0 °C (high, set in the tag) and at or below 0.0 °C (low"),
            ("table", {0x0226: 0x60, **bounds, 0x0210: 1}, "Alarms: at or below 0.0 °C (low, set in the tag)."),
            ("table", {0x0210: 0}, "No threshold: the tag's alarms are not enabled."),
            ("table", {0x0212: 3}, "66 entries, one every 10 s."), ("report", {0x0212: 3}, "every 10 s, 0.0625 °C an entry"),
            ("report", {0x0213: 0xD5}, "the oldest entries are overwritten (rollover)"),
            ("report", {0x0213: 0xE5}, "upon an alarm (SUTA)"),
            ("report", {0x0213: 0xE5}, "every 10 min, 0.0625 °C an entry</dd>"),
            ("report", {0x0213: 0xE1}, ", 0.5 °C an entry</dd>"), ("report", {0x0215: 0}, "no mission was running any more"),
            ("report", {0x0214: 0x71}, "low (TLF)"), ("report", {0x0203: 0x32}, "no date and time"),
            ("report", {0x0202: 0x64}, "<dd>2026-11-12 16:30:00</dd>"), ("report", {0x0202: 0x60}, "no date and time"),
            ("table", {0x021B: 0x45}, "stamp is 2026-11-12 05:30:01"), ("table", {0x021B: 0x52}, "2026-11-12 00:30:01"),
            ("report", {0x0225: 1}, "66 in this mission, 65,602 in the tag")):
        got = shown(word, "-", stdin=with_registers(values))
        yield f"the {word} of a dump with registers {values}", says in got, got[:900]
    got = shown("report", "examples/alarm-start.session")
    yield "the report of an alarm start", "0.0625 °C an entry, 0.5 °C in entry 0, the alarm" in got, got[:900]


# ---- Mending ----

def mended():
    with tempfile.TemporaryDirectory() as folder:
        old, new = os.path.join(folder, "old"), os.path.join(folder, "new")
        for name, data, says in ADDED:
            write(old, data)
            done = start([READER, "mend", old, "-o", new])
            said = done.stderr.decode()
            right = done.returncode == DONE and content(new) == GOOD and content(old) == data
            yield f"mending {name}", right, (done.returncode, said)
            told_all = all(part in said for part in ("mended: ", says.split(";")[0], "the dock takes it as mended"))
            yield f"mending {name}, told", told_all, said
        for name, data, number, says in DAMAGED:
            if number == 7:
                write(old, data)
                done = start([READER, "mend", old, "-o", new])
                right = done.returncode == REFUSED and content(new) == data and says in done.stderr.decode()
                yield f"mending {name} changes nothing", right, (done.returncode, done.stderr)
        write(old, GOOD)
        done = start([READER, "mend", old, "-o", new])
        right = done.returncode == DONE and content(new) == GOOD and b"is the same" in done.stderr
        yield "mending a good dump", right, done.stderr
        done = start([READER, "mend", "-", "-o", "-"], ADDED[0][1])
        yield "mending on the way", (done.returncode, done.stdout) == (DONE, GOOD), done.stderr
        with open(old, "rb") as file:
            done = subprocess.run([READER, "mend", "-o", old], stdin=file, stdout=subprocess.PIPE, stderr=subprocess.PIPE)
        yield "mending standard input into itself", *one_line(done, MISUSED, "NEW is the same file")
        done = start([READER, "mend", old, "-o", old])
        yield "mending a dump into itself", *one_line(done, MISUSED, "NEW is the same file")


def mends_no_more():
    """Random damage: nothing but the five things is ever changed."""
    rng, wrong = random.Random(7), []
    for _ in range(400):
        data = bytearray(rng.choice((GOOD, GOOD[:1000], rng.randbytes(400))))
        for _ in range(rng.randrange(6)):
            data.insert(rng.choice((rng.randrange(len(data) + 1), len(data))), rng.choice(b"\r\n aZ\xFF\xEF"))
        after, _ = mend.mended(bytes(data))
        wrong += [] if bare(after) == bare(bytes(data)) else [bytes(data[-80:])]
    yield "mending random damage touches nothing else", not wrong, wrong[:1]


def bare(data):
    """What mending must leave: everything but the mark, returns before a line feed or the end, blanks at the end, and case."""
    data = data[3:] if data.startswith(b"\xEF\xBB\xBF") else data
    return re.sub(rb"\r(?=\n|\Z)", b"", data).rstrip(b"\r\n \t").upper()


def write(path, data):
    with open(path, "wb") as file:
        file.write(data)


def checks():
    for group in (told, words_fit, registers_read, mended, mends_no_more):
        yield from group()
