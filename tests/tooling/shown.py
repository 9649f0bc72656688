"""What is shown: odd logs, the clock's two forms, the figures, where it comes from, thresholds, long logs."""

import hashlib
import os
import random
import re
import sys
import tempfile
from datetime import datetime
from html.parser import HTMLParser
from xml.dom import minidom
from xml.parsers.expat import ExpatError

from .common import LANDING, TOP, content, listing, shown

sys.path.insert(0, os.path.join(TOP, "tools"))

from reader import listing as listings
from reader import summary
from reader.words import date_of

ROM = "412BC5FB000000A1"
VOID = {"meta", "br", "hr", "img", "link", "input"}
DAY = [(k, 600 * k, 100 + k) for k in range(60)]
FORMS = ("table", "picture", "report")
# The hours of a day as the tag's clock has them, in the 24-hour and in the twelve-hour form.
HOURS = (bytes.fromhex("000102030405060708091011121314151617181920212223"),
         bytes.fromhex("524142434445464748495051726162636465666768697071"))


# ---- Odd logs ----

ODD = (
    ("no entry", listing(stamp="000000000000"), "The log holds no entry."), ("one entry", listing((0, 0, 144)), "1 entry."),
    ("entry 0 alone", listing((0, -600, 144), stamp="000000000000"), "which is zeros: no counted entry has set it"),
    ("an alarm start", listing((0, -1, 16), (1, 0, 23)), "Entry 0 is the alarm that started the log, to half a degree; the stamp"),
    ("an older tag's alarm start", listing((0, -1, 23), (1, 0, 23)), "Entry 0 is the alarm that started the log; the stamp"),
    ("rollover", listing(*((k, 60 * k, 8 * (k % 99)) for k in range(5000, 13192))), "The 5,000 older entries were"),
    ("a minute's period", listing(*((k, 60 * k, 8 * (k % 99)) for k in range(90))), "one every minute."),
    ("a gap", listing(*(entry for entry in DAY if not 9 < entry[0] < 20)), "Entries are missing in 1 place"),
    ("one entry twice", listing((3, 0, 5), (3, 0, 5)), "Entries are missing in 1 place"),
    ("no date", listing(*DAY, stamp="003005321126"), "00 30 05 32 11 26, which is no date and time"),
    ("no digits", listing(*DAY, stamp="0A3005121126"), "which is no date and time"),
    ("12 PM", listing(*DAY, stamp="003072121126"), "the stamp is 2026-11-12 12:30:00"),
    ("13 PM", listing(*DAY, stamp="003073121126"), "00 30 73 12 11 26, which is no date and time"),
    ("the next century", listing(*DAY, stamp="003005129126"), "the stamp is 2126-11-12 05:30:00"),
    ("centuries", listing(*((k, 982980 * k, k % 99) for k in range(8192))), "one every 11 d 9 h 3 min"),
    ("out of the calendar", listing((16000000, 982980 * 16000000, 5)), "they lead out of the calendar"),
    ("the ends of 64 bits", listing((0, -2 ** 63, -32768), (1, 2 ** 63 - 1, 32767)), "they lead out of the calendar"),
    ("one entry at the end", listing((0, 2 ** 63 - 1, 5)), "they lead out of the calendar"),
    ("out of it in the middle", listing((0, 0, 5), (1, 2 ** 62, 5), (2, 60, 5)), "they lead out of the calendar"),
)


def odd_logs():
    """Each is well-formed, and says in words what it can't show, in every zone and unit."""
    for name, text, says in ODD:
        for word in FORMS:
            for more in ((), ("--fahrenheit", "--zone", "UTC-03:30")):
                got = shown(word, "-", "--low", "-5", "--high", "20.5", *more, stdin=text)
                yield f"the {word} of {name} {more}", says in got and well_formed(word, got), got[:300]


def well_formed(word, text):
    if word == "picture":
        try:
            minidom.parseString(text.encode())
        except ExpatError:
            return False
    return word != "report" or Page(text).whole()


class Page(HTMLParser):
    """Whether every element that opens is closed, and nothing is loaded from elsewhere."""

    def __init__(self, text):
        super().__init__()
        self.open, self.wrong = [], []
        self.feed(text)
        self.loads = re.findall(r"(?:src|href|action)=|@import|url\((?!#)|https?://(?!www\.w3\.org/2000/svg\")", text)

    def handle_starttag(self, tag, attrs):
        if tag not in VOID:
            self.open.append(tag)

    def handle_endtag(self, tag):
        if not self.open or self.open.pop() != tag:
            self.wrong.append(tag)

    def whole(self):
        return not (self.open or self.wrong or self.loads)


# ---- The clock's two forms ----

def hours():
    """Each byte is read in the form that its bit 6 names, and the times of a log are the same in both."""
    due = {byte: hour for form in HOURS for hour, byte in enumerate(form)}
    read = {byte: date_of(bytes((0x59, 0x59, byte, 0x12, 0x11, 0x26))) for byte in range(256)}
    wrong = [f"{byte:02X}: {got}" for byte, got in read.items()
             if got != (datetime(2026, 11, 12, due[byte], 59, 59) if byte in due else None)]
    yield "every hours byte", not wrong, wrong
    for hour in (0, 1, 11, 12, 13, 23):
        stamps = (f"0030{form[hour]:02X}121126" for form in HOURS)
        one, other = (shown("table", "-", "--csv", stdin=listing(*DAY, stamp=stamp)) for stamp in stamps)
        right = one == other and f"\n0,2026-11-12 {hour:02d}:30:00,0," in one
        yield f"the times of a log from {hour}:30 on, in both forms", right, other[:300]


# ---- The figures ----

def figures():
    """Against plain counting, on random logs."""
    rng, wrong = random.Random(3), []
    for _ in range(300):
        first = rng.randrange(5)
        ks = sorted(rng.sample(range(first, first + 60), rng.randrange(1, 50)))
        entries = [listings.Entry(k, 300 * k, rng.randrange(-20, 60)) for k in ks]
        bounds = listings.Thresholds(rng.choice((None, -8, 0, 16)), rng.choice((None, 16, 24, 56)))
        found = summary.summary(listings.Listing(0x40, bytes(6), entries), bounds, 300)
        degrees = {entry.k: entry.temperature for entry in entries}
        above = [k for k in ks if bounds.high is not None and degrees[k] >= bounds.high]
        below = [k for k in ks if bounds.low is not None and degrees[k] // 8 <= bounds.low // 8]
        longest = max((n for k in above for n in range(1, 61) if all(k + i in above for i in range(n))), default=0)
        values = list(degrees.values())
        expected = (min(values), max(values), sum(values) / len(values), len(above), len(below), longest)
        got = (found.lowest.temperature, found.highest.temperature, found.mean, found.above, found.below, len(found.longest))
        wrong += [] if got == expected else [(entries, bounds, got, expected)]
    yield "the figures of random logs", not wrong, wrong[:1]
    table = shown("table", "examples/landing.dump")
    for words in ("Lowest                    2.5000 °C, entry 55, 2026-11-12 14:40:01", "Mean                      7.06 °C",
                  "Time at or above 10.0 °C  1 h 50 min (11 entries)",
                  "Longest stretch above     1 h 50 min (11 entries), entry 24 to 34, 2026-11-12 09:30:01 to 2026-11-12 11:10:01",
                  "A time at a threshold is entries times period, 10 min each"):
        yield f"the landing's table: {words}", words in table, table[-900:]


# ---- Where it comes from ----

def evidence():
    for path, more, tag in (("examples/landing.session", LANDING[1:], f"{ROM}, by the session"),
                            ("examples/landing.dump", (), "number not known: a dump has no registration number"),
                            ("examples/landing.dump", ("--rom", ROM), f"{ROM}, given with --rom"),
                            ("examples/landing.dump", ("--rom", "41-000000fbc52b"), f"{ROM}, given with --rom"),
                            ("examples/landing.listing", (), "number not known: a listing has no registration number")):
        digest = hashlib.sha256(content(path)).hexdigest()
        for word in FORMS:
            got = shown(word, path, *more)
            build = "a listing does not say which program" if path.endswith("listing") else "list, a "
            for part in (tag, path, digest, build, f"{datetime.now():%Y-%m-%d} ", "by reader, revision "):
                yield f"the {word} of {path} {more} has '{part}'", part in got, got[:1500]
    with tempfile.TemporaryDirectory() as folder:
        path = os.path.join(folder, "<b>&amp;\n'\".dump")
        with open(path, "wb") as file:
            file.write(content("examples/landing.dump"))
        for word in FORMS:
            got = shown(word, path, "--high", "11")
            name = "<b>&amp;\\n'" if word == "table" else "&lt;b&gt;&amp;amp;\\n&#x27;"
            yield f"the {word} of a file with an odd name", well_formed(word, got) and name in got, got[:1500]
    page = shown("report", "examples/landing.dump", "--note", b"<i>Bag 7</i>\nlot \xFF")
    yield "a note", "&lt;i&gt;Bag 7&lt;/i&gt;\nlot \\udcff" in page and "<i>" not in page, page[:1500]


def at_overdrive():
    """A session that ends at overdrive, within a command: its dump begins with a long reset, and is what it was before."""
    session = content("examples/landing.session") + b"05 x3\n00\n01 3C\n05\n01 69 412BC5FB000000A1 69 00\n"
    dump = content("examples/landing.dump").decode()
    yield "the dump at overdrive", shown("dump", "-", *LANDING[1:], stdin=session) == dump, None
    expected = shown("table", "examples/landing.dump", "--csv")
    got = shown("table", "-", *LANDING[1:], "--csv", stdin=session)
    yield "the table at overdrive", got == expected, got[:300]
    for word in FORMS[1:]:
        got = shown(word, "-", *LANDING[1:], stdin=session)
        yield f"the {word} at overdrive", ROM in got and well_formed(word, got), got[:300]
    with tempfile.TemporaryDirectory() as folder:
        got = shown("show", "-", *LANDING[1:], "-o", folder, stdin=session)
        yield "show at overdrive", ROM in got and content(folder, "shown.dump").decode() == dump, got[:300]


def thresholds():
    for more, says in (((), "at or above 10.0 °C (high, set in the tag)."),
                       (("--high", "11"), "11.0 °C (high, given with --high)"),
                       (("--low", "3"), "10.0 °C (high, set in the tag) and at or below 3.0 °C (low, given with --low)"),
                       (("--low", "3"), "so low is every temperature below 3.5 °C")):
        for word in FORMS:
            got = shown(word, "examples/landing.dump", *more)
            yield f"the {word} with {more}", says in got.replace("\n", " "), got[:900]
    got = shown("table", "examples/landing.listing")
    yield "a listing without thresholds", "No threshold is known" in got, got[:900]


def long_logs():
    """A long log is summed up on the terminal, with a pointer to its rows."""
    text = listing(*((k, 60 * k, k % 300) for k in range(8192)))
    with tempfile.TemporaryDirectory() as folder:
        got = shown("show", "-", "-o", folder, stdin=text)
        rows = len(re.findall(rb"(?m)^ *\d+  2026-", content(folder, "shown.table")))
        right = got.count("\n") < 40 and f"All 8,192 rows: {folder}/shown.table" in got and "Mean" in got and rows == 8192
        yield "show of a long log", right, (got, rows)
    yield "table of a long log", shown("table", "-", stdin=text).count("\n") > 8192, None
    page = shown("report", "-", stdin=text)
    yield "every entry is in the report", len(re.findall(r"<td>\d+</td><td>", page)) == 8192, len(page)


def checks():
    for group in (odd_logs, hours, figures, evidence, at_overdrive, thresholds, long_logs):
        yield from group()
