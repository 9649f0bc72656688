"""The dock's listing as the program `list` prints it: from hexadecimal to numbers, and the words for refusals."""

import re
from collections import namedtuple

from . import Misuse, Refusal

REFUSALS = {
    1: "an event code above 4",
    2: "a tick with a reading above 2047",
    3: "the image is not 8,832 bytes long, or of several tags not 8,832 times their count",
    4: "a new tag whose first ROM byte is not 41h, or whose CRC-8 is wrong",
    5: "a new tag whose code is neither 40h (DS1922L) nor 60h (DS1922T)",
    6: "a record that breaks its ranges",
    7: "the dump is not 18,834 bytes long, or a line of it is not 72 digits 0-9 A-F and a line feed",
    8: "the CRC of a line of the dump is wrong",
    9: "a line of the dump has another page than its place asks",
    10: "the tag's memory is cleared (MEMCLR is 1): there is no mission to list",
    11: "the dump can't be of a mission: its code, sample rate, ETL bit or counts",
    12: "fewer places for temperatures than entries held",
    13: "two tags with the same number",
    14: "a count of tags of 0 or above 7, or a tick for a tag place that isn't there",
    17: "fewer reply bytes than the list of events has words",
}
DEVICES = {0x40: "DS1922L", 0x60: "DS1922T"}
DEGREE = 16  # temperatures are in sixteenths of a degree
HALF = 8  # the tag compares with its thresholds to half a degree

Entry = namedtuple("Entry", "k seconds temperature")
Listing = namedtuple("Listing", "code stamp entries")
# In sixteenths, None where there is none: an alarm at or above high, or below low and half a degree.
Thresholds = namedtuple("Thresholds", "low high", defaults=(None, None))

HEAD = re.compile(r"([0-9A-F]{2})([0-9A-F]{8})([0-9A-F]{12})")
ENTRY = re.compile(r"([0-9A-F]{8})([0-9A-F]{16})([0-9A-F]{4})")
REFUSAL = re.compile(r"R([0-9]{2})")


def parse(text, name):
    lines = text.split("\n")
    refusal = REFUSAL.fullmatch(lines[0])
    if refusal:
        raise refused(name, int(refusal[1]))
    head = HEAD.fullmatch(lines[0])
    if not head or int(head[1], 16) not in DEVICES:
        raise Misuse(f"{name}, line 1: not a listing's first line (code 40 or 60, number held, stamp: 22 digits)")
    if lines[-1] or len(lines) - 2 != int(head[2], 16):
        raise Misuse(f"{name}: its first line says {counted(int(head[2], 16))}, and it has {max(0, len(lines) - 2):,}")
    return Listing(int(head[1], 16), bytes.fromhex(head[3]), [entry_of(line, at, name) for at, line in enumerate(lines[1:-1], 2)])


def refused(name, number, words=None):
    """The refusal to raise; with the words for its number alone where nothing more is known."""
    return Refusal(f"{name}: the dock refused the dump with {number:02d}: {words or REFUSALS.get(number, 'no known refusal')}")


def entry_of(line, number, name):
    parts = ENTRY.fullmatch(line)
    if not parts:
        raise Misuse(f"{name}, line {number}: not an entry (k, seconds, temperature: 28 digits)")
    return Entry(int(parts[1], 16), signed(parts[2]), signed(parts[3]))


def signed(digits):
    return int.from_bytes(bytes.fromhex(digits), "big", signed=True)


def counted(number):
    return f"{number:,} {'entry' if number == 1 else 'entries'}"


def period_of(listing):
    """From the entries' own seconds, where they tell it."""
    entries = listing.entries
    if len(entries) > 1 and entries[-1].k > entries[0].k:
        return (entries[-1].seconds - entries[0].seconds) // (entries[-1].k - entries[0].k)
    return -entries[0].seconds if entries and entries[0].seconds < 0 else None  # entry 0, a period before the stamp
