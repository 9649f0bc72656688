"""A listing in words: times, degrees, and what a reader must know of the entries beside their values."""

import re
from datetime import datetime, timedelta

from .listing import DEGREE, HALF, counted, period_of

DAYS_OF_ZONES = timedelta(days=2)  # more than any two zones are apart


# ---- The stamp ----

def date_of(fields):
    """Six clock bytes as a date and time, or None if they are none. CENT 0 is 20xx, as in the makers' mission example."""
    seconds, minutes, hours, date, month, year = fields
    try:
        return datetime(2000 + 100 * (month >> 7) + decimal(year), decimal(month & 0x7F), decimal(date), hour_of(hours),
                        decimal(minutes), decimal(seconds))
    except ValueError:
        return None


def hour_of(byte):
    """The hour of the day. With bit 6 one, bit 5 is PM and the rest 12 or 1 to 11, else a ValueError; without it the two
    digits, 24 and above too, which a date refuses."""
    if not byte & 0x40:
        return decimal(byte)
    hour = decimal(byte & 0x9F)  # bit 7 stays, and makes it no hour
    if not 1 <= hour <= 12:
        raise ValueError(f"{byte:02X}")
    return hour % 12 + (12 if byte & 0x20 else 0)


def decimal(byte):
    """The number that its two digits are; a ValueError if one is above 9."""
    return int(f"{byte:X}")


def calendar_start(listing):
    """The stamp's date and time if every entry has one, in any zone, else None: times then count from the stamp."""
    moment, seconds = date_of(listing.stamp), [entry.seconds for entry in listing.entries]
    try:
        if moment and seconds:
            moment + timedelta(seconds=min(seconds)) - DAYS_OF_ZONES, moment + timedelta(seconds=max(seconds)) + DAYS_OF_ZONES
    except OverflowError:
        return None
    return moment


def stamp_words(listing):
    """What the stamp says, in a sentence."""
    moment = date_of(listing.stamp)
    if calendar_start(listing):
        return f"Times are by the tag's clock; the stamp is {moment:%Y-%m-%d %H:%M:%S}."
    if moment:
        return "Times count from the stamp: they lead out of the calendar."
    if not any(listing.stamp):
        return "Times count from the stamp, which is zeros: no counted entry has set it."
    return f"Times count from the stamp, {listing.stamp.hex(' ').upper()}, which is no date and time."


# ---- The entries ----

def log_words(listing):
    """What a reader must know of the entries beside their values, a sentence each."""
    entries = listing.entries
    if not entries:
        return ["The log holds no entry."]
    period = period_of(listing) if len(entries) > 1 else None
    words = [f"{counted(len(entries))}{f', one {period_words(period)}' if period else ''}."]
    if entries[0].k:
        older = "Entry 0 was" if entries[0].k == 1 else f"The {entries[0].k:,} older entries were"
        words.append(f"{older} overwritten (rollover): the log holds the last {len(entries):,}.")
    gaps = sum(after.k != before.k + 1 for before, after in zip(entries, entries[1:]))
    if gaps:
        words.append(f"Entries are missing in {gaps} {'place' if gaps == 1 else 'places'}: the line is broken there.")
    if entries[0].seconds < 0:
        half = ", to half a degree" if begins_coarsely(listing) else ""
        words.append(f"Entry 0 is the alarm that started the log{half}; the stamp is that of entry 1.")
    return words


def begins_coarsely(listing):
    """Whether it begins with the alarm that started the log, to half a degree. An older tag kept that as finely as the others."""
    return any(entry.seconds < 0 and entry.temperature % HALF == 0 for entry in listing.entries[:1])


def period_words(seconds):
    """every minute, every 10 min"""
    units = {1: "second", 60: "minute", 3600: "hour", 86400: "day"}
    return f"every {units.get(seconds) or span(seconds)}"


def span(seconds):
    """A time as people say it: 45 s, 10 min, 1 h 30 min, 2 d."""
    parts, sign = [], "-" if seconds < 0 else ""
    for unit, size in (("d", 86400), ("h", 3600), ("min", 60), ("s", 1)):
        count, rest = divmod(abs(seconds), size)
        if count:
            parts.append(f"{count:,} {unit}")
        seconds = rest
    return sign + " ".join(parts) if parts else "0 s"


# ---- Thresholds ----

def is_high(temperature, thresholds):
    return thresholds.high is not None and temperature >= thresholds.high


def is_low(temperature, thresholds):
    """The tag compares to half a degree, so low is what is below the next half degree."""
    return thresholds.low is not None and temperature < thresholds.low + HALF


def mark(temperature, thresholds):
    """Whether a temperature is one that alarms, in a word; in two if the thresholds let it be both."""
    return " ".join(word for word, alarms in (("high", is_high), ("low", is_low)) if alarms(temperature, thresholds))


def bound_words(thresholds, view):
    """What alarms, by its name."""
    words = {}
    if thresholds.high is not None:
        words["high"] = f"at or above {view.bound(thresholds.high)}"
    if thresholds.low is not None:
        words["low"] = f"at or below {view.bound(thresholds.low)}"
    return words


def threshold_words(source, view):
    """The thresholds and where they come from, a sentence each."""
    words = bound_words(source.thresholds, view)
    if not words:
        return [source.no_thresholds]
    sentences = [f"Alarms: {' and '.join(f'{text} ({name}, {source.bounds_from[name]})' for name, text in words.items())}."]
    if "low" in words:
        next_half = view.bound(source.thresholds.low + HALF)
        sentences.append(f"The tag compares to half a degree, so low is every temperature below {next_half}.")
    return sentences


# ---- Degrees ----

def number(temperature, places):
    """In degrees Celsius; exact with four places, as a sixteenth is 0.0625."""
    return f"{round(temperature / DEGREE, places) + 0.0:.{places}f}"  # + 0.0: no minus before a zero


def fahrenheit(temperature):
    """Exact with four places too: a sixteenth of a degree Celsius is 0.1125."""
    return temperature / DEGREE * 9 / 5 + 32


def minus(text):
    """With the sign that a negative number has in print; the hyphens of a date stay."""
    return re.sub(r"(?<![^\s(])-(?=\d)", "\N{MINUS SIGN}", text)
