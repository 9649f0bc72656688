"""How times and temperatures are shown: the tag's own always, another zone's and Fahrenheit beside them where asked for."""

import argparse
import re
import zoneinfo
from datetime import timedelta, timezone

from . import words

OFFSET = re.compile(r"(?:UTC)?([+-])([0-9]{1,2})(?::?([0-5][0-9]))?")


class View:
    def __init__(self, listing, fahrenheit=False, zone=None, clock="UTC"):
        """zone and clock are names: where times are shown beside the tag's, and what the tag's clock was set to."""
        self.moment = words.calendar_start(listing)
        self.fahrenheit, self.zone, self.clock = fahrenheit, zone, clock
        # The tag's clock runs on through a change to summer time: its offset is the one at the stamp.
        self.start = self.moment and self.moment.replace(tzinfo=zone_of(clock)).astimezone(timezone.utc)

    # ---- Times ----

    def time(self, seconds):
        """By the tag's clock, or from the stamp if that is no date."""
        return f"{self.moment + timedelta(seconds=seconds):%Y-%m-%d %H:%M:%S}" if self.moment else words.span(seconds)

    def zone_moment(self, seconds):
        """The same in the zone asked for; None if there is none or no date."""
        if not self.zone or not self.moment:
            return None
        return (self.start + timedelta(seconds=seconds)).astimezone(zone_of(self.zone))

    def zone_time(self, seconds):
        moment = self.zone_moment(seconds)
        return moment and moment.isoformat(" ", "seconds")

    def extent(self, listing):
        """From the first entry to the last."""
        if not listing.entries:
            return "No entry"
        first, last = (self.time(entry.seconds) for entry in (listing.entries[0], listing.entries[-1]))
        return (first if first == last else f"{first} to {last}") + ("" if self.moment else " from the stamp")

    def zone_words(self):
        """What another zone's times stand on, in a sentence each."""
        if not self.zone:
            return []
        if not self.moment:
            return [f"There are no times in {self.zone}: the tag's are no dates."]
        return [f"Times in {self.zone} take the tag's clock to have been set to {self.clock}, which no dump tells."]

    # ---- Temperatures ----

    def degrees(self, temperature, places=4):
        """Exact with four places: a sixteenth is 0.0625 °C and 0.1125 °F."""
        celsius = f"{words.number(temperature, places)} °C"
        return f"{celsius} ({words.fahrenheit(temperature):.{places}f} °F)" if self.fahrenheit else celsius

    def bound(self, temperature):
        return self.degrees(temperature, 1)


def zone_of(name):
    """UTC, an offset as +02:00, or a name as Europe/Paris; a ValueError if it is none."""
    offset = OFFSET.fullmatch(name)
    if offset:
        size = timedelta(hours=int(offset[2]), minutes=int(offset[3] or 0))
        return timezone(-size if offset[1] == "-" else size)
    if name == "UTC":
        return timezone.utc
    try:
        return zoneinfo.ZoneInfo(name)
    except (KeyError, OSError, ValueError):
        raise ValueError(name) from None


def zone_name(text):
    """For argparse."""
    try:
        zone_of(text)
    except ValueError:
        raise argparse.ArgumentTypeError(f"'{text}' is no zone that is known here: as UTC, UTC+02:00 or Europe/Paris") from None
    return text
