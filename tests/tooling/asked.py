"""What the options ask for: exports, Fahrenheit and zones, passwords, help."""

import csv
import io
import json
import os
import pty
import select
import signal
import sys
import tempfile
import zoneinfo
from datetime import datetime, timedelta

from .common import DONE, FAILED, MISUSED, READER, REFUSED, TOP, content, listing, shown, start

sys.path.insert(0, os.path.join(TOP, "tools"))

from reader import commands

TIMEOUT = 30  # for a word at a terminal


# ---- Exports, units, zones ----

def exports():
    lines = content("examples/landing.listing").split()[1:]
    held = [(int(line[:8], 16), int(line[8:24], 16), int(line[24:], 16)) for line in lines]
    start_of = datetime(2026, 11, 12, 5, 30, 1)
    rows = list(csv.reader(io.StringIO(shown("table", "examples/landing.dump", "--csv"))))
    head = ["entry", "time (tag's clock)", "seconds from the stamp (s)", "temperature (1/16 degree Celsius)",
            "temperature (degrees Celsius)"]
    yield "CSV, its head", rows[0] == head, rows[0]
    due = [[str(k), str(start_of + timedelta(seconds=s)), str(s), str(t), str(t / 16)] for k, s, t in held]
    yield "CSV, its rows", rows[1:] == due, rows[1:3]
    page = json.loads(shown("table", "examples/landing.dump", "--json", "--fahrenheit", "--zone", "UTC+02:00"))
    got = [(row["entry"], row["seconds"], row["sixteenths"]) for row in page["entries"]]
    yield "JSON, its entries", got == held, got[:3]
    row = page["entries"][24]
    right = (row["celsius"], row["fahrenheit"], row["time"], row["zone_time"]) == (
        10.0625, 50.1125, "2026-11-12T09:30:01", "2026-11-12T11:30:01+02:00")
    yield "JSON, an entry", right, row
    yield "JSON, units for every column", set(row) == set(page["units"]), page["units"]
    found = page["summary_celsius_seconds"]
    right = found["at_or_above_high"] == 6600 and page["thresholds_celsius"] == {"low": None, "high": 10.0}
    yield "JSON, its figures", right, found
    empty = json.loads(shown("table", "-", "--json", stdin=listing(stamp="000000000000")))
    yield "JSON of no entry", empty["entries"] == [] and empty["summary_celsius_seconds"] is None, empty
    night = json.loads(shown("table", "-", "--json", stdin=listing((0, 0, 100), stamp="003052121126")))["stamp"]
    yield "JSON of a twelve-hour stamp", night == {"bytes": "003052121126", "time": "2026-11-12T00:30:00"}, night
    alone = listing((0, -600, -1), stamp="0" * 12)
    no_dates = list(csv.reader(io.StringIO(shown("table", "-", "--csv", "--zone", "UTC", stdin=alone))))
    yield "CSV without dates", no_dates[1] == ["0", "", "", "-600", "-1", "-0.0625"], no_dates


def zones():
    got = shown("table", "examples/landing.dump", "--zone", "UTC+02:00", "--fahrenheit")
    row = "   24  2026-11-12 09:30:01  2026-11-12 11:30:01+02:00    14400  10.0625  50.1125  high"
    yield "another zone and Fahrenheit, beside the tag's own", row in got and "set to UTC, which no dump tells" in got, got[:2500]
    got = shown("table", "examples/landing.dump", "--zone=-03:30", "--clock", "+01:00")
    yield "a clock that was not set to UTC", "  2026-11-12 05:30:01  2026-11-12 01:00:01-03:30 " in got, got[:1500]
    got = shown("picture", "examples/landing.dump", "--zone", "UTC+02:00")
    right = "time by the tag's clock" in got.replace("&#x27;", "'") and "the same in UTC+02:00" in got
    yield "the picture keeps the tag's time", right and ">06:00<" in got and ">08:00<" in got, got[-2500:]
    try:
        zoneinfo.ZoneInfo("Europe/Paris")
    except zoneinfo.ZoneInfoNotFoundError:
        yield "summer time", None, "this machine has no zones by name"
        return
    # Set in summer time, the tag's clock runs on past its end: 02:30 and 03:30 by it are both 02:30 in Paris.
    night = listing((0, 0, 100), (1, 3600, 100), stamp="003002251026")
    got = shown("table", "-", "--zone", "Europe/Paris", "--clock", "Europe/Paris", stdin=night)
    right = "2026-10-25 02:30:00  2026-10-25 02:30:00+02:00" in got and "2026-10-25 03:30:00  2026-10-25 02:30:00+01:00" in got
    yield "the end of summer time", right, got[-1200:]


# ---- Passwords ----

def passwords():
    dump = content("examples/landing.dump")
    for name, text in (("as characters", b"INSPECT1\n"), ("as digits", b"494E535045435431\r\n"),
                       ("with a mark", b"\xEF\xBB\xBFINSPECT1")):
        with tempfile.NamedTemporaryFile() as file:
            file.write(text)
            file.flush()
            got = start([READER, "dump", "examples/landing.session", "--password-file", file.name])
            yield f"a password in a file, {name}", got.stdout == dump, got.stderr
    for typed, due, says in ((b"INSPECT1\n", DONE, b""), (b"\n", REFUSED, b"is the password right?"),
                             (b"short\n", MISUSED, b"a password is"), (b"\x03", FAILED, b"reader: stopped")):
        status, said = at_a_terminal([READER, "dump", "examples/landing.session", "-o", "/dev/null"], typed)
        unseen = b"INSPECT1" not in said and b"short" not in said
        yield f"a password typed, {typed}", status == due and says in said and unseen, (status, said)
    status, said = at_a_terminal([READER, "table"], b"")
    yield "no file at a terminal", status == MISUSED and b"say which FILE" in said, (status, said)


def at_a_terminal(words, typed):
    """The status and what is said, with a terminal for input and output."""
    child, terminal = pty.fork()
    if not child:
        signal.signal(signal.SIGINT, signal.SIG_DFL)  # which a gate in the background passes on as ignored
        os.chdir(TOP)
        os.execv(words[0], words)
    said = b""
    try:
        while select.select([terminal], [], [], TIMEOUT)[0]:
            said += os.read(terminal, 4096)
            if b"has none): " in said and typed:
                os.write(terminal, typed)
                typed = b""
        os.kill(child, signal.SIGKILL)  # it waits for what nobody types
    except OSError:
        pass  # the terminal's other end is closed
    os.close(terminal)
    return os.waitstatus_to_exitcode(os.waitpid(child, 0)[1]), said


def helps():
    for words in (["--help"], ["help"], *([word, "--help"] for word in commands.COMMANDS)):
        done = start([READER, *words])
        text = " ".join(done.stdout.decode().split())
        right = done.returncode == DONE and "1 refused" in text and "3 could not be done" in text and not done.stderr
        yield f"reader {words}", right, done.stderr or text[:300]
    done = start([READER, "--version"])
    yield "reader --version", done.returncode == DONE and b"not proved" in done.stdout, done.stdout


def checks():
    for group in (exports, zones, passwords, helps):
        yield from group()
