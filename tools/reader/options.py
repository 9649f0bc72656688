"""The words of the command line: what may be given to a command, and what --help says of it."""

import argparse
import re
import shlex
import sys

from . import Misuse, files, listing, password, programs, view
from .line import FAMILY, crc8

KINDS = {"FILE": "a session, a dump or a listing; - is standard input", "SESSION": "a session; - is standard input",
         "DUMP": "a dump; - is standard input"}
STATUSES = "Exit status: 0 done; 1 refused, by the tag or the dock; 2 used wrongly; 3 could not be done."


class Parser(argparse.ArgumentParser):
    def error(self, message):
        raise Misuse(f"{message} ({self.prog} --help says more)")

    def print_help(self, file=None):
        files.write(None, self.format_help())


def parse(name, command, words):
    """What was given to a command; one that takes [FILE] takes standard input where none is named."""
    parser = Parser(prog=f"reader {name}", description=f"{command.about[0].upper()}{command.about[1:]}.", epilog=STATUSES,
                    allow_abbrev=False)
    kind, optional = command.takes.strip("[]"), command.takes.startswith("[")
    parser.add_argument("file", metavar=kind, nargs="?" if optional else None, help=KINDS.get(kind))
    for add in command.groups:
        add(parser)
    given = parser.parse_args(words)
    if given.file is None:
        if sys.stdin and sys.stdin.isatty():
            parser.error(f"say which {kind}, or - for what is typed here")
        given.file = files.STANDARD
    if None not in (getattr(given, "low", None), getattr(given, "high", None)) and given.low > given.high:
        raise Misuse("--low is above --high")
    return given


# ---- Groups ----

def output(parser):
    parser.add_argument("-o", "--output", metavar="FILE", help="where to write: whole, or not at all")


def folder(parser):
    parser.add_argument("-o", "--output", metavar="FOLDER", help="where to write the files (target/shown)")


def seen(parser):
    """For what a file is shown as: a session, a dump or a listing, with what only the person knows."""
    parser.add_argument("--rom", metavar="NUMBER", type=rom,
                        help="the tag's registration number, which a dump does not have: 16 digits, or 41-000000fbc52b")
    parser.add_argument("--low", metavar="DEGREES", type=threshold, help="a threshold to mark, in °C; else the dump's own")
    parser.add_argument("--high", metavar="DEGREES", type=threshold, help="the same")
    parser.add_argument("--fahrenheit", action="store_true", help="degrees Fahrenheit too")
    parser.add_argument("--zone", type=view.zone_name, help="times in a zone too, as UTC+02:00 or Europe/Paris")
    parser.add_argument("--clock", metavar="ZONE", type=view.zone_name, default="UTC",
                        help="what the tag's clock was set to (UTC)")
    place(parser)
    play_program(parser)
    shed_program(parser)
    list_program(parser)


def exports(parser):
    form = parser.add_mutually_exclusive_group()
    form.add_argument("--csv", action="store_true", help="as comma-separated values, for a spreadsheet")
    form.add_argument("--json", action="store_true", help="as JSON, for another program")


def note(parser):
    parser.add_argument("--note", metavar="TEXT", type=note_text, help="words to stand on the page: bag, grower, lot")


def new_file(parser):
    parser.add_argument("-o", "--output", metavar="NEW", required=True, help="where to write: another file than the one given")


def place(parser):
    parser.add_argument("--place", metavar="N", type=place_number, help="which tag of a session with several, from 0 on")


def play_program(parser):
    parser.add_argument("--play", metavar="COMMAND", type=program, default=programs.PLAY,
                        help="another program in place of ./run play")


def shed_program(parser):
    parser.add_argument("--shed", metavar="COMMAND", type=program, default=programs.SHED,
                        help="another program in place of ./run shed, which plays sessions of several tags")


def list_program(parser):
    parser.add_argument("--list", metavar="COMMAND", type=program, default=programs.LIST, dest="list_",
                        help="another program in place of ./run list")


secret = password.add_options


# ---- Types ----

def rom(text):
    """A registration number's eight bytes, family first, as a session's first frame has them or as Linux names a tag."""
    linux = re.fullmatch(r"([0-9A-Fa-f]{2})-([0-9A-Fa-f]{12})", text)
    try:
        number = bytes.fromhex(text) if not linux else bytes.fromhex(linux[1]) + bytes.fromhex(linux[2])[::-1]
    except ValueError:
        number = b""
    number += bytes((crc8(number),)) if linux else b""
    if len(number) != 8 or number[0] != FAMILY or crc8(number[:7]) != number[7]:
        raise argparse.ArgumentTypeError(
            f"'{text}' is no registration number: 16 digits, the first two 41, the last two the CRC-8 of the others")
    return number


def place_number(text):
    if not re.fullmatch(r"[0-9]{1,9}", text):
        raise argparse.ArgumentTypeError(f"'{text}' is no place: 0, 1, 2 ..")
    return int(text)


def note_text(text):
    return "\n".join(map(files.printable, text.split("\n")))


def program(text):
    try:
        words = shlex.split(text)
    except ValueError as error:
        raise argparse.ArgumentTypeError(f"{str(error).lower()} in {text}") from None
    if not words:
        raise argparse.ArgumentTypeError("the command is empty")
    return words


def threshold(text):
    """Degrees to sixteenths; a threshold goes by half degrees."""
    try:
        halves = float(text) * 2
    except ValueError:
        halves = 0.5
    if not abs(halves) <= 1000 or halves != round(halves):
        raise argparse.ArgumentTypeError(f"'{text}' is not a temperature in whole or half degrees")
    return round(halves) * listing.HALF
