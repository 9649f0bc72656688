"""A file that a person has, and what becomes of it: a session is played and its dump read, a dump is listed, a listing is
taken as it stands. Which of the three it is, it tells by how it begins."""

import re
from dataclasses import dataclass, field

from . import DUMP, LISTING, SESSION, Fault, Misuse, dumps, evidence, files, line, password, programs, sessions
from .files import say
from .listing import DEGREE, Listing, Thresholds, parse, period_of, refused

DUMP_LINE = re.compile(r"^[0-9A-Fa-f]{72}\s*$", re.M)
LISTING_HEAD = re.compile(r"R[0-9]{2}|[46]0[0-9A-Fa-f]{0,28}")
UTF_16 = (b"\xFF\xFE", b"\xFE\xFF")


@dataclass
class Source:
    name: str
    kind: str
    digest: str  # SHA-256 of the file
    player: str = None  # the name of the program that a session is for
    rom: bytes = None  # the registration number
    rom_from: str = "a dump has no registration number, and --rom gave none"
    dump: bytes = None
    registers: dumps.Registers = None
    listed: str = None  # the listing's text
    listing: Listing = None
    period: int = None
    thresholds: Thresholds = Thresholds()
    bounds_from: dict = field(default_factory=dict)  # where "low" and "high" come from
    no_thresholds: str = "No threshold is known: a listing has none, and --low and --high give none."
    builds: list = field(default_factory=list)
    disagreements: list = field(default_factory=list)  # bytes that the tag sent and the session gives otherwise


def kind_of(data, name):
    """By the first line that says something."""
    if data.startswith(UTF_16):
        raise Misuse(f"{name} is written in UTF-16 ('Unicode' in some editors): save it as plain text, UTF-8 or ASCII")
    text = data.decode("utf-8-sig", "replace")
    first = next((part for part in map(str.strip, text.split("\n")) if part), "")
    if first.startswith(("#", "04")):
        return SESSION
    if LISTING_HEAD.fullmatch(first):
        return LISTING
    if first.startswith("0200") or DUMP_LINE.search(text):
        return DUMP
    begins = f"it begins with '{files.printable(first[:20])}'" if first else "it is empty"
    raise Misuse(f"{name} is no session, dump or listing: {begins}")


def load(given):
    """All that is known of the file that was named."""
    data, name = files.read(given.file), files.name_of(given.file)
    source = Source(name, kind_of(data, name), evidence.digest(data))
    if given.place is not None and source.kind != SESSION:
        raise Misuse(f"--place is for a session of several tags, and {name} is a {source.kind}")
    if given.rom:
        source.rom, source.rom_from = given.rom, "given with --rom"
    if source.kind == LISTING:
        source.listed = files.text_of(data, name)
        source.listing = parse(source.listed, name)
        source.rom_from = source.rom_from.replace("a dump", "a listing")
        source.period = period_of(source.listing)
    else:
        if source.kind == SESSION:
            play_session(source, given, files.text_of(data, name))
        else:
            source.dump = data
        list_dump(source, given)
    set_thresholds(source, given)
    return source


def play_session(source, given, text):
    frames = sessions.parse(text, source.name)
    place = sessions.place_in(frames, given.place, source.name)
    tags = sessions.tags_in(frames)
    rom = bytes(tags[place].data[1:])
    if source.rom not in (None, rom):
        raise Misuse(f"--rom is {source.rom.hex().upper()}, and the session's tag {rom.hex().upper()}")
    source.rom, source.rom_from = rom, f"by the session, at place {place}" if len(tags) > 1 else "by the session"
    secret = password.ask(given)
    source.player = sessions.player_of(frames)
    player = getattr(given, source.player)
    source.builds.append(programs.build_of(player))
    say(f"playing {source.name}: {sessions.all_events(frames):,} events, then {len(line.PAGES)} pages by Read Memory ..")
    dump, answers = line.take_dump(player, frames, secret, source.name, place)
    source.dump = dump.encode()
    source.disagreements = sessions.disagreements(frames, answers)


def list_dump(source, given):
    source.builds.append(programs.build_of(given.list_))
    output = programs.run(given.list_, source.dump)
    name = source.name if source.kind == DUMP else f"the dump of {source.name}"
    number = programs.refusal_in(output)
    if number:
        raise refused(name, number, dumps.explain(number, source.dump))
    source.listed = output.decode("ascii", "replace")
    try:
        source.listing = parse(source.listed, f"what '{source.builds[-1].program}' printed for {name}")
    except Misuse as wrong:  # not the person's doing
        raise Fault(str(wrong)) from None
    source.registers = dumps.registers(source.dump)
    source.period = source.registers.period


def set_thresholds(source, given):
    """The dump's own, each unless another was given."""
    own = source.registers.thresholds if source.registers else Thresholds()
    found = {}
    for name, wanted, its in zip(Thresholds._fields, (given.low, given.high), own):
        found[name] = its if wanted is None else wanted
        source.bounds_from[name] = "set in the tag" if found[name] == its else f"given with --{name}"
    source.thresholds = Thresholds(**found)
    low, high = source.thresholds
    if source.thresholds != own and None not in (low, high) and low > high:
        raise Misuse(f"the low threshold, {low / DEGREE:.1f} °C, is above the high one, {high / DEGREE:.1f} °C")
    if source.registers:
        source.no_thresholds = "No threshold: the tag's alarms are not enabled."
