"""Sessions of several tags on one line, for the program shed: those that the rulings on request #106 show, in exact numbers,
and random ones.

Random ones come from a seed and a number, as the sessions of one tag do (sessions.py), whose kinds are among them: what they
send then goes to every tag, and the session turns from one tag to another.
"""

import random
from typing import NamedTuple

import sessions
from model import board
from model.board import MOST_TAGS, Board
from model.master import TICK, BoardMaster
from model.programs import HEAD, shed
from model.tag import (
    CODE_L, CODE_T, EOSC, ETL, FAMILY, FULL_PASSWORD, IMAGE_LENGTH, MATCH_ROM, OVERDRIVE_MATCH, OVERDRIVE_SKIP,
    PASSWORD_CONTROL, READ_PASSWORD, READ_ROM, RESUME, RO, SKIP_ROM, SUTA, TLFS, Tag, bcd)
from trials import bad_number, with_crc

WIDTH = 4  # bytes of an event
FIRST, SECOND = bytes.fromhex("41010000000000CD"), bytes.fromhex("4102000000000094")
GOOD = (FIRST, CODE_L), (SECOND, CODE_L)


def head_of(heads):
    """What stands before the events: the count, and a number and a code for each tag."""
    return bytes((len(heads),)) + b"".join(rom + bytes((code,)) for rom, code in heads)


# ---- What the rulings show ----

class Script:
    """A session in exact numbers: each event, and what is printed for it."""

    def __init__(self, heads):
        self.stdin = bytearray(head_of(heads))
        self.printed = bytearray()

    def event(self, code, printed, place=0, reading=0):
        self.stdin += bytes((code, place, reading >> 8, reading & 0xFF))
        self.printed += printed.encode() + b"\n"

    def send(self, text):
        """Bytes to tags that listen: these give 1, so the bits sent come back."""
        for bit in sessions.bits_of(bytes.fromhex(text)):
            self.event(bit, str(bit))

    def read(self, text):
        for bit in sessions.bits_of(bytes.fromhex(text)):
            self.event(1, str(bit))

    def exchange(self, sent, read=""):
        """A long reset, bytes sent, bytes read."""
        self.event(2, "0")
        self.send(sent)
        self.read(read)


def shown_session():
    """The exchanges of the good line, one after the other, up to the refused tick."""
    first, second, password = FIRST.hex(), SECOND.hex(), "FF" * 8
    script = Script(GOOD)
    script.exchange("33", "41 00 00 00 00 00 00 84")
    script.exchange(f"55 {first} 0F 3C 01 11 22 33 44")
    script.exchange(f"55 {second} 0F 30 00 F0F1F2F3F4F5F6F7F8F9FAFBFCFDFEFF")
    script.exchange("CC AA", "30 00 1F 10 20")
    script.exchange(f"55 {first} 99 3C 01 1F {password}", "AA")
    script.exchange(f"55 {first} 69 3C 01 {password}", "11 22 33 44")
    script.exchange(f"55 {second} 69 3C 01 {password}", "00 00 00 00")
    script.exchange(f"69 {second}")
    script.event(4, "0")
    script.send("CC AA")
    script.read("30 00 1F F0 F1")
    script.exchange("")
    script.event(4, "1")
    script.event(TICK, "R14", place=2, reading=5000)
    return script


def shown():
    """All that a program can be given: a name, its standard input, and what it must print."""
    zero = bytes(8)
    for count in (0, 8):
        yield f"count {count}", bytes((count,)), b"R14\n"
    for name, heads, printed in (
            ("both numbers zero, codes 01", ((zero, 1), (zero, 1)), b"R13\n"),
            ("first code 41h, second number zero", ((FIRST, 0x41), (zero, CODE_L)), b"R05\n"),
            ("second number zero with code 41h", ((FIRST, CODE_L), (zero, 0x41)), b"R04\n"), ("the good line", GOOD, b"")):
        yield name, head_of(heads), printed
    for name, code, place, reading, printed in (("a tick at place 2, reading 5000", TICK, 2, 5000, "R14"),
                                                ("a tick at place 1, reading 2048", TICK, 1, 2048, "R02"),
                                                ("code 5, place 9", 5, 9, 0, "R01")):
        script = Script(GOOD)
        script.event(code, printed, place, reading)
        yield name, bytes(script.stdin), bytes(script.printed)
    script = shown_session()
    yield "the exchanges of the good line", bytes(script.stdin), bytes(script.printed)


def of_the_model():
    """What no program can be given: a name, the model's answer, and the right one. Of records it takes those of zeros, which break
    their ranges."""
    def line(*heads, length=2 * IMAGE_LENGTH):
        return Board([Tag(rom, code, bytearray(IMAGE_LENGTH)) for rom, code in heads], length)

    zeros = bytes(8), 0
    yield "count 2, block 8,832", board.new(GOOD, 8832)[0], 3
    yield "count 8, block 8,832", board.new(GOOD * 4, 8832)[0], 14
    yield "numbers zero, block 8,832", board.new((zeros, zeros), 8832)[0], 3
    refused = board.new((zeros, zeros), 2 * IMAGE_LENGTH)[1]
    yield "the events of a refused line", {refused.event(code, 0, 0) for code in range(256)}, {(14, 1)}
    for name, tags, code, place, reading, number in (
            ("a tick at place 2, block 8,832", line(*GOOD, length=8832), TICK, 2, 0, 14),
            ("a slot, numbers zero, block 8,832", line(zeros, zeros, length=8832), 0, 0, 0, 3),
            ("a slot, two records of zeros", line(zeros, zeros), 0, 0, 0, 13),
            ("a tick at place 0, a record of zeros at place 1", line(GOOD[0], zeros), TICK, 0, 0, 6),
            ("code 5, a record of zeros at place 1", line(GOOD[0], zeros), 5, 9, 0, 6),
            ("a reading of 2048, a record of zeros", line(zeros, GOOD[1]), TICK, 1, 2048, 6)):
        yield name, tags.event(code, place, reading), (number, 1)


# ---- Five tags that a master finds ----

class Owned(NamedTuple):
    """A tag of one's own: what is written to it, and how many seconds it gets."""
    rom: bytes
    code: int
    read: bytes  # its passwords
    full: bytes
    page: bytes  # of user memory
    settings: bytes  # 0200h to 021Fh
    seconds: int


def five_tags():
    rng = random.Random("five tags")
    for place, rom in enumerate(different_numbers(rng, 5)):
        clock = bytes((0, bcd(10 + place), bcd(place), bcd(1 + place), bcd(1 + place), bcd(20 + place)))
        settings = clock + bytes((place + 1, 0, 16 * place, 255 - place)) + bytes(8) + bytes((EOSC,)) + bytes(13)
        yield Owned(rom, rng.choice((CODE_L, CODE_T)), rng.randbytes(8), rng.randbytes(8), rng.randbytes(32), settings,
                    3 * place + 1)


def found_and_read(line, owned):
    """A master writes to each tag by Match, with its own password, finds them all by Search, and reads each: a name, what came, and
    what must come. `line` is a board, or a program in its place."""
    master = BoardMaster(line)
    for place, tag in enumerate(owned):
        def choose():
            master.match(tag.rom)

        checking = b"\xAA" + tag.read + tag.full + bytes(8)
        done = (master.store(PASSWORD_CONTROL, checking, choose=choose), master.store(0x0200, tag.settings, tag.full, choose),
                master.store(0x0040, tag.page, tag.full, choose))
        yield f"place {place}, written", done, (True, True, True)
        for _ in range(tag.seconds):
            master.tick(700, place)
    yield "the numbers found", master.find(), sorted((tag.rom for tag in owned), key=sessions.bits_of)
    for place, tag in enumerate(owned):
        master.match(tag.rom)
        yield f"place {place}, its page", master.read_memory(0x0040, 32, tag.read), (tag.page, True)
        master.match(tag.rom)
        registers, right = master.read_memory(0x0200, 64, tag.read)
        expected = bytes((bcd(tag.seconds),)) + tag.settings[1:10], bytes((tag.code, 0xAA)) + bytes(24), True
        yield f"place {place}, its registers", (registers[:10], registers[0x26:], right), expected
        master.match(tag.rom)
        yield f"place {place}, by another's password", master.read_memory(0x0040, 32, owned[place - 1].read)[0], b"\xFF" * 32


# ---- Random sessions ----

class BoardSession(sessions.Session):
    """A session of several tags. It is at one of them at a time."""

    def __init__(self, rng):
        self.restless = 0.15  # how likely it turns to another tag before it chooses one
        super().__init__(rng, BoardMaster)
        self.master.ticked = lambda: self.place if self.chance(0.8) else self.any_place()
        if self.chance(0.3):
            self.master.stray_place = lambda: rng.randrange(256)

    def new_line(self):
        rng = self.rng
        self.heads = [(rom, rng.choice((CODE_L, CODE_T))) for rom in different_numbers(rng, rng.randint(1, MOST_TAGS))]
        line = board.new(self.heads, IMAGE_LENGTH * len(self.heads))[1]
        self.tags = line.tags
        self.turn_to(0)
        return line

    def stdin(self):
        return head_of(self.heads) + bytes(self.master.groups)

    # ---- Turning ----

    def turn_to(self, place):
        self.place = place
        self.tag, (self.rom, self.code) = self.tags[place], self.heads[place]

    def any_place(self):
        return self.rng.randrange(len(self.tags))

    def turn(self):
        self.turn_to(self.any_place())

    def each(self):
        """Turns to every tag, one after the other."""
        for place in range(len(self.tags)):
            self.turn_to(place)
            yield place

    # ---- What is another with several tags ----

    def ticks(self, count):
        """For this tag and now and then for another, or for each in turn."""
        if self.chance(0.5):
            super().ticks(count)
            return
        for _ in range(count):
            for place in range(len(self.tags)):
                self.master.tick(self.reading(), place)

    def wrong_password(self):
        """That of another tag too."""
        if self.chance(0.7):
            return super().wrong_password()
        at = self.rng.choice((FULL_PASSWORD, READ_PASSWORD))
        return bytes(self.rng.choice(self.tags).image[at:at + 8])

    def select(self):
        if self.chance(self.restless):
            self.turn()
        super().select()

    def choose(self):
        """By its number, or now and then all of them."""
        if self.chance(0.2):
            super().choose()
        else:
            self.master.match(self.rom)

    def flipped_rom(self):
        """Or the number of another tag."""
        others = [tag.rom for tag in self.tags if tag is not self.tag]
        return self.rng.choice(others) if others and self.chance(0.5) else super().flipped_rom()

    def look(self):
        """At this tag and at another."""
        super().look()
        self.turn()
        super().look()

    def look_at_log(self):
        self.look_at(0x1000, 40)

    def look_at_all(self):
        """At what tells the tags apart: of each the registers, some user memory and the log's first bytes."""
        self.master.before_slot = None
        for _ in self.each():
            for address, count in ((0x0200, 64), (0x0000, 16), (0x1000, 8)):
                self.master.match(self.rom)
                self.master.read_memory(address, count, self.full_password())


def different_numbers(rng, count):
    """Anywhere, or alike but for one bit of the serial number and the CRC-8, so that Search parts the tags late."""
    alike, serial = rng.random() < 0.5, rng.randbytes(6)
    found = set()
    while len(found) < count:
        part = sessions.flipped(serial + bytes(2), rng.randrange(48))[:6] if alike else rng.randbytes(6)
        found.add(with_crc(bytes((FAMILY,)) + part))
    return rng.sample(sorted(found), count)


# ---- Kinds ----

def growers(session):
    """Each tag with passwords and a mission of its own. Then commands to one tag or to all, with the passwords of any of them."""
    rng, master = session.rng, session.master
    for _ in session.each():
        session.set_passwords(rng.choice((0xAA, 0xAA, 0xAA, 0x00)))
        session.start(rate=rng.randint(1, 3), control=ETL | rng.choice((0, RO, SUTA)))
    for _ in range(rng.randint(8, 20)):
        session.turn()
        if session.chance(0.3):
            master.skip()
        else:
            session.select()
        password = rng.choice((session.full_password(), session.read_password(), session.wrong_password()))
        address = rng.randrange(0x200)
        rng.choice((
            lambda: master.clear(password), lambda: master.stop(password), lambda: master.start(password), master.force,
            lambda: master.read_memory(address, 20, password),
            lambda: master.write_scratchpad(address, rng.randbytes(32 - address % 32)),
            lambda: master.copy(session.tag.address_registers(), password), master.read_scratchpad))()
        session.ticks(rng.randrange(3))
        session.look_at(0x0213, 20)


def seconds(session):
    """Missions of their own, each with its own seconds, looked at after every few."""
    rng = session.rng
    session.restless = 0
    for _ in session.each():
        session.start(rate=rng.randint(1, 4), control=ETL | rng.choice((0, TLFS)) | rng.choice((0, SUTA)))
    for _ in range(rng.randint(4, 10)):
        session.turn()
        session.ticks(rng.choice((1, 1, 2, 30)))
        for _ in session.each():
            session.look_at(0x0200, 38)
            session.look_at(0x1000, 6)


def found(session):
    """All tags by Search, and those with a flag by Conditional Search, as flags come and go."""
    rng, master = session.rng, session.master
    for _ in range(rng.randint(2, 4)):
        session.turn()
        sessions.change_flags(session)
        for conditional in (False, True):
            master.find(conditional)
            sessions.goes_on(session)
            if session.chance(0.5):
                master.resume()
                sessions.goes_on(session)


def speeds(session):
    """Scratchpads that tell the tags apart, and resets and ROM commands in any order, at either speed."""
    rng, master = session.rng, session.master
    for _ in session.each():
        master.match(session.rom)
        master.write_scratchpad(rng.randrange(0x200), rng.randbytes(rng.randint(1, 8)))
    for _ in range(rng.randint(20, 50)):
        session.turn()
        rng.choice((master.long_reset, master.short_reset, master.short_reset))()
        sent = bytes((rng.choice((SKIP_ROM, OVERDRIVE_SKIP, MATCH_ROM, OVERDRIVE_MATCH, OVERDRIVE_MATCH, RESUME, READ_ROM)),))
        if sent[0] in (MATCH_ROM, OVERDRIVE_MATCH):
            sent += session.rom if session.chance(0.8) else session.flipped_rom()
        for bit in sessions.bits_of(sent)[:rng.choice((72, 72, 72, rng.randrange(72)))]:
            master.slot(bit)
        sessions.goes_on(session)


def refused_event(session):
    """A short life and a bad last event: a tick for no tag, with any reading; a reading above 2047; a code above 4, with any
    place."""
    rng, master = session.rng, session.master
    for _ in range(rng.randrange(4)):
        session.select()
        master.write_bits(rng.getrandbits(8), rng.randrange(9))
        session.ticks(rng.randrange(3))
    kind, count = rng.randrange(3), len(session.tags)
    if kind == 0:
        master.tick(rng.choice((0, 2047, 2048, rng.getrandbits(16))), rng.choice((count, 7, 255, rng.randrange(count, 256))))
    elif kind == 1:
        master.tick(rng.choice((2048, 0xFFFF, rng.randrange(2048, 65536))), session.any_place())
    else:
        master.stray_place = lambda: rng.choice((0, count, rng.randrange(256)))
        master.event(rng.choice((5, 6, 128, 255, rng.randrange(5, 256))), rng.getrandbits(16))


def new_line(rng):
    """Counts, numbers and codes, right and wrong, numbers that are there twice or nearly so, and inputs that end early."""
    count = rng.choice((0, 1, 2, 2, 3, 3, 4, 5, 6, 7, 7, 8, 9, 255, rng.randrange(256)))
    heads = [some_head(rng, rom) for rom in different_numbers(rng, min(count, 8))]
    if len(heads) > 1 and rng.random() < 0.4:
        one, other = rng.sample(range(len(heads)), 2)
        rom = heads[other][0]
        nearly = sessions.flipped(rom, rng.choice((rng.randrange(8), rng.randrange(56, 64), rng.randrange(64))))
        heads[one] = rng.choice((rom, nearly)), heads[one][1]
    length = 200 if rng.random() < 0.7 else rng.choice((0, 1, 2, 9, 10, 11, 18, 19, 20, 64, 65, 66))
    if len(heads) > 1 and rng.random() < 0.15:
        heads[0], length = (bytes(8), CODE_L), 1 + HEAD * (len(heads) - 1)  # zeros that are given, and last those that are missing
    stdin = bytes((count,)) + head_of(heads)[1:] + bytes((2, 0, 0, 0)) + bytes((1, 9, 0, 0)) * rng.randrange(9)
    return "new_line", stdin[:length], shed(stdin[:length])


def some_head(rng, rom):
    """A number and a code, each mostly good."""
    if rng.random() < 0.2:
        rom = bad_number(rng, rom).to_bytes(8, "little")
    return rom, rng.choice((CODE_L, CODE_T)) if rng.random() < 0.8 else rng.choice((0x00, 0x41, 0x61, rng.randrange(256)))


LONG_KINDS = (growers, seconds, found, speeds, sessions.rom_commands, sessions.overdrive, sessions.scratchpad,
              sessions.copy_conditions, sessions.read_memory, sessions.passwords, sessions.stranger, sessions.mission,
              sessions.forced, sessions.waiting, sessions.start_conditions, sessions.noise)
KINDS = [kind for long_kind in LONG_KINDS for kind in (long_kind, new_line, refused_event)]


def session(seed, number):
    """The kind's name, the program's standard input, and what it must print."""
    rng = random.Random(f"board {seed} {number}")
    kind = KINDS[number % len(KINDS)]
    if kind is new_line:
        return kind(rng)
    played = BoardSession(rng)
    kind(played)
    if not played.master.refused:
        played.look_at_all()
    return kind.__name__, played.stdin() + sessions.rest(played, WIDTH), bytes(played.master.answers)
