"""Random structured sessions for the playing program.

Everything comes from a seed and a number, so session 17 of seed 1 is the same whatever else is run. The kinds take
turns. A session is written by a master that plays it to the model's tag, and looks into that tag for the right
passwords and addresses; what it expects is what the model answered.
"""

import itertools
import random

from model.crc import crc8
from model.master import Master
from model.programs import play
from model.tag import (
    ALARMS, BOR, CLEAR, CODE_L, CODE_T, CONDITIONAL_SEARCH, COPY_SCRATCHPAD, EHSS, EOSC, ETL, ETLA, FAMILY,
    FORCED_CONVERSION, FULL_PASSWORD, HOURS_12, HOURS_24, IMAGE_LENGTH, MATCH_ROM, MIP, OVERDRIVE_MATCH,
    OVERDRIVE_SKIP, PASSWORD_CONTROL, READ_MEMORY, READ_PASSWORD, READ_ROM, READ_SCRATCHPAD, RESUME, RO, SEARCH_ROM,
    SKIP_ROM, START, STATUS, STOP, SUTA, THF, TLF, TLFS, WRITABLE, WRITE_SCRATCHPAD, bcd, new)

ROM_COMMANDS = (READ_ROM, MATCH_ROM, SEARCH_ROM, CONDITIONAL_SEARCH, SKIP_ROM, RESUME, OVERDRIVE_SKIP, OVERDRIVE_MATCH)
MEMORY_COMMANDS = (WRITE_SCRATCHPAD, READ_SCRATCHPAD, COPY_SCRATCHPAD, READ_MEMORY, CLEAR, START, STOP,
                   FORCED_CONVERSION)
EDGE_READINGS = (0, 7, 8, 671, 672, 679, 680, 2040, 2047)
THRESHOLDS = b"\x10\xE0"
NO_ALARM, ALARM = range(0x88, 0x700), (5, 135, 1797, 2045)  # readings between these thresholds, and at or beyond them
EDGE_ADDRESSES = (0x0000, 0x01FF, 0x0200, 0x0213, 0x0220, 0x0226, 0x023F, 0x0240, 0x027F, 0x0280, 0x0FE0, 0x0FFF,
                  0x1000, 0x2FDF, 0x2FE0, 0x2FFF, 0x3000, 0x3001, 0xFFFF)
EDGE_CLOCKS = (
    "595923311299", "595923319299", "595923280223", "595923280224", "595923290224", "595923280200", "595923300223",
    "595923300404", "595923310404", "595923310007", "595923311307", "595923301F07", "5959233012A4", "59592331129A",
    "5959232802A4", "5959232902A4", "595923000101", "5959233F0101", "59593F010101", "597F00010101", "7F0000010101",
    "595924010101", "591A00010101", "0A0000010101", "595923300999", "595923309999", "5959233112FF", "5A5A2A3A1AAA",
    "FFFFFFFFFFFF", "000000000000", "595909091199", "595919190909", "595923318999", "595923100B12", "60602432133B",
    # The twelve-hour form: the ends of its runs of hours, and hours that are not valid in it.
    "595952311299", "595941300404", "5959712802A4", "595949280223", "595950319299", "595951311299", "595951280224",
    "595951150624", "595972319299", "595972310104", "595961290224", "595971000101", "595969310104", "595970300404",
    "595971311299", "595971319299", "595971280223", "595971280224", "595971280200", "595971150624", "585971150624",
    "595940311299", "59594A300404", "595953280223", "59595A280224", "59595F319299", "595960311299", "59596A310404",
    "595973319299", "59597A290224", "59597F300999", "58597F010101", "597F71311299", "5A5951280223", "5A5A6A3A1AAA")


class Session:
    """One session: its random choices, its master, and the tag it is played to."""

    def __init__(self, rng, master=Master):
        self.rng = rng
        self.master = master(self.new_line())
        self.master.short = lambda: self.tag.overdrive and self.chance(0.5)
        if rng.random() < 0.3:
            self.master.stray_reading = lambda: rng.getrandbits(16)

    def new_line(self):
        """What the master plays to: a new tag."""
        serial = bytes((FAMILY,)) + self.rng.randbytes(6)
        self.rom = serial + bytes((crc8(serial),))
        self.code = self.rng.choice((CODE_L, CODE_T))
        self.tag = new(self.rom, self.code, bytearray(IMAGE_LENGTH))[1]
        return self.tag

    def stdin(self):
        return self.rom + bytes((self.code,)) + bytes(self.master.triples)

    def chance(self, probability):
        return self.rng.random() < probability

    # ---- Ticks ----

    def reading(self):
        """At the edge of the format or of a threshold, or anywhere."""
        kind = self.rng.randrange(4)
        if kind == 0:
            return self.rng.choice(EDGE_READINGS)
        if kind == 1:
            near = 8 * self.tag.image[self.rng.choice((0x0208, 0x0209))] + self.rng.choice((-1, 0, 7, 8))
            return min(max(near, 0), 2047)
        return self.rng.randrange(2048)

    def ticks(self, count):
        for _ in range(count):
            self.master.tick(self.reading())

    def events_inside(self, probability):
        """From now on ticks come between slots, with readings of their own, and at standard speed short resets, which
        change nothing."""
        def before_slot():
            if self.chance(probability):
                self.master.tick(self.rng.randrange(2048))
            if self.chance(probability) and not self.tag.overdrive:
                self.master.short_reset()
        self.master.before_slot = before_slot

    # ---- Passwords ----

    def full_password(self):
        return bytes(self.tag.image[FULL_PASSWORD:FULL_PASSWORD + 8])

    def read_password(self):
        return bytes(self.tag.image[READ_PASSWORD:READ_PASSWORD + 8])

    def wrong_password(self):
        """Nothing of it, the other one, or one bit off: the first, the last or any."""
        right = self.full_password()
        kind = self.rng.randrange(4)
        if kind == 0:
            return self.rng.randbytes(8)
        if kind == 1:
            return self.read_password()
        return flipped(right, self.rng.choice((0, 63, self.rng.randrange(64))))

    def password(self, wrong=0.15):
        return self.wrong_password() if self.chance(wrong) else self.full_password()

    # ---- Choosing the tag ----

    def select(self):
        """Some way that works to go on to a memory command."""
        kind = self.rng.randrange(13)
        if kind == 0:
            self.master.read_rom()
        elif kind == 1:
            self.master.match(self.rom)
        elif kind == 2:
            self.master.search(self.rom)
        elif kind == 3 and self.tag.image[ALARMS] & (BOR | THF | TLF):
            self.master.search(self.rom, conditional=True)
        elif kind <= 5 and self.tag.resume_mark:
            self.master.resume()
        elif kind == 6:
            self.master.overdrive_match(self.rom)
        elif kind <= 8:
            self.master.overdrive_skip()
        else:
            self.master.skip()

    def choose(self):
        """The plainest way that always works."""
        self.master.skip()

    def flipped_rom(self):
        return flipped(self.rom, self.rng.choice((0, 63, self.rng.randrange(64))))

    # ---- Settings ----

    def clock(self):
        if self.chance(0.5):
            return bytes.fromhex(self.rng.choice(EDGE_CLOCKS))
        rng = self.rng
        month = bcd(rng.randint(1, 12)) | rng.choice((0, 0x80))
        return bytes((bcd(rng.randrange(60)), bcd(rng.randrange(60)), rng.choice(HOURS_24 + HOURS_12),
                      bcd(rng.randint(1, 28)), month, bcd(rng.randrange(100))))

    def settings(self, rate=1, control=ETL, oscillator=EHSS, delay=0, thresholds=None, enable=None, clock=None):
        """The page 0200h as a master may write it: what isn't writable is random."""
        page = bytearray(self.rng.randbytes(32))
        for place, byte in enumerate(clock or self.clock()):
            page[place] = byte | page[place] & ~WRITABLE[place]
        page[6:8] = rate.to_bytes(2, "little")
        page[8:10] = thresholds or bytes((self.rng.randrange(256), self.rng.randrange(256)))
        page[0x10] = self.rng.randrange(256) if enable is None else enable
        page[0x12], page[0x13] = oscillator, control
        page[0x16:0x19] = delay.to_bytes(3, "little")
        return bytes(page)

    def store(self, address, data):
        return self.master.store(address, data, self.full_password(), self.choose)

    def set_passwords(self, control=0xAA):
        """From 0227h to the page's end, so that nothing else is touched."""
        rng = self.rng
        read, full = rng.randbytes(8), rng.randbytes(8)
        if self.chance(0.1):
            read = full
        self.store(PASSWORD_CONTROL, bytes((control,)) + read + full + rng.randbytes(8))

    def start(self, **page):
        """Stop, settings, Clear, Start, all with the right password."""
        master = self.master
        if self.tag.image[STATUS] & MIP:
            self.select()
            master.stop(self.full_password())
        self.store(0x0200, self.settings(**page))
        self.select()
        master.clear(self.full_password())
        self.select()
        master.start(self.full_password())

    # ---- Looking ----

    def look(self):
        """All that a master can see, but for user memory and log."""
        self.master.before_slot = None
        self.choose()
        self.master.read_scratchpad()
        self.choose()
        self.master.read_memory(0x0200, 64, self.full_password())
        self.master.search(self.rom, conditional=True)

    def look_at(self, address, count):
        self.choose()
        self.master.read_memory(address, count, self.full_password())

    def look_at_log(self):
        """Its ends, and the place that is written next; now and then the whole of it, or a dump."""
        if self.chance(0.06):
            self.look_at(0x1000, 8192)
            return
        if self.chance(0.03):
            self.master.take_dump(self.full_password())
            return
        self.look_at(0x1000, 40)
        self.look_at(0x2FD0, 48)
        width = 2 if self.tag.image[0x0213] & TLFS else 1
        near = 0x1000 + self.tag.number(0x0220) * width % 8192
        start = max(0x1000, near - 16)
        self.look_at(start, min(40, 0x3000 - start))


def bits_of(data):
    """In the order of the line."""
    return [byte >> place & 1 for byte in data for place in range(8)]


def flipped(data, place):
    """Eight bytes with one bit wrong, counted as they travel."""
    return (int.from_bytes(data, "little") ^ 1 << place).to_bytes(8, "little")


# ---- Kinds of session: choosing the tag ----

def rom_commands(session):
    """Each ROM command, right and wrong, whole and broken off, and Resume after it."""
    rng, master = session.rng, session.master
    session.select()
    master.write_scratchpad(rng.randrange(0x4000), rng.randbytes(1))
    for _ in range(rng.randint(8, 24)):
        if session.chance(0.2):
            change_flags(session)
        if session.chance(0.4):
            rng.choice((master.match, master.search))(session.rom)  # there is a mark for the next to clear
        some_rom_command(session)
        if session.chance(0.5):
            goes_on(session)
        if session.chance(0.8):
            master.resume()
            goes_on(session)
    session.look()


def change_flags(session):
    """Flags there are are cleared; if there is none, a mission sets some, or does not."""
    master = session.master
    if session.tag.image[ALARMS] & (BOR | THF | TLF):
        session.select()
        master.stop(session.full_password())
        session.select()
        master.clear(session.full_password())
    else:
        session.start(thresholds=b"\x54\x54", enable=session.rng.randrange(4))
        session.ticks(1)


def some_rom_command(session):
    rng, master = session.rng, session.master
    rom = session.rom if session.chance(0.5) else session.flipped_rom()
    rng.choice((
        lambda: master.match(rom), lambda: master.search(rom), lambda: master.search(rom, conditional=True),
        lambda: master.search(session.rom, conditional=True), master.read_rom, master.skip, master.resume,
        lambda: master.overdrive_match(rom), master.overdrive_skip,
        lambda: master.rom_command(rng.randrange(256)), lambda: broken_rom_command(session, rom)))()


def broken_rom_command(session, rom):
    """Its first bits alone; for a Search they are choices in the wrong slots."""
    master, rng = session.master, session.rng
    master.rom_command(rng.choice(ROM_COMMANDS))
    for bit in bits_of(rom)[:rng.randrange(64)]:
        master.slot(bit)


def goes_on(session):
    """The first bytes of Read Scratchpad show whether the tag is chosen."""
    session.master.write((READ_SCRATCHPAD,))
    session.master.read(3)


def overdrive(session):
    """Exchanges begun at either speed, whole and with a short reset inside. Each session has them all, in any order, so
    that one session is enough to see a wrong speed."""
    rng, master = session.rng, session.master
    master.stray_reading = lambda: rng.getrandbits(16)  # with code 4 too, and most are above 2047
    master.short_reset()  # the new tag still waits for a reset
    master.write((SKIP_ROM,))
    goes_on(session)
    session.set_passwords()
    trials = list(itertools.product(range(len(exchanges(session))), (False, True), (False, True)))
    for at, fast, whole in rng.sample(trials, len(trials)):
        bits = exchanges(session)[at]
        exchange(session, fast, bits, len(bits) if whole else rng.randrange(1, len(bits)))
    for fast in (False, True):  # a data byte that is cut
        bits = bits_of((RESUME, WRITE_SCRATCHPAD, rng.randrange(0x18), 0x01, *rng.randbytes(rng.randint(1, 8))))
        exchange(session, fast, bits, len(bits) - rng.randrange(1, 8))
    session.look()
    master.event(5, rng.randrange(2048, 65536))  # a code above 4 comes before a reading above 2047


def exchanges(session):
    """What a master may send after a reset, in slots, with the line released where it reads.

    Before memory commands stands Resume, which keeps the mark: so the tag can be asked after a reset what they left.
    """
    rng, rom, password, ones = session.rng, session.rom, session.full_password(), b"\xFF" * 8
    address = rng.randrange(0x200)
    ta1, ta2 = address & 0xFF, address >> 8
    unknown = rng.choice([byte for byte in range(256) if byte not in ROM_COMMANDS])
    search = [slot for bit in bits_of(rom) for slot in (1, 1, bit)]
    return [bits_of((SEARCH_ROM,)) + search, *map(bits_of, (
        (SKIP_ROM,), (OVERDRIVE_SKIP,), (unknown,), (READ_ROM, *ones), (MATCH_ROM, *rom),
        (MATCH_ROM, *session.flipped_rom()), (OVERDRIVE_MATCH, *rom),
        (OVERDRIVE_MATCH, *flipped(rom, 63)), (OVERDRIVE_MATCH, *flipped(rom, rng.randrange(63))),
        (RESUME, OVERDRIVE_SKIP), (RESUME, WRITE_SCRATCHPAD, ta1, ta2, *rng.randbytes(34 - ta1 % 32)),
        (RESUME, READ_SCRATCHPAD, *ones), (RESUME, COPY_SCRATCHPAD, *session.tag.address_registers(), *password, 0xFF),
        (RESUME, READ_MEMORY, ta1, ta2, *password, *ones), (RESUME, CLEAR, *password, 0xFF),
        (RESUME, FORCED_CONVERSION, 0xFF)))]


def exchange(session, fast, bits, cut):
    """At that speed, with a mark, and a short reset at the cut. At standard speed the exchange goes on over it."""
    master = session.master
    master.long_reset()
    master.write((OVERDRIVE_MATCH if fast else MATCH_ROM, *session.rom))
    (master.short_reset if fast else master.long_reset)()
    for bit in bits[:cut]:
        master.slot(bit)
    if cut < len(bits):
        master.short_reset()
    if cut == len(bits) or not fast:
        for bit in bits[cut:]:
            master.slot(bit)
        goes_on(session)
    session.ticks(session.rng.randrange(2))
    look_at_speed(session)


def look_at_speed(session):
    """And at the mark: Resume after a short reset, which is heard at overdrive alone, and after a long one."""
    for reset in (session.master.short_reset, session.master.long_reset):
        reset()
        session.master.write((RESUME,))
        goes_on(session)
    session.master.short_reset()  # the long one has ended overdrive


# ---- Kinds: scratchpad and Copy ----

def scratchpad(session):
    """Writes of every length, broken bytes and addresses, slots past the end, ticks inside."""
    rng, master = session.rng, session.master
    if session.chance(0.4):
        session.start(control=ETL | rng.choice((0, RO, SUTA, TLFS)))
    if session.chance(0.4):
        session.events_inside(0.05)
    for _ in range(rng.randint(3, 12)):
        address = rng.choice((rng.choice(EDGE_ADDRESSES), rng.randrange(0x280), rng.randrange(0x10000)))
        room = 32 - (address & 0x1F)
        data = rng.randbytes(rng.choice((0, 0, 1, rng.randint(0, room), room, room)))
        session.select()
        if session.chance(0.1):
            master.write((WRITE_SCRATCHPAD, address & 0xFF))
            master.write_bits(address >> 8, rng.randrange(8))
        else:
            master.write_scratchpad(address, data)
            master.write_bits(rng.getrandbits(8), rng.choice((0, rng.randrange(1, 8), rng.randrange(1, 8), 8)))
        look_at_scratchpad(session)
    session.look()
    session.look_at(0x0000, 64)


def look_at_scratchpad(session):
    """Read Scratchpad, now and then over-talked or broken off, then perhaps a Copy of what came."""
    rng, master = session.rng, session.master
    session.select()
    if session.chance(0.1):
        master.write((READ_SCRATCHPAD,) + tuple(rng.randbytes(rng.randrange(10))))
        return
    registers = master.read_scratchpad()[0]
    if session.chance(0.3):
        master.read_bits(rng.randrange(20))
    if session.chance(0.6):
        session.select()
        master.copy(registers, session.password())
        master.write_bits(rng.getrandbits(8), 8)


def copy_conditions(session):
    """A Copy that would be done but for one condition, and then the same one done."""
    rng, master = session.rng, session.master
    if session.chance(0.8):
        session.set_passwords(rng.choice((0xAA, 0xAA, 0xAA, 0xAA, 0xAB, 0x55)))
    if session.chance(0.5):
        session.start(rate=3)
    for _ in range(rng.randint(6, 14)):
        broken = rng.choice(("ta1", "ta2", "offset", "pf", "aa", "bit 6", "short", "broken byte", "no data", "password",
                             "read password", "register", "above", "nothing", "nothing", "nothing"))
        copy_but_for(session, broken)
        if session.chance(0.2):
            session.look()
    session.look()
    session.look_at(0x0000, 512)
    session.look_at(0x0240, 96)


def copy_but_for(session, broken):
    rng, master = session.rng, session.master
    address = rng.randrange(0x200) if session.chance(0.6) else rng.randrange(0x240, 0x280)
    if broken == "register":
        address = rng.choice((rng.randrange(0x200, 0x220), rng.randrange(0x210, 0x213), 0x01FF, 0x023F, 0x027F))
    if broken == "above":
        address = rng.choice((0x0280, 0x0FFF, 0x1000, 0x2FE0, 0x3000, 0x8000, address | 0x0400))
    session.select()
    data = rng.randbytes(32 - (address & 0x1F))
    write_but_for(session, broken, address, data)
    registers = bytearray(session.tag.address_registers())
    flips = {"ta1": (0, 1 << rng.randrange(8)), "ta2": (1, 1 << rng.randrange(8)), "offset": (2, 1 << rng.randrange(5)),
             "pf": (2, 0x20), "aa": (2, 0x80), "bit 6": (2, 0x40)}
    if broken in flips:
        place, flip = flips[broken]
        registers[place] ^= flip
    password = {"password": session.wrong_password(), "read password": session.read_password()}
    session.select()
    master.copy(registers, password.get(broken, session.full_password()))
    if session.chance(0.6):
        session.select()  # the same again, or, once AA is set, with AA
        master.copy(rng.choice((registers, session.tag.address_registers())), session.full_password())


def write_but_for(session, broken, address, data):
    rng, master = session.rng, session.master
    if broken == "short":
        master.write_scratchpad(address, data[:rng.randrange(len(data))])
    elif broken == "no data":
        master.write_scratchpad(address | rng.choice((0, 0x1F)), b"")
    elif broken == "broken byte":
        master.write_scratchpad(address, data[:-1])
        master.write_bits(data[-1], rng.randrange(1, 8))
    else:
        master.write_scratchpad(address, data)


def register_pages(session):
    """All ones, all zeros and random bytes to both register pages and the calibration, with and without a mission."""
    rng, master = session.rng, session.master
    for _ in range(rng.randint(2, 6)):
        address = rng.choice((0x0200, 0x0220, 0x0240, 0x0260, rng.randrange(0x200, 0x280)))
        length = 32 - (address & 0x1F)
        session.store(address, rng.choice((b"\xFF" * length, bytes(length), rng.randbytes(length))))
        if session.chance(0.3):
            master.tick(session.reading())
        if session.chance(0.2):
            session.start(rate=rng.randint(1, 3), control=ETL | rng.randrange(256))
            session.ticks(rng.randrange(5))
        if session.chance(0.3):
            session.select()
            rng.choice((master.stop, master.clear, master.start))(session.full_password())
        session.look()
    session.look_at(0x0240, 96)


# ---- Kinds: Read Memory and passwords ----

def read_memory(session):
    """From edge and random addresses, across pages and regions, broken off, over-talked, with ticks inside."""
    rng, master = session.rng, session.master
    session.store(rng.randrange(0x200) & 0x1E0, rng.randbytes(32))
    session.store(0x0240, rng.randbytes(32))
    if session.chance(0.6):
        session.start(rate=1, control=ETL | rng.choice((0, TLFS)), delay=0)
        session.ticks(rng.randrange(100))
    if session.chance(0.5):
        session.set_passwords()
    if session.chance(0.6):
        session.events_inside(rng.choice((0.1, 0.5)))
    for _ in range(rng.randint(2, 7)):
        address = rng.choice((rng.choice(EDGE_ADDRESSES), 0x0200, rng.randrange(0x020C, 0x0226), rng.randrange(0x3000),
                              rng.randrange(0x10000)))
        password = rng.choice((session.full_password(), session.read_password(), session.password(0.5)))
        session.select()
        if session.chance(0.15):
            head = bytes((READ_MEMORY, address & 0xFF, address >> 8))
            master.write(head + password + rng.randbytes(rng.randrange(50)))
        master.read_memory(address, rng.choice((1, 33, rng.randrange(80), rng.randrange(200))), password)
        master.read_bits(rng.randrange(20))
    session.look()
    read_between_ticks(session, rng.choice((0x0200, 0x0200, 0x020C, 0x0220, 0x1000)))


def read_between_ticks(session, address):
    """Ticks before a byte's first slot, which it must show, and before its others, which it must not."""
    master = session.master
    session.select()
    master.write(bytes((READ_MEMORY, address & 0xFF, address >> 8)) + session.full_password())
    for place in range(8 * 34):
        if session.chance(0.7 if place % 8 == 0 else 0.1):
            master.tick(session.reading())
        master.read_bits(1)


def passwords(session):
    """Every command with every password, checking on, off and nearly on."""
    rng, master = session.rng, session.master
    if session.chance(0.4):
        session.events_inside(0.02)
    for _ in range(rng.randint(1, 3)):
        session.set_passwords(rng.choice((0xAA, 0xAA, 0xAA, 0x2A, 0xA8, 0x00)))
        session.store(0x0200, session.settings(control=ETL | rng.choice((0, SUTA))))
        for _ in range(rng.randint(3, 10)):
            session.select()
            command = rng.choice((master.clear, master.clear, master.start, master.start, master.stop))
            password = rng.choice((session.full_password(), session.password(0.5), session.read_password()))
            command(password, rng.choice((0xFF, 0xFF, 0xFF, 0xFF, 0xFF, 0xFE, 0x7F, rng.randrange(256))))
            master.read_bits(rng.randrange(10))
            session.ticks(rng.randrange(3))
            if session.chance(0.5):
                session.select()
                password = rng.choice((session.read_password(), session.full_password(), session.wrong_password()))
                master.read_memory(0x0210, 32, password)
        session.look()
        session.select()
        master.stop(session.full_password())


def stranger(session):
    """Checking on, a mission with an alarm, and someone who has no password tries everything."""
    rng, master = session.rng, session.master
    session.set_passwords()
    session.start(thresholds=b"\x10\x50", enable=3, control=ETL | rng.choice((0, SUTA, RO)))
    session.ticks(rng.randrange(20))
    if session.chance(0.3):
        session.select()
        master.stop(session.full_password())
    for _ in range(rng.randint(5, 20)):
        session.select()
        guess = session.wrong_password()
        rng.choice((
            lambda: master.clear(guess), lambda: master.stop(guess), lambda: master.start(guess), master.force,
            lambda: master.read_memory(rng.randrange(0x3000), 8, rng.randbytes(8)),
            lambda: master.write_scratchpad(rng.randrange(0x280), rng.randbytes(rng.randrange(33))),
            lambda: master.copy(session.tag.address_registers(), guess), master.read_scratchpad))()
        session.ticks(rng.randrange(3))
    session.look()
    session.look_at_log()


# ---- Kinds: clock ----

def clock_edges(session):
    """Edge values and ends of any days, as stored and with the seconds that follow, on their own or within a mission."""
    rng = session.rng
    clocks = [bytes.fromhex(edge) for edge in rng.sample(EDGE_CLOCKS, rng.randint(20, 28))]
    clocks += [bytes((0x59, 0x59, rng.choice((0x23, 0x71)), rng.choice((0x28, 0x29, 0x30, 0x31)))) + rng.randbytes(2)
               for _ in range(4)]
    for edge in clocks:
        oscillator = rng.choice((EOSC, EOSC, EOSC, EOSC, 0, EOSC | EHSS))
        session.store(0x0200, session.settings(clock=edge, oscillator=oscillator))
        session.ticks(rng.choice((0, 1, 1, 1, 2, 61)))
        session.look_at(0x0200, 6)
        if session.chance(0.1):
            session.start(rate=1, oscillator=rng.choice((EHSS, EHSS | EOSC)), delay=0)
            session.ticks(rng.randint(1, 3))
            session.look_at(0x0200, 31)
            session.select()
            session.master.stop(session.full_password())
    session.look()


def long_clock(session):
    """Carries as they come, over hours: any date, ticks enough to pass midnight in either form, and noon with PM."""
    for hours in ((0x21, 0x22, 0x23, 0x2A), (0x50, 0x51), (0x70, 0x71, 0x7A)):
        clock = bytearray(session.clock())
        clock[2] = session.rng.choice(hours)
        session.store(0x0200, session.settings(oscillator=EOSC, clock=clock))
        for _ in range(2):
            session.ticks(session.rng.randint(500, 3600))
            session.look_at(0x0200, 6)


# ---- Kinds: missions ----

def mission(session):
    """Every mode, small rates and delays, ticks inside bytes, stopped and started again."""
    rng, master = session.rng, session.master
    if session.chance(0.3):
        session.set_passwords()
    for _ in range(rng.randint(1, 3)):
        ehss = rng.choice((EHSS, EHSS, 0))
        control = ETL | rng.choice((0, TLFS)) | rng.choice((0, RO)) | rng.choice((0, SUTA)) | rng.choice((0, 0xC2))
        session.start(rate=rng.choice((1, 1, 2, 3, 7)), control=control, oscillator=ehss | rng.choice((0, EOSC)),
                      delay=rng.choice((0, 0, 0, 1, 2)))
        session.ticks(rng.choice((rng.randrange(10), rng.randrange(200), rng.randrange(700))))
        session.look()
        if session.chance(0.4):
            session.events_inside(rng.choice((0.01, 0.3)))
            session.look_at(0x0200, 64)
        session.look()
        session.look_at_log()
        if session.chance(0.5):
            session.select()
            master.stop(session.password())
            session.ticks(rng.randrange(5))
            session.look()


def delays(session):
    """Delays that borrow from the higher bytes, the minute begun anew at Start, the remainder kept by Stop."""
    rng, master = session.rng, session.master
    session.start(delay=rng.choice((1, 2, 0x100, 0x10000, 0xFFFFFF, rng.randrange(1 << 24))), rate=rng.randint(1, 3),
                  oscillator=rng.choice((0, EHSS)))
    for _ in range(rng.randint(2, 6)):
        session.ticks(rng.choice((1, 30, 58, 59, 60, 61, 119, 120, 121, rng.randrange(200))))
        session.look_at(0x0216, 16)
        if session.chance(0.7):
            session.select()
            master.stop(session.full_password())
            session.ticks(rng.randrange(70))
            session.select()
            master.clear(session.full_password())
            session.select()
            master.start(session.full_password())
    session.ticks(rng.randrange(130))
    session.look()


def large_rate(session):
    """The conversion after the first, at the far end of a long period."""
    rng = session.rng
    ehss = rng.choice((EHSS, 0))
    rate = rng.choice((255, 256, 4096, 16383, rng.randrange(1, 16384))) if ehss else rng.choice((5, 60, 256, 273))
    delay = rng.choice((0, 0, 1))
    session.start(rate=rate | rng.choice((0, 0x4000, 0xC000)), oscillator=ehss, delay=delay)
    period = rate if ehss else 60 * rate
    session.ticks(60 * delay + period)
    session.look_at(0x0200, 64)
    session.ticks(1)
    session.look()
    session.look_at(0x1000, 8)


def log_end(tlfs, ro, suta):
    """To the log's end and past it, one conversion a second."""
    places = 4096 if tlfs else 8192

    def kind(session):
        rng = session.rng
        session.start(rate=1, control=ETL | tlfs | ro | suta, thresholds=b"\x20\x70", enable=rng.randint(1, 3))
        session.ticks(rng.randrange(10) if suta else 0)
        if suta and not session.tag.image[ALARMS] & (THF | TLF):
            session.master.tick(7 if session.tag.image[0x0210] & ETLA else 2047)
        left = places - session.tag.number(0x0220) - rng.choice((1, 2))
        session.ticks(left)
        for _ in range(3):
            session.look_at(0x020C, 25)
            session.ticks(1)
        if ro:
            session.ticks(rng.choice((0, 1, rng.randrange(600))))
        if ro and session.chance(0.15):
            session.ticks(places + rng.randrange(30))
        session.look()
        session.look_at_log()
    return kind


def forced(session):
    """Forced Conversion before, in and after missions, with WFTA to clear and without."""
    rng, master = session.rng, session.master
    for _ in range(rng.randint(2, 6)):
        if session.chance(0.5):
            session.start(rate=rng.randint(1, 4), control=ETL | rng.choice((SUTA, SUTA, 0)) | rng.choice((0, TLFS)),
                          thresholds=THRESHOLDS, enable=rng.choice((0, 1, 2, 3)))
            for _ in range(rng.randrange(4)):
                master.tick(rng.choice(NO_ALARM))  # WFTA stays
            session.ticks(rng.choice((0, 0, 1)))
        if session.chance(0.7):
            session.select()
            master.stop(session.full_password())
        session.ticks(rng.randrange(3))
        for _ in range(rng.randint(1, 3)):
            session.select()
            if session.chance(0.3):
                session.events_inside(0.3)
            master.force(rng.choice((0xFF, 0xFF, 0xFF, rng.randrange(256))))
            session.look()
    session.look_at(0x1000, 16)


def waiting(session):
    """A tag that waits for an alarm, or doesn't, through every order of ticks and commands, watched at each step."""
    rng, master = session.rng, session.master
    session.start(rate=1, control=ETL | rng.choice((SUTA, SUTA, SUTA, 0)) | rng.choice((0, TLFS)),
                  thresholds=THRESHOLDS, enable=rng.choice((0, 1, 2, 3, 3)))
    if session.chance(0.6):
        stopped_while_waiting(session)
    for _ in range(rng.randint(10, 20)):
        step = rng.choice((
            lambda: master.tick(rng.choice(NO_ALARM)), lambda: master.tick(rng.choice(ALARM)), master.stop,
            master.clear, master.start, master.force, master.force))
        session.select()
        step()
        session.look_at(0x020C, 10)
    session.look()
    session.look_at(0x1000, 16)
    alarm_start(session)


def stopped_while_waiting(session):
    """WFTA stays over Stop and Clear; a Forced Conversion leaves it, then one that alarms clears it."""
    rng, master = session.rng, session.master
    for _ in range(rng.randint(1, 3)):
        master.tick(rng.choice(NO_ALARM))
    for step in (master.stop, rng.choice((master.clear, master.stop)), master.force,
                 lambda: master.tick(rng.choice(ALARM)), master.force):
        session.select()
        step()
        session.look_at(0x020C, 10)


def alarm_start(session):
    """In 16-bit format: a mission stopped while it waits, and one that waits, alarms and goes on, with its registers
    and log looked at after each conversion."""
    rng = session.rng
    page = {"rate": 1, "control": ETL | SUTA | TLFS, "thresholds": THRESHOLDS, "enable": 3}
    session.start(**page)
    stopped_while_waiting(session)
    session.start(**page)
    for readings in (*[NO_ALARM] * rng.randint(1, 3), ALARM, range(2048), range(2048)):
        session.master.tick(rng.choice(readings))
        session.look_at(0x020C, 26)
        session.look_at(0x1000, 6)


def start_conditions(session):
    """A Start that would be done but for one condition."""
    rng, master = session.rng, session.master
    for _ in range(rng.randint(2, 6)):
        control = rng.choice((ETL, ETL, ETL, 0, 0xFE)) | rng.choice((0, SUTA))
        session.store(0x0200, session.settings(rate=rng.choice((1, 256, 0, 0xC000)), control=control))
        if session.chance(0.7):
            session.select()
            master.clear(session.full_password(), rng.choice((0xFF, 0xFF, 0xFF, 0x00)))
        session.select()
        master.start(session.full_password(), rng.choice((0xFF, 0xFF, 0xFF, 0x7F)))
        session.ticks(rng.randrange(4))
        session.look()
        if session.chance(0.7):
            session.select()
            rng.choice((master.stop, master.clear, master.start))(session.full_password())
            session.look()
        session.select()
        master.stop(session.full_password())


# ---- Kinds: noise and refusals ----

def noise(session):
    """Right commands followed by anything, resets of both kinds anywhere."""
    rng, master = session.rng, session.master
    if session.chance(0.5):
        session.start(rate=rng.randint(1, 3), control=ETL | rng.randrange(256))
    for _ in range(rng.randint(10, 60)):
        kind = rng.randrange(10)
        if kind < 6:
            session.select()
            master.write((rng.choice(MEMORY_COMMANDS) if session.chance(0.9) else rng.randrange(256),))
        elif kind < 8:
            master.rom_command(rng.choice(ROM_COMMANDS))
        else:
            rng.choice((master.long_reset, master.short_reset))()
        for _ in range(rng.choice((0, 7, 8, 16, 17, rng.randrange(130)))):
            if session.chance(0.02):
                master.tick(session.reading())
            if session.chance(0.02):
                master.short_reset()
            master.slot(rng.choice((0, 1, 1)))
    session.look()


def walk(session):
    """Parts of all the other kinds, one after the other on the same tag."""
    rng, master = session.rng, session.master
    parts = (scratchpad, passwords, forced, start_conditions, rom_commands, register_pages, clock_edges, delays,
             noise, mission)
    for part in rng.sample(parts, rng.randint(2, 3)):
        part(session)
        master.before_slot = None


def refused_event(session):
    """A short life and a bad last event. Code above 4 comes before a reading above 2047."""
    rng, master = session.rng, session.master
    for _ in range(rng.randrange(4)):
        session.select()
        master.write_bits(rng.getrandbits(8), rng.randrange(9))
        session.ticks(rng.randrange(3))
    code = rng.choice((3, 5, 6, 128, 255, rng.randrange(5, 256)))
    reading = rng.choice((2048, 0xFFFF, rng.randrange(2048, 65536))) if code == 3 else rng.getrandbits(16)
    master.event(code, reading)


KINDS = [(kind.__name__, kind) for kind in (
    rom_commands, overdrive, scratchpad, copy_conditions, register_pages, read_memory, passwords, stranger,
    clock_edges, long_clock, mission, delays, large_rate, forced, waiting, start_conditions, noise, walk,
    refused_event)]
KINDS += [(f"log_end, TLFS {tlfs > 0:d} RO {ro > 0:d} SUTA {suta > 0:d}", log_end(tlfs, ro, suta))
          for tlfs in (0, TLFS) for ro in (0, RO) for suta in (0, SUTA)]


def session(seed, number):
    """The kind's name, the playing program's standard input, and what it must print."""
    rng = random.Random(f"session {seed} {number}")
    at = number % (len(KINDS) + 1)
    if at == len(KINDS):
        return new_tag(rng)
    name, kind = KINDS[at]
    played = Session(rng)
    kind(played)
    return name, played.stdin() + rest(played, 3), bytes(played.master.answers)


def rest(played, width):
    """What may stand behind the events, which are so many bytes each: a short last group, which is dropped, or after a refusal
    anything, as nothing more is read."""
    rng = played.rng
    if not played.master.refused:
        return rng.randbytes(rng.choice((0, *range(width))))
    return rng.randbytes(rng.randrange(12)) if rng.random() < 0.5 else b""


def new_tag(rng):
    """Registration numbers and codes, right and wrong, and inputs that end early."""
    serial = bytes((rng.choice((FAMILY, FAMILY, FAMILY, 0x00, 0x21, 0x40)),)) + rng.randbytes(6)
    rom = serial + bytes((crc8(serial) ^ rng.choice((0, 0, 0, 1, 0x80)),))
    code = rng.choice((CODE_L, CODE_T, 0x00, 0x20, 0x41, rng.randrange(256)))
    stdin = rom + bytes((code,)) + b"\x02\x00\x00" + b"\x01\x00\x00" * rng.randrange(9)
    stdin = stdin[:rng.choice((0, 1, 7, 8, 9, 10, 11, 12, 100, 100, 100))]
    return "new_tag", stdin, play(stdin)
