"""The master's side of the line: it plays events to a tag, keeps them, and reads the answers.

`triples` is what the playing program reads after its nine bytes, `answers` what it must print. After a refusal the
program has stopped, so a session must stop there too: `refused` says so.
"""

from . import dock
from .board import MOST_TAGS
from .crc import crc16_sent
from .tag import (
    CLEAR, CONDITIONAL_SEARCH, COPY_SCRATCHPAD, FORCED_CONVERSION, MATCH_ROM, OVERDRIVE_MATCH, OVERDRIVE_SKIP,
    READ_MEMORY, READ_ROM, READ_SCRATCHPAD, RESUME, SEARCH_ROM, SKIP_ROM, START, STOP, WRITE_SCRATCHPAD)

LOW, RELEASED, LONG_RESET, TICK, SHORT_RESET = 0, 1, 2, 3, 4
ANY_PASSWORD = b"\xFF" * 8


class Master:
    def __init__(self, tag):
        self.tag = tag
        self.triples = bytearray()
        self.answers = bytearray()
        self.refused = 0
        self.before_slot = None  # called before each slot: ticks and short resets inside bytes
        self.stray_reading = None  # gives the readings of slots and resets, which don't count
        self.short = None  # whether the reset before a ROM command is a short one; without it none is

    # ---- Events ----

    def event(self, code, reading=0):
        if self.refused:
            raise RuntimeError("an event after a refusal")
        number, bit = self.give(code, reading)
        self.answers += b"R%02d\n" % number if number else b"%d\n" % bit
        self.refused = number
        return bit

    def give(self, code, reading):
        """The tag's answer to an event, which is kept."""
        self.triples += bytes((code, reading >> 8, reading & 0xFF))
        return self.tag.event(code, reading)

    def without_reading(self, code):
        return self.event(code, self.stray_reading() if self.stray_reading else 0)

    def slot(self, bit):
        if self.before_slot:
            self.before_slot()
        return self.without_reading(bit)

    def long_reset(self):
        return self.without_reading(LONG_RESET)

    def short_reset(self):
        return self.without_reading(SHORT_RESET)

    def reset(self):
        return self.short_reset() if self.short and self.short() else self.long_reset()

    def tick(self, reading):
        self.event(TICK, reading)

    def write_bits(self, byte, count):
        for place in range(count):
            self.slot(byte >> place & 1)

    def write(self, data):
        for byte in data:
            self.write_bits(byte, 8)

    def read_bits(self, count):
        """The tag's bits in as many released slots, low first."""
        return sum(self.slot(RELEASED) << place for place in range(count))

    def read(self, count):
        return bytes(self.read_bits(8) for _ in range(count))

    # ---- Choosing a tag on the line ----

    def rom_command(self, command):
        self.reset()
        self.write((command,))

    def skip(self):
        self.rom_command(SKIP_ROM)

    def resume(self):
        self.rom_command(RESUME)

    def read_rom(self):
        self.rom_command(READ_ROM)
        return self.read(8)

    def match(self, rom):
        self.rom_command(MATCH_ROM)
        self.write(rom)

    def overdrive_skip(self):
        self.rom_command(OVERDRIVE_SKIP)

    def overdrive_match(self, rom):
        self.rom_command(OVERDRIVE_MATCH)
        self.write(rom)

    def search(self, rom, conditional=False):
        """Chooses the bits of rom; returns the bits and complements that the tag gave."""
        self.rom_command(CONDITIONAL_SEARCH if conditional else SEARCH_ROM)
        given = []
        for byte in rom:
            for place in range(8):
                given.append((self.slot(RELEASED), self.slot(RELEASED)))
                self.slot(byte >> place & 1)
        return given

    def find(self, conditional=False):
        """The numbers of all tags that join a search, one pass a number. Where two 0s come the tags part: the pass takes the way
        of the 0, and a later one that of the 1, the latest parting first. One number too many ends it."""
        found, ways = [], [[]]
        while ways and len(found) <= MOST_TAGS:
            way = ways.pop()
            self.rom_command(CONDITIONAL_SEARCH if conditional else SEARCH_ROM)
            for place in range(64):
                bits = self.slot(RELEASED), self.slot(RELEASED)
                if bits == (1, 1):  # nobody is there
                    return found
                if place == len(way):
                    if bits == (0, 0):
                        ways.append([*way, 1])
                    way.append(bits[0])
                self.slot(way[place])
            found.append(sum(bit << place for place, bit in enumerate(way)).to_bytes(8, "little"))
        return found

    # ---- Memory commands, once the tag is chosen ----

    def write_scratchpad(self, address, data):
        """Whether the CRC came and was right; without the last place there is none."""
        sent = bytes((WRITE_SCRATCHPAD, address & 0xFF, address >> 8)) + bytes(data)
        self.write(sent)
        if (address & 0x1F) + len(data) < 32:
            return False
        return self.read(2) == crc16_sent(sent)

    def read_scratchpad(self):
        """The address registers, the data, and whether the CRC was right."""
        self.write((READ_SCRATCHPAD,))
        registers = self.read(3)
        data = self.read(32 - (registers[0] & 0x1F))
        right = self.read(2) == crc16_sent(bytes((READ_SCRATCHPAD,)) + registers + data)
        return registers, data, right

    def copy(self, registers, password=ANY_PASSWORD):
        """Whether the tag answered 0, 1, 0, 1 after the three address registers and the password."""
        self.write(bytes((COPY_SCRATCHPAD,)) + bytes(registers) + password)
        return self.read_bits(4) == 0b1010

    def read_memory(self, address, count, password=ANY_PASSWORD):
        """Data of count bytes from the address, and whether each page's CRC that came along was right."""
        self.write(bytes((READ_MEMORY, address & 0xFF, address >> 8)) + password)
        checked = bytearray((READ_MEMORY, address & 0xFF, address >> 8))
        data, right = bytearray(), True
        for at in range(address, address + count):
            data += self.read(1)
            checked.append(data[-1])
            if at & 0x1F == 0x1F:
                right = self.read(2) == crc16_sent(checked) and right
                checked.clear()
        return bytes(data), right

    def mission_command(self, command, password, last):
        self.write(bytes((command,)) + password + bytes((last,)))

    def clear(self, password=ANY_PASSWORD, last=0xFF):
        self.mission_command(CLEAR, password, last)

    def start(self, password=ANY_PASSWORD, last=0xFF):
        self.mission_command(START, password, last)

    def stop(self, password=ANY_PASSWORD, last=0xFF):
        self.mission_command(STOP, password, last)

    def force(self, last=0xFF):
        self.write((FORCED_CONVERSION, last))

    # ---- Whole exchanges, with Skip ----

    def store(self, address, data, password=ANY_PASSWORD, choose=None):
        """Writes to a page's end: Write Scratchpad, then Copy. `choose` chooses in another way than Skip."""
        choose = choose or self.skip
        choose()
        self.write_scratchpad(address, data)
        choose()
        return self.copy((address & 0xFF, address >> 8, 0x1F), password)

    def take_dump(self, password=ANY_PASSWORD):
        """The 258 lines, each page read first; None if a CRC was wrong."""
        lines = []
        for page in dock.PAGES:
            self.skip()
            data, right = self.read_memory(page, 32, password)
            if not right:
                return None
            lines.append(dock.line(page, data))
        return b"".join(lines)


class BoardMaster(Master):
    """The master of several tags, with their board for its tag. An event has a place too: `groups` is what the program shed reads
    after its head."""

    def __init__(self, board):
        super().__init__(board)
        self.groups = bytearray()
        self.place = 0  # of the tag that a tick is for
        self.ticked = None  # gives that place where a tick names none
        self.stray_place = None  # gives the places of slots and resets, which don't count

    def tick(self, reading, place=None):
        if place is not None:
            self.place = place
        elif self.ticked:
            self.place = self.ticked()
        super().tick(reading)

    def give(self, code, reading):
        place = self.place if code == TICK else self.stray_place() if self.stray_place else 0
        self.groups += bytes((code, place, reading >> 8, reading & 0xFF))
        return self.tag.event(code, place, reading)
