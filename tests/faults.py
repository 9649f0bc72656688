"""Deliberate faults of the model, each a line or two changed, to show that sessions, dumps, trials, lists and boards would catch
them.

A fault names the file of the model, the text to be replaced, which must stand there exactly once, and its replacement.
`load` gives the programs of a model with one fault, or another module of it; the model itself is left as it is.
"""

import importlib
import pathlib
import sys
import types
from typing import NamedTuple

FOLDER = pathlib.Path(__file__).parent / "model"
MODULES = ("crc", "tag", "dock", "lists", "calls", "board", "programs")


class Fault(NamedTuple):
    name: str
    module: str
    old: str
    new: str


def load(fault, wanted="programs"):
    """A module of the faulty model, that of the programs if no other is wanted."""
    package = "faulty_" + "".join(c if c.isalnum() else "_" for c in fault.name)
    sys.modules[package] = types.ModuleType(package)
    sys.modules[package].__path__ = []
    for name in MODULES:
        source = (FOLDER / f"{name}.py").read_text()
        if name == fault.module:
            if source.count(fault.old) != 1:
                raise ValueError(f"fault '{fault.name}': its text stands {source.count(fault.old)} times in {name}.py")
            source = source.replace(fault.old, fault.new)
        module = types.ModuleType(f"{package}.{name}")
        module.__package__ = package
        sys.modules[module.__name__] = module
        setattr(sys.modules[package], name, module)
        exec(compile(source, f"{name}.py with '{fault.name}'", "exec"), module.__dict__)
    return importlib.import_module(f"{package}.{wanted}")


# A short reset at standard speed, and all of it up to the tag that listens again.
UNHEARD = "        if not self.overdrive:\n            return 1\n"
HEARD = UNHEARD + "        self.reset()\n"

# The steps of the hours by their form.
STEP_HOURS = "STEP_HOURS = {0: step_table(HOURS_24), FORM: step_table(HOURS_12)}\n"


def hour_fault(name, which, step):
    """The bytes of the twelve-hour form for which this is true step so: the byte after the step, and the carry."""
    return Fault(name, "tag", STEP_HOURS, STEP_HOURS + f"""\
for hour in range(FORM, 128):
    if {which}:
        STEP_HOURS[FORM][hour] = {step}
""")


FAULTS = (
    # Document 01, "Slips that look right"
    Fault("password in the CRC", "tag", "sent = bytearray((READ_MEMORY, ta1, ta2))  #",
          "sent = bytearray((READ_MEMORY, ta1, ta2)) + password  #"),
    Fault("Copy after an address with no data", "tag", "self.ending_offset = ta1 & 0x1F\n        self.partial = 1",
          "self.ending_offset = ta1 & 0x1F\n        self.partial = 0"),
    Fault("WFTA tells whether entry 0 exists", "dock", "count = samples + 1 if alarmed else 0",
          "count = 0 if register(STATUS) & 0x10 else samples + 1"),
    Fault("listing from place 0 after rollover", "dock", "entry_reading(register, log, k) -",
          "entry_reading(register, log, k - (count - held)) -"),
    Fault("Start replies 0 on a right password", "tag", "STOP: self.stop}[command]()",
          "STOP: self.stop}[command]()\n            yield\n            yield 1 if command != START else 0"),

    # Choosing a tag on the line
    Fault("Resume mark kept after Skip", "tag", "self.resume_mark = False\n        if command == CONDITIONAL_SEARCH",
          "self.resume_mark &= command == SKIP_ROM\n        if command == CONDITIONAL_SEARCH"),
    Fault("Resume mark kept by a Conditional Search not joined", "tag",
          "self.resume_mark = False\n        if command == CONDITIONAL_SEARCH",
          "self.resume_mark &= command == CONDITIONAL_SEARCH\n        if command == CONDITIONAL_SEARCH"),
    Fault("Conditional Search without BOR", "tag", "not self.image[ALARMS] & (BOR | THF | TLF)",
          "not self.image[ALARMS] & (THF | TLF)"),
    Fault("nothing after Read ROM", "tag", "yield from say_bytes(self.rom)",
          "yield from say_bytes(self.rom)\n            return False"),
    Fault("a wrong Match sets the mark", "tag",
          "self.resume_mark = yield from self.match()\n            return self.resume_mark",
          "right = yield from self.match()\n            self.resume_mark = True\n            return right"),

    # Overdrive (request #103): the two commands
    Fault("3Ch does not set the speed", "tag", "elif command == OVERDRIVE_SKIP:\n            self.overdrive = True",
          "elif command == OVERDRIVE_SKIP:\n            pass"),
    Fault("3Ch keeps the mark", "tag", "self.resume_mark = False\n        if command == CONDITIONAL_SEARCH",
          "self.resume_mark &= command == OVERDRIVE_SKIP\n        if command == CONDITIONAL_SEARCH"),
    Fault("nothing after 3Ch", "tag", "elif command == OVERDRIVE_SKIP:\n            self.overdrive = True",
          "elif command == OVERDRIVE_SKIP:\n            self.overdrive = True\n            return False"),
    Fault("69h does not set the speed", "tag", "self.resume_mark = self.overdrive = True", "self.resume_mark = True"),
    Fault("69h does not set the mark", "tag", "self.resume_mark = self.overdrive = True", "self.overdrive = True"),
    Fault("69h keeps the mark until it is whole", "tag",
          "self.resume_mark = False\n        if command == CONDITIONAL_SEARCH",
          "self.resume_mark &= command == OVERDRIVE_MATCH\n        if command == CONDITIONAL_SEARCH"),
    Fault("69h sets the speed at its command byte", "tag", "return (yield from self.overdrive_match())",
          "self.overdrive = True\n            return (yield from self.overdrive_match())"),
    Fault("69h sets the speed on 63 bits", "tag", "whole = yield from self.match()\n", """\
whole = True
        for place, bit in enumerate(self.rom_bits()):
            yield
            whole = (yield 1) == bit and whole
            self.overdrive |= whole and place == 62
"""),
    Fault("a failed 69h sets the speed", "tag", "if whole:\n            self.resume_mark = self.overdrive = True",
          "self.overdrive, self.resume_mark = True, whole"),
    Fault("a failed 69h sets the mark", "tag", "if whole:\n            self.resume_mark = self.overdrive = True",
          "self.resume_mark = True\n        self.overdrive |= whole"),
    Fault("a failed 69h ends overdrive", "tag", "if whole:\n            self.resume_mark = self.overdrive = True",
          "self.resume_mark = self.overdrive = whole"),
    Fault("3Ch sets the speed as a memory command", "tag", "command = yield from hear()\n        if command == WRITE",
          "command = yield from hear()\n        self.overdrive |= command == OVERDRIVE_SKIP\n        if command == WRITE"),
    Fault("69h sets the speed as a memory command", "tag", "command = yield from hear()\n        if command == WRITE",
          "command = yield from hear()\n        self.overdrive |= command == OVERDRIVE_MATCH\n        if command == WRITE"),
    Fault("Match 55h sets the speed", "tag", "self.resume_mark = yield from self.match()\n",
          "self.resume_mark = yield from self.match()\n            self.overdrive |= self.resume_mark\n"),
    Fault("another ROM command ends overdrive", "tag",
          "self.resume_mark = False\n        if command == CONDITIONAL_SEARCH",
          "self.resume_mark = False\n        self.overdrive &= command == OVERDRIVE_MATCH\n"
          "        if command == CONDITIONAL_SEARCH"),
    Fault("Resume ends overdrive", "tag", "if command == RESUME:\n",
          "if command == RESUME:\n            self.overdrive = False\n"),
    Fault("a tick ends overdrive", "tag", "self.last_reading = reading\n",
          "self.last_reading = reading\n        self.overdrive = False\n"),

    # Overdrive: resets
    Fault("a new tag at overdrive", "tag", "self.overdrive = False  # the speed", "self.overdrive = True  # the speed"),
    Fault("a long reset keeps the speed", "tag", "self.overdrive = False\n        self.reset()", "self.reset()"),
    Fault("a short reset ends overdrive", "tag", HEARD, HEARD + "        self.overdrive = False\n"),
    Fault("a short reset clears the mark", "tag", HEARD, HEARD + "        self.resume_mark = False\n"),
    Fault("a short reset clears PF", "tag", HEARD, HEARD + "        self.partial = 0\n"),
    Fault("a short reset leaves a silent tag silent", "tag", HEARD,
          UNHEARD + "        if self.line is not None:\n            self.reset()\n"),
    Fault("a short reset without presence", "tag", HEARD + "        return 0\n", HEARD + "        return 1\n"),
    Fault("a short reset at standard speed breaks off", "tag", UNHEARD,
          "        if not self.overdrive:\n            self.reset()\n            return 1\n"),
    Fault("a short reset at standard speed gives presence", "tag", UNHEARD,
          "        if not self.overdrive:\n            return 0\n"),
    Fault("a short reset at standard speed wakes a silent tag", "tag", UNHEARD,
          "        if not self.overdrive and self.line is None:\n            self.reset()\n" + UNHEARD),
    Fault("a short reset at standard speed silences the tag", "tag", UNHEARD,
          "        if not self.overdrive:\n            self.line = None\n            return 1\n"),
    Fault("a short reset at standard speed clears the mark", "tag", UNHEARD,
          "        if not self.overdrive:\n            self.resume_mark = False\n            return 1\n"),
    Fault("code 4 refused with 1", "tag", "return 0, self.short_reset()", "return 1, 1"),
    Fault("code 4 with a reading above 2047 refused with 2", "tag", "return 0, self.short_reset()",
          "return (2, 1) if reading > LARGEST_READING else (0, self.short_reset())"),
    Fault("code 5 is a short reset", "tag", "if code == 4:", "if code in (4, 5):"),
    Fault("a reading above 2047 before a code above 4", "tag", "if code > 4:\n            return 1, 1",
          "if code > 4:\n            return 2 if reading > LARGEST_READING else 1, 1"),

    # Scratchpad and Copy
    Fault("PF not set by a broken byte", "tag", "byte = yield 1\n        self.partial = 1", "byte = yield 1"),
    Fault("AA kept by Write Scratchpad", "tag", "self.accepted = 0\n        self.ending_offset",
          "self.ending_offset"),
    Fault("Copy without comparing AA", "tag", "authorization == self.address_registers() and",
          "bytes(authorization) in (self.address_registers(), self.address_registers()[:2] + b'\\x1F') and"),
    Fault("Copy short of the last place", "tag", "and self.ending_offset == 0x1F\n", "and True\n"),
    Fault("registers written in a mission", "tag", "limit = REGISTERS if self.image[STATUS] & MIP else RESERVED",
          "limit = RESERVED"),
    Fault("calibration written in a mission", "tag", "limit = REGISTERS if self.image[STATUS] & MIP else RESERVED",
          "limit = REGISTERS if self.image[STATUS] & MIP and self.target_address < CALIBRATION else RESERVED"),
    Fault("Copy from the page's start", "tag", "for address in range(self.target_address, (",
          "for address in range(self.target_address & ~0x1F, ("),
    Fault("Copy with the read password", "tag", "self.password_right(password, FULL_PASSWORD)):",
          "self.password_right(password, READ_PASSWORD, FULL_PASSWORD)):"),

    # Read Memory and passwords
    Fault("Read Memory loads TA", "tag", "sent = bytearray((READ_MEMORY, ta1, ta2))  #",
          "self.target_address = ta2 << 8 | ta1\n        sent = bytearray((READ_MEMORY, ta1, ta2))  #"),
    Fault("command and address in every page's CRC", "tag", "sent.clear()", "del sent[3:]"),
    Fault("a byte taken before its first slot", "tag", "yield\n    byte = take()", "byte = take()\n    yield"),
    Fault("passwords can be read", "tag", "(0x0219, 0x021E, 0xFF), (0x0220, 0x0225, 0xFF),",
          "(0x0219, 0x021E, 0xFF), (0x0220, 0x0225, 0xFF), (0x0228, 0x0237, 0xFF),"),
    Fault("the read password commands a mission", "tag", "right = self.password_right(password, FULL_PASSWORD)",
          "right = self.password_right(password, READ_PASSWORD, FULL_PASSWORD)"),
    Fault("checking on with any control byte", "tag", "if self.image[PASSWORD_CONTROL] != 0xAA:",
          "if self.image[PASSWORD_CONTROL] == 0:"),
    Fault("a mission command with any last byte", "tag", "if right and last == 0xFF:", "if right:"),

    # Clock
    Fault("CENT not flipped", "tag", "month ^= CENT", "pass"),
    Fault("year 00 no leap year", "tag", "year is not None and year % 4 == 0", "year and year % 4 == 0"),
    Fault("an invalid year has a leap day", "tag", "year is not None and year % 4 == 0",
          "year is None or year % 4 == 0"),
    Fault("every month has 31 days", "tag", "return 30 if month in (4, 6, 9, 11) else 31", "return 31"),
    Fault("date or month 00 steps", "tag", "(order[0], 1) for", "(order[0], byte > 0) for"),

    # Twelve-hour clocks (request #104): the step
    hour_fault("12 AM goes to 13 AM", "hour == 0x52", "0x53, 0"),
    hour_fault("12 PM goes to 13 PM", "hour == 0x72", "0x73, 0"),
    hour_fault("9 PM goes to 6Ah", "hour == 0x69", "0x6A, 0"),
    hour_fault("11 AM goes to 12 AM", "hour == 0x51", "0x52, 0"),
    hour_fault("11 AM carries to the date", "hour == 0x51", "0x72, 1"),
    hour_fault("12 PM carries to the date", "hour == 0x72", "0x61, 1"),
    hour_fault("11 PM goes to 12 PM", "hour == 0x71", "0x72, 1"),
    hour_fault("11 PM does not carry", "hour == 0x71", "0x52, 0"),
    hour_fault("11 PM loses the form bit", "hour == 0x71", "0x00, 1"),
    hour_fault("an invalid hour loses the form bit", "hour not in HOURS_12", "0x00, 1"),
    hour_fault("an invalid hour keeps PM", "hour not in HOURS_12", "0x52 | hour & PM, 1"),
    hour_fault("an invalid morning hour does not carry", "hour not in HOURS_12 and not hour & PM", "0x52, 0"),
    hour_fault("an invalid morning hour goes to 12 PM", "hour not in HOURS_12 and not hour & PM", "0x72, 0"),
    hour_fault("hour 0 steps", "hour in (0x40, 0x60)", "hour + 1, 0"),
    Fault("12 the last hour of its half", "tag", "(12, *range(1, 12))", "range(1, 13)"),
    Fault("23 goes to 24", "tag", "HOURS_24 = in_bcd(0, 23)", "HOURS_24 = in_bcd(0, 24)"),
    Fault("hours of either form step as in the 24-hour form", "tag", "hours, carry = STEP_HOURS[hours & FORM][hours]",
          "form = hours & FORM\n        hours, carry = STEP_HOURS[0][hours - form]\n        hours |= form"),
    Fault("an invalid hour returns before it steps", "tag", "hours, carry = STEP_HOURS[hours & FORM][hours]\n",
          "hours, carry = STEP_HOURS[hours & FORM][hours]\n    elif hours not in HOURS_24 + HOURS_12:\n"
          "        hours = STEP_HOURS[hours & FORM][hours][0]\n"),

    # Twelve-hour clocks: the register and the stamp
    Fault("the form bit not written", "tag", "*SETTINGS, (0x0228, 0x0237, 0xFF))",
          "*SETTINGS, (0x0228, 0x0237, 0xFF), (0x0202, 0x0202, 0x3F))"),
    Fault("the form bit not read", "tag", "*SETTINGS, (0x020C, 0x020C, 0xE0),",
          "*SETTINGS, (0x0202, 0x0202, 0x3F), (0x020C, 0x020C, 0xE0),"),
    Fault("the form bit lost by a tick", "tag", "hours & 0x7F, date", "hours & 0x3F, date"),
    Fault("bit 7 of the hours written and read", "tag", "(0x0203, 0x0203, 0x3F),",
          "(0x0202, 0x0202, 0xFF), (0x0203, 0x0203, 0x3F),"),
    Fault("a new tag in the twelve-hour form", "tag", "image[ALARMS] = BOR",
          "image[ALARMS], image[CLOCK + 2] = BOR, 0x52"),
    Fault("Copy mends an invalid hour", "tag", "byte = self.image[address] & ~writable | byte & writable\n", """\
byte = self.image[address] & ~writable | byte & writable
                if address == CLOCK + 2 and byte not in HOURS_24 + HOURS_12:
                    byte = STEP_HOURS[byte & FORM][byte][0]
"""),
    Fault("the stamp in the 24-hour form", "tag", "self.store_entry(entry, reading)", """\
if samples == 0 and self.image[CLOCK + 2] in HOURS_12:
            self.image[STAMP + 2] = HOURS_24[HOURS_12.index(self.image[CLOCK + 2])]
        self.store_entry(entry, reading)"""),
    Fault("the stamp without the form bit", "tag", "self.store_entry(entry, reading)",
          "self.image[STAMP + 2] &= ~FORM\n        self.store_entry(entry, reading)"),

    # A mission
    Fault("delay one tick late", "tag", "if self.minute == 60:", "if self.minute == 61:"),
    Fault("the minute goes on over a Start", "tag", "self.minute = 0\n        self.until_conversion = 0",
          "self.until_conversion = 0"),
    Fault("stamp before the clock step", "tag", """\
        if image[OSCILLATOR] & EOSC:
            image[CLOCK:CLOCK + 6] = clock_after(image[CLOCK:CLOCK + 6])
        self.last_reading = reading
        if image[STATUS] & MIP:
            self.mission_tick(reading)
""", """\
        self.last_reading = reading
        if image[STATUS] & MIP:
            self.mission_tick(reading)
        if image[OSCILLATOR] & EOSC:
            image[CLOCK:CLOCK + 6] = clock_after(image[CLOCK:CLOCK + 6])
"""),
    Fault("log full one entry late with SUTA", "tag",
          "entries = samples + 1 if control & SUTA else samples\n        return", "entries = samples\n        return"),
    Fault("log full one entry late", "tag", "and entries >= places", "and entries > places"),
    Fault("a full log still counts device samples", "tag", "if not self.conversions_ended():\n",
          "if self.conversions_ended():\n                self.count_device_sample()\n            else:\n"),
    Fault("entry 0 is counted", "tag", "self.store_entry(0, reading & ~7)", "self.log_counted(reading & ~7)"),
    Fault("latest reading to 11 bits in 8-bit format", "tag", "self.image[CONTROL] & TLFS and not waiting",
          "not waiting"),
    Fault("high threshold not met by an equal reading", "tag", "halves >= self.image[HIGH_THRESHOLD]",
          "halves > self.image[HIGH_THRESHOLD]"),
    Fault("Clear keeps BOR", "tag", "&= ~(BOR | THF | TLF)", "&= ~(THF | TLF)"),
    Fault("Clear clears WFTA", "tag", "self.image[STATUS] |= MEMCLR", "self.image[STATUS] = MEMCLR"),
    Fault("Stop clears WFTA", "tag", "self.image[STATUS] &= ~MIP", "self.image[STATUS] &= ~(MIP | WFTA)"),
    Fault("Start without Clear", "tag", "if not status & MEMCLR or status & MIP or", "if status & MIP or"),
    Fault("Forced Conversion in a mission", "tag",
          "def forced_conversion(self):\n        if self.image[STATUS] & MIP:\n            return\n",
          "def forced_conversion(self):\n"),
    Fault("Forced Conversion sets a flag", "tag", "if self.alarms(self.last_reading):\n",
          "self.image[ALARMS] |= self.alarms(self.last_reading)\n        if self.alarms(self.last_reading):\n"),
    Fault("Forced Conversion leaves WFTA", "tag", "if self.alarms(self.last_reading):", "if False:"),
    Fault("Forced Conversion to the format's bits", "tag", "self.set_latest(self.last_reading)",
          "self.set_latest(self.last_reading if self.image[CONTROL] & TLFS else self.last_reading & ~7)"),

    # A waiting conversion (request #102)
    Fault("entry 0 to 11 bits in 16-bit format", "tag", "self.store_entry(0, reading & ~7)",
          "self.store_entry(0, reading)"),
    Fault("latest reading to 11 bits while waiting", "tag", "& TLFS and not waiting else", "& TLFS else"),
    Fault("latest reading to 11 bits with the alarm", "tag", "& TLFS and not waiting else",
          "& TLFS and (self.alarms(reading) or not waiting) else"),
    Fault("entry 1 to 8 bits too", "tag", "self.store_entry(entry, reading)",
          "self.store_entry(entry, reading & ~7 if self.image[CONTROL] & SUTA and samples == 0 else reading)"),
    Fault("latest reading to 8 bits until one is counted", "tag", "& TLFS and not waiting else",
          "& TLFS and (self.number(MISSION_SAMPLES) or not self.image[CONTROL] & SUTA) else"),
    Fault("entry 0 to 8 bits without SUTA", "tag", "self.store_entry(entry, reading)",
          "self.store_entry(entry, reading if entry else reading & ~7)"),
    Fault("place 0 to 8 bits after rollover", "tag", "self.store_entry(entry, reading)",
          "self.store_entry(entry, reading & ~7 if self.image[CONTROL] & SUTA and entry % 4096 == 0 else reading)"),
    Fault("Forced Conversion to 8 bits with WFTA", "tag", "self.set_latest(self.last_reading)",
          "self.set_latest(self.last_reading & ~7 if self.waiting() else self.last_reading)"),
    Fault("last reading cut by a waiting conversion", "tag", "self.convert(reading)",
          "self.last_reading &= ~7 if self.waiting() else ~0\n                self.convert(reading)"),

    # The dump and its listing
    Fault("entry 0 of an alarm start listed to 8 bits", "dock", "return log[place] << 3 | log[place + 1] >> 5",
          "return log[place] << 3 | (log[place + 1] >> 5 if k or not register(CONTROL) & SUTA else 0)"),
    Fault("BOR tells of an entry 0", "dock", "register(ALARMS) & (THF | TLF)", "register(ALARMS) & (THF | TLF | 0x80)"),
    Fault("fourteen bits of rate", "dock", "register(RATE + 1) << 8", "(register(RATE + 1) & 0x3F) << 8"),
    Fault("seconds from entry 0 with SUTA", "dock", "first = 1 if register(CONTROL) & SUTA else 0", "first = 0"),
    Fault("the CRC looked at before the page", "dock", """\
    if line_bytes[:2] != page.to_bytes(2, "big"):
        raise Refused(9)
    if line_bytes[34:] != line_crc(page, data):
        raise Refused(8)
""", """\
    if line_bytes[34:] != line_crc(page, data):
        raise Refused(8)
    if line_bytes[:2] != page.to_bytes(2, "big"):
        raise Refused(9)
"""),
    Fault("the stamp listed without the form bit", "dock", "bytes(register(STAMP + i) for i in range(6))",
          "bytes(register(STAMP + i) & (0x3F if i == 2 else 0xFF) for i in range(6))"),
    Fault("a full log with SUTA refused", "dock", "count > places(register)", "count >= places(register)"),
    Fault("an 18,835th byte not noticed", "dock", "if len(text) != DUMP_LENGTH:", "if len(text) < DUMP_LENGTH:"),
    Fault("small digits taken", "dock", 'DIGITS = b"0123456789ABCDEF"', 'DIGITS = b"0123456789ABCDEFabcdef"'),
)

# ---- Calls with images and records that play can't be given, for the trials of tests/run ----

# What an event and a new tag are asked for, how device samples are counted, and what a tick asks of a mission.
ASKED_LENGTH = "        if len(self.image) != IMAGE_LENGTH:\n            return 3, 1\n"
ASKED_RECORD = "        if not self.in_ranges:\n            return 6, 1\n"
ASKED_CODE = "        if code > 4:\n            return 1, 1\n"
ASKED_READING = "        if code == 3 and reading > LARGEST_READING:\n            return 2, 1\n"
NEW_LENGTH = "    if len(image) != IMAGE_LENGTH:\n        return 3, Tag(bytes(8), 0, image)\n"
NEW_NUMBER = "    if rom[0] != FAMILY or crc8(rom[:7]) != rom[7]:\n        return 4, Tag(bytes(8), 0, image)\n"
DEVICE_COUNT = "min(self.number(DEVICE_SAMPLES) + 1, LARGEST_COUNT)"
IN_MISSION = "if image[STATUS] & MIP:\n"


def length_fault(name, test):
    """An event that refuses an image with 3 exactly if this is true."""
    return Fault(name, "tag", "if len(self.image) != IMAGE_LENGTH:", f"if {test}:")


def new_length_fault(name, test):
    """A new tag that is refused with 3 exactly if this is true."""
    return Fault(name, "tag", "if len(image) != IMAGE_LENGTH:", f"if {test}:")


def refusal_fault(name, number, done):
    """An event that is refused with this number and does this first."""
    refused = f"            return {number}, 1\n"
    return Fault(name, "tag", refused, f"            {done}\n{refused}")


CALL_FAULTS = (
    # 3: the image's length
    length_fault("an image that is too long taken", "len(self.image) < IMAGE_LENGTH"),
    length_fault("an image that is too short taken", "len(self.image) > IMAGE_LENGTH"),
    length_fault("an image of any length taken", "False"),
    length_fault("an image of one byte more taken", "len(self.image) not in (IMAGE_LENGTH, IMAGE_LENGTH + 1)"),
    length_fault("an image of one byte less taken", "len(self.image) not in (IMAGE_LENGTH, IMAGE_LENGTH - 1)"),
    length_fault("sixteen bits of an image's length", "len(self.image) % 65536 != IMAGE_LENGTH"),
    length_fault("no image refused", "self.image and len(self.image) != IMAGE_LENGTH"),
    new_length_fault("a new tag in an image that is too long", "len(image) < IMAGE_LENGTH"),
    new_length_fault("a new tag in an image that is too short", "len(image) > IMAGE_LENGTH"),
    new_length_fault("a new tag in an image of any length", "False"),
    new_length_fault("a new tag in an image of one byte more", "len(image) not in (IMAGE_LENGTH, IMAGE_LENGTH + 1)"),
    new_length_fault("sixteen bits of a new image's length", "len(image) % 65536 != IMAGE_LENGTH"),

    # 6: the record's ranges
    Fault("a record's CRC-8 not asked", "tag", "crc8(self.rom[:7]) == self.rom[7] and ", ""),
    Fault("a record's family not asked", "tag", "self.rom[0] == FAMILY and ", ""),
    Fault("a record's code not asked", "tag", "and self.code in (CODE_L, CODE_T)", ""),
    Fault("a record's code one bit short", "tag", "and self.code in (CODE_L, CODE_T)",
          "and self.code & 0x7F in (CODE_L, CODE_T)"),
    Fault("the record of zeros taken", "tag", "        return (self.rom[0] == FAMILY",
          "        return not any(self.rom) or (self.rom[0] == FAMILY"),
    Fault("a record's reading not asked", "tag", "and self.last_reading <= LARGEST_READING ", ""),
    Fault("a record's reading of 2048 taken", "tag", "self.last_reading <= LARGEST_READING",
          "self.last_reading <= LARGEST_READING + 1"),
    Fault("a record's minute not asked", "tag", "and self.minute < 60 ", ""),
    Fault("a record's minute of 60 taken", "tag", "self.minute < 60", "self.minute <= 60"),
    Fault("a record's minute of 59 refused", "tag", "self.minute < 60", "self.minute < 59"),
    Fault("a record's wait not asked", "tag", "and self.until_conversion < LONGEST_PERIOD", ""),
    Fault("a record's wait of 982,980 taken", "tag", "self.until_conversion < LONGEST_PERIOD",
          "self.until_conversion <= LONGEST_PERIOD"),
    Fault("a record's wait of 982,979 refused", "tag", "self.until_conversion < LONGEST_PERIOD",
          "self.until_conversion < LONGEST_PERIOD - 1"),
    Fault("thirty-two bits of a record's wait", "tag", "self.until_conversion < LONGEST_PERIOD",
          "self.until_conversion % (1 << 32) < LONGEST_PERIOD"),
    Fault("a record's ending offset before TA's taken", "tag",
          "and self.target_address & 0x1F <= self.ending_offset ", ""),
    Fault("a record's ending offset above 1Fh taken", "tag", "and self.ending_offset <= 0x1F", ""),

    # The order 3, 6, 1, 2, and 3, 4, 5
    Fault("an event's 6 asked before 3", "tag", ASKED_LENGTH + ASKED_RECORD, ASKED_RECORD + ASKED_LENGTH),
    Fault("an event's 1 asked before 3", "tag", ASKED_LENGTH, ASKED_CODE + ASKED_LENGTH),
    Fault("an event's 1 asked before 6", "tag", ASKED_RECORD, ASKED_CODE + ASKED_RECORD),
    Fault("an event's 2 asked before 3", "tag", ASKED_LENGTH, ASKED_READING + ASKED_LENGTH),
    Fault("an event's 2 asked before 6", "tag", ASKED_RECORD, ASKED_READING + ASKED_RECORD),
    Fault("a new tag's 4 asked before 3", "tag", NEW_LENGTH + NEW_NUMBER, NEW_NUMBER + NEW_LENGTH),

    # What a refusal returns and leaves
    Fault("3 gives bit 0", "tag", "return 3, 1", "return 3, 0"),
    Fault("6 gives bit 0", "tag", "return 6, 1", "return 6, 0"),
    Fault("1 gives bit 0", "tag", "return 1, 1", "return 1, 0"),
    Fault("2 gives bit 0", "tag", "return 2, 1", "return 2, 0"),
    refusal_fault("3 silences the tag", 3, "self.line = None"),
    refusal_fault("6 silences the tag", 6, "self.line = None"),
    refusal_fault("1 silences the tag", 1, "self.line = None"),
    refusal_fault("6 ends overdrive", 6, "self.overdrive = False"),
    refusal_fault("6 begins the minute anew", 6, "self.minute = 0"),
    refusal_fault("a reading above 2047 kept", 2, "self.last_reading = reading & LARGEST_READING"),
    Fault("a new tag refused with 3 not of zeros", "tag", "return 3, Tag(bytes(8), 0, image)",
          "return 3, Tag(bytes(rom), code, image)"),
    Fault("a new tag refused with 4 clears the image", "tag", "        return 4, Tag",
          "        image[:] = bytes(IMAGE_LENGTH)\n        return 4, Tag"),
    Fault("a new tag refused with 5 clears the image", "tag", "        return 5, Tag",
          "        image[:] = bytes(IMAGE_LENGTH)\n        return 5, Tag"),
    Fault("a new tag clears user memory and registers alone", "tag", "image[:] = bytes(IMAGE_LENGTH)",
          "image[:LOG_IN_IMAGE] = bytes(LOG_IN_IMAGE)"),

    # Counts at their end
    Fault("device samples begin again after their end", "tag", DEVICE_COUNT,
          "self.number(DEVICE_SAMPLES) + 1 & LARGEST_COUNT"),
    Fault("device samples end one early", "tag", DEVICE_COUNT, "min(self.number(DEVICE_SAMPLES) + 1, LARGEST_COUNT - 1)"),
    Fault("device samples in sixteen bits", "tag", DEVICE_COUNT, "self.number(DEVICE_SAMPLES) + 1 & 0xFFFF"),
    Fault("device samples end at sixteen bits", "tag", DEVICE_COUNT, "min(self.number(DEVICE_SAMPLES) + 1, 0xFFFF)"),
    Fault("a mission's conversions end with device samples", "tag", "if samples == LARGEST_COUNT:",
          "if LARGEST_COUNT in (samples, self.number(DEVICE_SAMPLES)):"),
    Fault("no Forced Conversion at the end of device samples", "tag",
          "def forced_conversion(self):\n        if self.image[STATUS] & MIP:\n",
          "def forced_conversion(self):\n"
          "        if self.image[STATUS] & MIP or self.number(DEVICE_SAMPLES) == LARGEST_COUNT:\n"),
    Fault("device samples begin again by a Forced Conversion", "tag",
          "        self.count_device_sample()\n        self.image[OSCILLATOR]",
          "        self.set_number(DEVICE_SAMPLES, self.number(DEVICE_SAMPLES) + 1 & LARGEST_COUNT)\n"
          "        self.image[OSCILLATOR]"),
    Fault("mission samples end one early", "tag", "if samples == LARGEST_COUNT:", "if samples >= LARGEST_COUNT - 1:"),
    Fault("mission samples begin again after their end", "tag",
          "if samples == LARGEST_COUNT:\n            return True\n",
          "if samples == LARGEST_COUNT:\n            self.set_number(MISSION_SAMPLES, 0)\n"),
    Fault("a tag that waits goes on after the end of mission samples", "tag", "if samples == LARGEST_COUNT:",
          "if samples == LARGEST_COUNT and not self.waiting():"),

    # Images that no new tag reaches
    Fault("rate 0 converts", "tag", "elif self.rate():", "else:"),
    Fault("the delay stays with rate 0", "tag", "        if delay:\n", "        if delay and self.rate():\n"),
    Fault("sixteen bits of rate in a mission", "tag", "(self.image[RATE + 1] & 0x3F) << 8", "self.image[RATE + 1] << 8"),
    Fault("EOSC 0 stops a mission", "tag", IN_MISSION, "if image[STATUS] & MIP and image[OSCILLATOR] & EOSC:\n"),
    Fault("ETL 0 stops a mission", "tag", IN_MISSION, "if image[STATUS] & MIP and image[CONTROL] & ETL:\n"),
    Fault("MEMCLR 1 stops a mission", "tag", IN_MISSION, "if image[STATUS] & (MIP | MEMCLR) == MIP:\n"),
    Fault("WFTA waits without SUTA", "tag", "self.image[CONTROL] & SUTA and self.image[STATUS] & WFTA",
          "self.image[STATUS] & WFTA"),
    Fault("no wait with samples counted", "tag", "self.image[CONTROL] & SUTA and self.image[STATUS] & WFTA",
          "self.image[CONTROL] & SUTA and self.image[STATUS] & WFTA and not self.number(MISSION_SAMPLES)"),
    Fault("unnamed bits of the clock step", "tag", "date, month, year = clock_named(clock)", "date, month, year = clock"),
    Fault("the clock's unnamed bits in the stamp", "tag", "= clock_named(self.image[CLOCK:CLOCK + 6])",
          "= self.image[CLOCK:CLOCK + 6]"),
    Fault("unnamed bits of 0214h read", "tag", "(0x0214, 0x0214, TLF | THF | BOR)", "(0x0214, 0x0214, 0xFF)"),
)

# ---- The call that takes a list of events, for tests/lists ----

# What is asked of a whole list, what of each word, and the two ends of a list.
FEW_REPLIES = "    if len(words) > len(replies):\n        return FEW_REPLIES, 0\n"
BAD_IMAGE = "    if len(tag.image) != IMAGE_LENGTH:\n        return BAD_IMAGE, 0\n"
BAD_RECORD = "    if not tag.in_ranges:\n        return BAD_RECORD, 0\n"
EACH_WORD = "    for done, word in enumerate(words):\n        event = event_of(word)\n        if event is None:\n"
REFUSED = "            return REFUSED_WORD, done\n"
ALL_DONE = "    return 0, len(words)\n"

LIST_FAULTS = (
    # 17, 3 and 6
    Fault("3 asked before 17", "lists", FEW_REPLIES + BAD_IMAGE, BAD_IMAGE + FEW_REPLIES),
    Fault("6 asked before 17", "lists", FEW_REPLIES + BAD_IMAGE, BAD_RECORD + FEW_REPLIES + BAD_IMAGE),
    Fault("6 asked before 3", "lists", BAD_IMAGE + BAD_RECORD, BAD_RECORD + BAD_IMAGE),
    Fault("3 asked of a bad record alone", "lists", "if len(tag.image) != IMAGE_LENGTH:",
          "if len(tag.image) != IMAGE_LENGTH and not tag.in_ranges:"),
    Fault("an empty list never refused", "lists", BAD_IMAGE, "    if not words:\n        return 0, 0\n" + BAD_IMAGE),
    Fault("1 for the first word before 3 and 6", "lists", BAD_IMAGE,
          "    if words and event_of(words[0]) is None:\n        return REFUSED_WORD, 0\n" + BAD_IMAGE),
    Fault("17 for as many reply bytes as words", "lists", "len(words) > len(replies)", "len(words) >= len(replies)"),
    Fault("17 for more reply bytes than words", "lists", "len(words) > len(replies)", "len(words) != len(replies)"),
    Fault("17 after the words with a reply byte", "lists", "return FEW_REPLIES, 0",
          "return FEW_REPLIES, events(tag, words[:len(replies)], replies)[1]"),
    Fault("17 after all words, unseen", "lists", "return FEW_REPLIES, 0",
          "return FEW_REPLIES, 0 * events(tag, words, bytearray(len(words)))[1]"),

    # Which words are events
    Fault("word 3 is a tick", "lists", "    return None\n", "    return (3, 0) if word == 3 else None\n"),
    Fault("word 4095 is a tick", "lists", "    return None\n", "    return (3, 0) if word == 4095 else None\n"),
    Fault("word 6144 is a tick", "lists", "    return None\n", "    return (3, 2047) if word == 6144 else None\n"),
    Fault("a word's upper three bits dropped", "lists", "    if word in SLOTS_AND_RESETS:\n",
          "    word %= 8192\n    if word in SLOTS_AND_RESETS:\n"),
    Fault("a reading one more", "lists", "return 3, word - FIRST_TICK", "return 3, (word - FIRST_TICK + 1) % 2048"),
    Fault("2 for a reading above 2047", "lists", "return REFUSED_WORD, done",
          "return 2 if word > LAST_TICK else REFUSED_WORD, done"),

    # A refused word
    Fault("a refused word passed over", "lists", REFUSED, "            continue\n"),
    Fault("a refused word's reply byte filled", "lists", REFUSED, "            replies[done] = 1\n" + REFUSED),
    Fault("a refused word counted as done", "lists", "return REFUSED_WORD, done", "return REFUSED_WORD, done + 1"),
    Fault("the words behind a refused one done, unseen", "lists", REFUSED,
          "            events(tag, words[done + 1:], bytearray(len(words)))\n" + REFUSED),
    Fault("answer 1 clears the reply bytes left", "lists", REFUSED,
          "            replies[done:] = bytes(len(replies) - done)\n" + REFUSED),
    Fault("answer 1 does nothing", "lists", EACH_WORD,
          "    if None in map(event_of, words):\n        return REFUSED_WORD, 0\n" + EACH_WORD),
    Fault("answer 1 leaves the image of before the list", "lists", EACH_WORD,
          "    before = bytes(tag.image)\n" + EACH_WORD + "            tag.image[:] = before\n"),
    Fault("answer 1 leaves the record of before the list, but the line's", "lists", EACH_WORD,
          "    before = dict(vars(tag))\n" + EACH_WORD + "            vars(tag).update(before, line=tag.line)\n"),
    Fault("answer 1 silences the tag", "lists", REFUSED, "            tag.line = None\n" + REFUSED),

    # A list that is all done
    Fault("ended by the first tick", "lists", ALL_DONE,
          "        if word >= FIRST_TICK:\n            return 0, done + 1\n" + ALL_DONE),
    Fault("a tick's reply byte left", "lists", "_, replies[done] = tag.event(*event)",
          "bit = tag.event(*event)[1]\n        replies[done] = bit if word < FIRST_TICK else replies[done]"),
    Fault("a reset's reply 1", "lists", "_, replies[done] = tag.event(*event)",
          "replies[done] = tag.event(*event)[1] | (word == 2)"),
    Fault("the reply bytes past the words cleared", "lists", ALL_DONE,
          "    replies[len(words):] = bytes(len(replies) - len(words))\n" + ALL_DONE),
    Fault("the tag silent after a list", "lists", ALL_DONE, "    tag.line = None\n" + ALL_DONE),
    Fault("a reset before a list", "lists", EACH_WORD, "    tag.reset()\n" + EACH_WORD),

    # Short resets (request #103)
    Fault("word 4 refused", "lists", "(0, 1, 2, 4)", "(0, 1, 2)"),
    Fault("word 4 is a long reset", "lists", "        return word, 0\n", "        return 2 if word == 4 else word, 0\n"),
    Fault("word 5 is a short reset", "lists", "    return None\n", "    return (4, 0) if word == 5 else None\n"),
    Fault("a short reset passed over", "lists", "_, replies[done] = tag.event(*event)",
          "replies[done] = 1 if word == 4 else tag.event(*event)[1]"),
    Fault("a short reset's reply 1", "lists", "_, replies[done] = tag.event(*event)",
          "replies[done] = tag.event(*event)[1] | (word == 4)"),
    Fault("ended by a short reset", "lists", ALL_DONE, "        if word == 4:\n            return 0, done + 1\n" + ALL_DONE),
    Fault("at standard speed after a list", "lists", ALL_DONE, "    tag.overdrive = False\n" + ALL_DONE),
    Fault("answer 1 ends overdrive", "lists", REFUSED, "            tag.overdrive = False\n" + REFUSED),
)

# ---- Several tags on one line (request #106), for tests/lines ----

# What is asked of a line and of a tick's place, and how slots, resets and ticks are given to the tags.
COUNT = "    if not 1 <= len(roms) <= MOST_TAGS:\n        return 14\n"
SAME = "    return 13 if len(set(roms)) < len(roms) else 0\n"
PLACE = "        if code == TICK and place >= len(self.tags):\n            return 14\n"
FIRST_BAD = "next((refusal for refusal, _ in made if refusal), 0)"
SLOT = "min(tag.slot(master) for tag in self.tags)"
RESETS = "min(tag.event(code, reading)[1] for tag in self.tags)"
TICKED = "return self.tags[place].event(code, reading)"
MATCHED = """\
    def match(self):
        for bit in self.rom_bits():
            yield
            if (yield 1) != bit:
                return False
        return True
"""

LINE_FAULTS = (
    # The line's bit
    Fault("the line's bit by OR", "board", SLOT, "max(tag.slot(master) for tag in self.tags)"),
    Fault("the line's bit of the last tag alone", "board", SLOT, "[tag.slot(master) for tag in self.tags][-1]"),
    Fault("the line's bit of the first tag alone", "board", SLOT, "[tag.slot(master) for tag in self.tags][0]"),
    Fault("a slot not given to the last tag", "board", SLOT, "min(tag.slot(master) for tag in self.tags[:-1] or self.tags)"),
    Fault("a slot not given behind a tag that gives 0", "board", SLOT, "int(all(tag.slot(master) for tag in self.tags))"),

    # Resets
    Fault("a short reset's presence by OR", "board", RESETS, "max(tag.event(code, reading)[1] for tag in self.tags)"),
    Fault("a short reset's presence of the first tag alone", "board", RESETS,
          "[tag.event(code, reading)[1] for tag in self.tags][0]"),
    Fault("a reset not given to the last tag", "board", RESETS,
          "min(tag.event(code, reading)[1] for tag in self.tags[:-1] or self.tags)"),
    Fault("a short reset that one tag hears resets all", "board", "return 0, " + RESETS, """\
bit = min(tag.event(code, reading)[1] for tag in self.tags)
        if bit == 0:
            for tag in self.tags:
                tag.reset()
        return 0, bit"""),

    # Ticks
    Fault("a tick reaches two tags", "board", TICKED, "self.tags[place - 1].event(code, reading)\n            " + TICKED),
    Fault("a tick reaches every tag", "board", TICKED, "return 0, " + RESETS),
    Fault("a tick reaches the first tag", "board", TICKED, TICKED.replace("[place]", "[0]")),
    Fault("places counted from the last tag on", "board", TICKED, TICKED.replace("[place]", "[-1 - place]")),
    Fault("places counted from 1 on", "board", TICKED, TICKED.replace("[place]", "[place - 1]")),

    # 14, 13, and then place by place 4 and 5
    Fault("14 asked after 13", "board", COUNT, "    if len(set(roms)) < len(roms):\n        return 13\n" + COUNT),
    Fault("a count of 0 taken", "board", "if not 1 <= len(roms)", "if not 0 <= len(roms)"),
    Fault("a count of 8 taken", "board", "MOST_TAGS = 7", "MOST_TAGS = 8"),
    Fault("a count of 7 refused", "board", "MOST_TAGS = 7", "MOST_TAGS = 6"),
    Fault("13 not asked", "board", SAME, "    return 0\n"),
    Fault("13 for neighbours alone", "board", SAME, "    return 13 if any(map(bytes.__eq__, roms, roms[1:])) else 0\n"),
    Fault("13 for the first tag's number alone", "board", SAME, "    return 13 if roms[0] in roms[1:] else 0\n"),
    Fault("13 by the serial numbers alone", "board", SAME, "    return 13 if len({rom[1:7] for rom in roms}) < len(roms) else 0\n"),
    Fault("13 not asked of zeros", "board", SAME, "    return 13 if len(set(roms)) < len(roms) and all(map(any, roms)) else 0\n"),
    Fault("13 asked after 4 and 5", "board", FIRST_BAD + "\n",
          FIRST_BAD + "\n    if number == 13:\n"
          "        bad = [new_tag(rom, code, bytearray(IMAGE_LENGTH))[0] for rom, code in heads]\n"
          "        number = next(filter(None, bad), 13)\n"),
    Fault("4 of all places asked before 5 of any", "board", FIRST_BAD,
          "min((refusal for refusal, _ in made if refusal), default=0)"),
    Fault("the last bad place tells", "board", FIRST_BAD, "next((refusal for refusal, _ in made[::-1] if refusal), 0)"),
    Fault("the first place alone asked for 4 and 5", "board", FIRST_BAD, "made[0][0]"),

    # 14, 1 and 2 of events
    Fault("a tick for no tag reaches the last", "board", "        number = self.refused(code, place, reading)\n",
          "        place = min(place, len(self.tags) - 1)\n        number = self.refused(code, place, reading)\n"),
    Fault("14 for the place of a slot or reset too", "board", "if code == TICK and place", "if place"),
    Fault("14 for the place of a code above 4 too", "board", "if code == TICK and place",
          "if (code == TICK or code > 4) and place"),
    Fault("2 asked before 14", "board", PLACE,
          "        if code == TICK and reading > LARGEST_READING:\n            return 2\n" + PLACE),
    Fault("2 for the reading of any code", "board", "return 2 if code == TICK and reading", "return 2 if reading"),

    # The program
    Fault("missing bytes of a head are FFh", "programs", '.ljust(HEAD * count, b"\\0")', '.ljust(HEAD * count, b"\\xFF")'),
    Fault("a place behind the reading", "programs", "lambda code, place, high, low:", "lambda code, high, low, place:"),
    Fault("a short last group taken", "programs", "while len(group := file.read(width)) == width:\n",
          'while group := file.read(width):\n        group = group.ljust(width, b"\\0")\n'),
    Fault("events go on after a refusal", "programs", "else BIT[bit]\n        if number:\n            return\n", "else BIT[bit]\n"),

    # Choosing one of several tags
    Fault("a Match leaves other tags listening", "tag", MATCHED, """\
    def match(self):
        for _ in self.rom_bits():
            yield
            yield 1
        return True
"""),
    Fault("a Match leaves the marks of other tags", "tag", "self.resume_mark = False\n        if command == CONDITIONAL_SEARCH",
          "self.resume_mark &= command == MATCH_ROM\n        if command == CONDITIONAL_SEARCH"),
    Fault("a short reset wakes the tags that a 69h silenced", "tag", UNHEARD,
          "        if not self.overdrive and self.line is None:\n            self.reset()\n            return 1\n" + UNHEARD),
)

# Tags that mind what they hear while they send: for these it is not the same whether a tag hears the master's bit or the line's.
HEARING_FAULTS = (
    Fault("Read ROM ends at a bit that is not the tag's", "tag", "yield from say_bytes(self.rom)", """\
for bit in self.rom_bits():
                yield
                if (yield bit) != bit:
                    return False"""),
    Fault("a tag drops out of Search at a bit that is not its own", "tag", "            yield bit\n            yield\n",
          "            if (yield bit) != bit:\n                return False\n            yield\n"),
)
