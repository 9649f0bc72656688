"""The points of document 01 and of requests #102 to #104, computed by the model.

The last line is 'N passed, M failed'.
"""

import random
import sys

sys.dont_write_bytecode = True

from model import dock, programs
from model.crc import crc8, crc16
from model.master import Master
from model.tag import (
    ALARMS, BOR, CLOCK, CODE_L, CODE_T, CONTROL, DELAY, DEVICE_SAMPLES, EHSS, ETHA, ETL, ETLA, HOURS_12, IMAGE_LENGTH,
    LATEST, LOG_IN_IMAGE, MEMCLR, MIP, MISSION_SAMPLES, OSCILLATOR, OVERDRIVE_MATCH, OVERDRIVE_SKIP, PM, RATE, READ_ROM,
    RESUME, RO, SKIP_ROM, STAMP, STATUS, SUTA, THF, TLFS, WFTA, WRITE_SCRATCHPAD, bcd_value, clock_after, new)

ROM = bytes.fromhex("412BC5FB000000A1")
HEAD = ROM + bytes((CODE_L,))
ONES = b"\xFF" * 8


class Points:
    def __init__(self):
        self.passed = self.failed = 0

    def equal(self, name, got, expected):
        if got == expected:
            self.passed += 1
        else:
            self.failed += 1
            print(f"FAIL {name}: got {got!r}, expected {expected!r}")


def new_master(code=CODE_L):
    return Master(new(ROM, code, bytearray(IMAGE_LENGTH))[1])


def settings(clock="000000010100", rate=1, low=0, high=255, enable=0, oscillator=EHSS, control=ETL, delay=0):
    """The page 0200h as a master writes it."""
    page = bytearray(32)
    page[0:6] = bytes.fromhex(clock)
    page[6:8] = rate.to_bytes(2, "little")
    page[8], page[9], page[0x10], page[0x12], page[0x13] = low, high, enable, oscillator, control
    page[0x16:0x19] = delay.to_bytes(3, "little")
    return bytes(page)


def begin(master, **page):
    """Settings, Clear, Start."""
    master.store(0x0200, settings(**page))
    master.skip()
    master.clear()
    master.skip()
    master.start()
    return master


def ticks(master, readings):
    for reading in readings:
        master.tick(reading)
    return master


# ---- CRCs, clock, temperatures ----

def crc_points(points):
    points.equal("CRC-8 of the sheet's ROM", crc8(ROM[:7]), 0xA1)
    points.equal("CRC-8 with its own CRC", crc8(ROM), 0)
    points.equal("CRC-8 of 02 1C B8 01 00 00 00", crc8(bytes.fromhex("021CB801000000")), 0xA2)
    points.equal("CRC-8 of the nine digits", crc8(b"123456789"), 0xA1)
    points.equal("CRC-16 of the nine digits", crc16(b"123456789"), 0xBB3D)
    points.equal("CRC-16 with its own inverted CRC", crc16(b"abc" + (crc16(b"abc") ^ 0xFFFF).to_bytes(2, "little")),
                 0xB001)


def clock_points(points):
    for before, after in (
            ("595923311299", "000000018100"), ("595923319299", "000000010100"), ("595923280223", "000000010323"),
            ("595923280224", "000000290224"), ("595923290224", "000000010324"), ("595923280200", "000000290200"),
            ("595923310424", "000000010524"), ("595923300223", "000000010323"), ("595923000724", "000000010824"),
            ("595923301324", "000000311324"), ("595923311324", "000000010125"), ("595923310024", "000000010125"),
            ("5959232802A4", "0000000103A4"), ("5959233112A4", "000000018100"),
            ("5A0000010100", "000100010100"), ("600000010100", "000100010100"), ("591A00010100", "000001010100"),
            ("595924010100", "000000020100"), ("00FFFFFFFFFF", "017F7F3F9FFF"), ("595923318924", "000000019024")):
        points.equal(f"clock {before}", stepped(before), after)


def stepped(clock):
    return bytes(clock_after(bytes.fromhex(clock))).hex().upper()


def twelve_hour_points(points):
    """Request #104: 11 AM goes on to 12 PM; 11 PM and an hour not valid in its form carry, and the form stays."""
    for hours, date in (("52 41, 49 50, 51 72, 72 61, 69 70", 15), ("23 00, 24 00", 16),
                        ("71 52, 40 52, 53 52, 4A 52, 60 52, 7F 52", 16)):
        for before, after in map(str.split, hours.split(",")):
            points.equal(f"hour {before}h", stepped(f"5959{before}150624"), f"0000{after}{date}0624")
    for before, after in (("595971311299", "000052018100"), ("595951280223", "000072280223"),
                          ("595971280224", "000052290224"), ("58597F150624", "59597F150624")):
        points.equal(f"clock {before}", stepped(before), after)
    points.equal("the hours in plain numbers",
                 [bcd_value(hour & 0x1F) % 12 + (12 if hour & PM else 0) for hour in HOURS_12], list(range(24)))
    master = new_master()
    master.store(0x0200, b"\xFF" * 32)
    master.skip()
    points.equal("FFh copied to 0202h", master.read_memory(0x0202, 1)[0], b"\x7F")
    tag = begin(new_master(), clock="585971150624").tag
    for clock in ("595971150624", "000052160624"):
        tag.tick(672)
        points.equal(f"clock {clock}", tag.image[CLOCK:CLOCK + 6].hex(), clock)
    points.equal("the stamp as it is", dock.listing(dock.dump(tag)).split(b"\n")[0], b"4000000002595971150624")


def one_entry(code, entry):
    """The listed temperature of a dump with a single entry of the given log bytes."""
    registers = bytearray(64)
    registers[0x06], registers[0x13], registers[0x20] = 1, ETL | (TLFS if len(entry) == 2 else 0), 1
    registers[0x26] = code
    line = dock.listing(dump_of(registers, entry)).split(b"\n")[1]
    return int.from_bytes(bytes.fromhex(line.decode())[12:], "big", signed=True)


def dump_of(registers, log):
    data = bytes(registers) + bytes(log).ljust(8192, b"\0")
    return b"".join(dock.line(page, data[i * 32:i * 32 + 32]) for i, page in enumerate(dock.PAGES))


def temperature_points(points):
    for code, reading, expected in ((CODE_L, 672, 16), (CODE_L, 0, -656), (CODE_L, 2047, 1391), (CODE_T, 672, 656),
                                    (CODE_T, 0, -16), (CODE_L, 187, -469), (CODE_T, 187, 171)):
        entry = bytes((reading >> 3, (reading & 7) << 5))
        points.equal(f"temperature {code:02X} {reading}", one_entry(code, entry), expected)
    for code, byte, expected in ((CODE_L, 0x54, 16), (CODE_T, 0x54, 656), (CODE_L, 0x17, -472), (CODE_T, 0x17, 168)):
        points.equal(f"temperature {code:02X} {byte:02X}h", one_entry(code, bytes((byte,))), expected)
    points.equal("low five bits ignored", one_entry(CODE_L, bytes((0x54, 0x1F))), 16)


# ---- Alarms, rate, scratchpad ----

def flags_after(reading, **page):
    return ticks(begin(new_master(), **page), [reading]).tag.image[ALARMS]


def alarm_points(points):
    for reading, flag in ((671, 0), (672, 2)):
        points.equal(f"high 54h, {reading}", flags_after(reading, high=0x54, enable=ETHA), flag)
    for reading, flag in ((679, 1), (680, 0)):
        points.equal(f"low 54h, {reading}", flags_after(reading, low=0x54, enable=ETLA), flag)
    points.equal("both flags", flags_after(672, low=0x54, high=0x54, enable=ETHA | ETLA), 3)
    points.equal("not enabled", flags_after(672, low=0x54, high=0x54), 0)


def rate_points(points):
    registers = bytearray(64)
    registers[0x06:0x08] = (16383).to_bytes(2, "little")
    registers[0x13], registers[0x20], registers[0x26] = ETL, 2, CODE_L
    last = dock.listing(dump_of(registers, b"")).split(b"\n")[2]
    points.equal("rate 16383 in minutes", int(last[8:24], 16), 982980)
    master = begin(new_master(), rate=3, oscillator=EHSS, delay=1)
    counts = []
    for _ in range(67):
        master.tick(0)
        counts.append(master.tag.number(DEVICE_SAMPLES))
    points.equal("delay 1: nothing on tick 60", counts[59], 0)
    points.equal("delay 1: first on tick 61, then every third", counts[60:], [1, 1, 1, 2, 2, 2, 3])
    points.equal("delay 1: gone", master.tag.number(DELAY), 0)


def scratchpad_points(points):
    master = new_master()
    master.skip()
    points.equal("013Ch: CRC after 4 bytes", master.write_scratchpad(0x013C, b"abcd"), True)
    master.skip()
    points.equal("013Ch: address registers and data", master.read_scratchpad(),
                 (bytes((0x3C, 0x01, 0x1F)), b"abcd", True))
    master.skip()
    points.equal("013Ch: Copy", master.copy((0x3C, 0x01, 0x1F)), True)
    points.equal("013Ch: stored", bytes(master.tag.image[0x013B:0x0141]), b"\0abcd\0")
    master.skip()
    points.equal("a second Copy needs 9Fh", master.copy((0x3C, 0x01, 0x1F)), False)
    master.skip()
    points.equal("and is done again", master.copy((0x3C, 0x01, 0x9F)), True)
    master.skip()
    master.write_scratchpad(0x005F, b"")
    for status in (0x1F, 0x3F):
        master.skip()
        points.equal("no Copy after an address with no data", master.copy((0x5F, 0x00, status)), False)
    master.skip()
    master.write_scratchpad(0x0040, b"ab")
    master.write_bits(0x55, 3)
    master.skip()
    points.equal("a broken byte sets PF", master.read_scratchpad()[0], bytes((0x40, 0x00, 0x21)))


# ---- Missions and listings ----

def full_point(points):
    """The 4,097th 16-bit conversion time without rollover or SUTA changes no counter or log byte."""
    master = ticks(begin(new_master(), control=ETL | TLFS), (i % 2048 for i in range(4096)))
    before = bytes(master.tag.image)
    points.equal("4,096 samples", master.tag.number(MISSION_SAMPLES), 4096)
    master.tick(1234)
    after = bytes(master.tag.image)
    points.equal("only the clock moves", before[:CLOCK] + before[CLOCK + 6:], after[:CLOCK] + after[CLOCK + 6:])


def suta_points(points):
    page = {"control": ETL | SUTA | TLFS, "high": 0x54, "enable": ETHA, "clock": "580000010100"}
    master = ticks(begin(new_master(), **page), [100])
    points.equal("waiting", master.tag.image[STATUS], MIP | WFTA)
    points.equal("waiting: empty listing", dock.listing(dock.dump(master.tag)), b"4000000000000000000000\n")
    master.tick(673)
    points.equal("entry 0 is uncounted", master.tag.number(MISSION_SAMPLES), 0)
    points.equal("entry 0: no stamp, seconds minus the period", dock.listing(dock.dump(master.tag)),
                 b"4000000001000000000000\n00000000FFFFFFFFFFFFFFFF0010\n")
    master.tick(5)
    points.equal("entry 1 sets the stamp", bytes(master.tag.image[STAMP:STAMP + 6]).hex(), "010100010100")
    points.equal("entry 1 counts", dock.listing(dock.dump(master.tag)).split(b"\n")[1:3],
                 [b"00000000FFFFFFFFFFFFFFFF0010", b"000000010000000000000000FD75"])
    for tlfs, places in ((TLFS, 4096), (0, 8192)):
        page["control"] = ETL | SUTA | tlfs
        master = ticks(begin(new_master(), **page), [800] * (places + 3))
        points.equal(f"log full with SUTA, {places}", master.tag.number(MISSION_SAMPLES), places - 1)
        points.equal(f"and listed, {places}", dock.listing(dock.dump(master.tag)).count(b"\n"), places + 1)


def alarm_start_points(points):
    """Request #102: a waiting conversion is to 8 bits, the alarming one too, and a Forced Conversion is not."""
    page = {"control": ETL | SUTA | TLFS, "high": 0x54, "enable": ETHA, "clock": "000010050316"}
    master = begin(new_master(), **page)
    tag, image = master.tag, master.tag.image
    for reading, expected in (
            (671, ("0053", "00000000", 0, MIP | WFTA, "000000000000", 0, 1)),
            (679, ("0054", "54000000", THF, MIP, "000000000000", 0, 2)),
            (679, ("e054", "540054e0", THF, MIP, "030010050316", 1, 3))):
        master.tick(reading)
        points.equal(f"alarm start: {reading}", (
            image[LATEST:LATEST + 2].hex(), image[LOG_IN_IMAGE:LOG_IN_IMAGE + 4].hex(), image[ALARMS], image[STATUS],
            image[STAMP:STAMP + 6].hex(), tag.number(MISSION_SAMPLES), tag.number(DEVICE_SAMPLES)), expected)
    points.equal("alarm start: listing", dock.listing(dock.dump(tag)),
                 b"4000000002030010050316\n00000000FFFFFFFFFFFFFFFF0010\n0000000100000000000000000017\n")
    master = ticks(begin(new_master(), **page), [671])
    master.skip()
    master.stop()
    master.skip()
    master.force()
    master.skip()
    registers = master.read_memory(0x0200, 32)[0]
    points.equal("alarm start: Stop, Forced Conversion", (registers[0x0C:0x0E].hex(), registers[0x15]), ("e053", 0xD0))


def rollover_points(points):
    for tlfs, places in ((TLFS, 4096), (0, 8192)):
        master = ticks(begin(new_master(CODE_T), control=ETL | RO | tlfs), [672] + [800] * (places - 1) + [0])
        lines = dock.listing(dock.dump(master.tag)).split(b"\n")
        points.equal(f"rollover, {places}: held", lines[0][:10], b"60%08X" % places)
        points.equal(f"rollover, {places}: oldest", lines[1], b"%08X%016X%04X" % (1, 1, 784))
        points.equal(f"rollover, {places}: newest", lines[-2], b"%08X%016XFFF0" % (places, places))


def history_listing(readings, tlfs, ro, suta):
    """What the dock must list, from the readings of a mission with one a second, an L and a high threshold of 70h."""
    alarm = next((i for i, reading in enumerate(readings) if reading >> 3 >= 0x70), len(readings))
    places = 4096 if tlfs else 8192
    entries = readings[alarm if suta else 0:]
    entries = entries if ro else entries[:places]
    stamped = alarm + 1 if suta else 0  # the tick before which as many have gone
    stamp = "000000000000"
    if stamped < len(readings):
        minutes, seconds = divmod(stamped + 1, 60)
        stamp = f"{seconds:02}{minutes % 60:02}{minutes // 60:02}010100"
    held = min(len(entries), places)
    lines = [f"40{held:08X}{stamp}"]
    for k in range(len(entries) - held, len(entries)):
        temperature = (entries[k] if tlfs and not (suta and k == 0) else entries[k] & ~7) - 656
        seconds = k - 1 if suta else k
        lines.append(f"{k:08X}{seconds & 0xFFFFFFFFFFFFFFFF:016X}{temperature & 0xFFFF:04X}")
    return "".join(line + "\n" for line in lines).encode()


def history_points(points):
    """Demand 2: exactly the readings that the log still holds, oldest first, to the format's resolution; entry 0 of an
    alarm start to 8 bits (R102.6)."""
    rng = random.Random(2)
    for tlfs, ro, suta in ((t, r, s) for t in (0, TLFS) for r in (0, RO) for s in (0, SUTA)):
        places = 4096 if tlfs else 8192
        for count in (0, 1, 2, 3, 300, places, places + rng.randrange(1, 900)):
            quiet = [rng.randrange(0x380) for _ in range(rng.randrange(4))]
            readings = quiet + [rng.randrange(2048) for _ in range(count)]
            master = ticks(begin(new_master(), control=ETL | tlfs | ro | suta, high=0x70, enable=ETHA), readings)
            points.equal(f"history: {tlfs} {ro} {suta}, {len(readings)} readings", dock.listing(dock.dump(master.tag)),
                         history_listing(readings, tlfs, ro, suta))


def listing_points(points):
    registers = bytearray(64)
    registers[0x06], registers[0x13], registers[0x20], registers[0x26] = 1, ETL, 1, CODE_L
    registers[0x19:0x1F] = bytes.fromhex("000010050316")
    good = dump_of(registers, b"\x54")
    points.equal("the whole listing", programs.list_(good), b"4000000001000010050316\n0000000000000000000000000010\n")
    for name, text, expected in (
            ("empty", b"", 7), ("a byte more", good + b"\n", 7), ("a byte less", good[:-1], 7),
            ("small digit", good.replace(b"2FE0", b"2fE0"), 7),
            ("line feed", good[:72] + b" " + good[73:], 7), ("page", b"0220" + good[4:], 9),
            ("page before CRC", b"0220" + good[4:67] + b"00000\n" + good[73:], 9),
            ("CRC", good[:68] + bytes(reversed(good[68:72])) + good[72:], 8)):
        points.equal(f"dump: {name}", programs.list_(text), b"R%02d\n" % expected)
    for place, byte, expected in ((0x15, MEMCLR, 10), (0x26, 0x41, 11), (0x06, 0, 11), (0x13, 0, 11), (0x22, 1, 11),
                                  (0x13, ETL | SUTA, 11)):
        changed = bytearray(registers)
        changed[place] = byte
        points.equal(f"dump: {place:02X}h is {byte:02X}h", programs.list_(dump_of(changed, b"")), b"R%02d\n" % expected)


def forced_points(points):
    """A Forced Conversion clears WFTA, so WFTA doesn't tell whether entry 0 exists."""
    master = begin(new_master(), control=ETL | SUTA, high=0x54, enable=ETHA)
    master.tick(100)
    master.skip()
    master.stop()
    master.tick(677)
    master.skip()
    master.force()
    points.equal("WFTA cleared, no flag set", (master.tag.image[STATUS] & WFTA, master.tag.image[ALARMS]), (0, 0))
    points.equal("to 11 bits", bytes(master.tag.image[LATEST:LATEST + 2]), bytes((0xA0, 0x54)))
    points.equal("still no entry", dock.listing(dock.dump(master.tag)), b"4000000000000000000000\n")


def other_image_points(points):
    """Images that no new tag reaches, but for the two counters, which are only far away."""
    master = begin(new_master(), control=ETL | RO)
    image = master.tag.image
    image[DEVICE_SAMPLES:DEVICE_SAMPLES + 3] = b"\xFF\xFF\xFF"
    image[MISSION_SAMPLES:MISSION_SAMPLES + 3] = b"\xFE\xFF\xFF"
    master.tick(800)
    points.equal("device samples stays at FFFFFFh", master.tag.number(DEVICE_SAMPLES), 0xFFFFFF)
    points.equal("mission samples reaches FFFFFFh", master.tag.number(MISSION_SAMPLES), 0xFFFFFF)
    before = bytes(image[CLOCK + 6:])
    master.tick(400)
    points.equal("conversions end at FFFFFFh", bytes(image[CLOCK + 6:]), before)
    image[RATE:RATE + 2], image[DELAY], image[MISSION_SAMPLES:DEVICE_SAMPLES + 3] = b"\x00\xC0", 1, bytes(6)
    ticks(master, [800] * 70)
    points.equal("rate 0: the delay falls, no conversion", (image[DELAY], master.tag.number(DEVICE_SAMPLES)), (0, 0))
    image[0x0200:0x0240] = b"\xFF" * 64
    points.equal("bits read through the tables", bytes(map(master.tag.byte_at, range(0x0200, 0x0240))).hex().upper(),
                 "7F7F7F3F9FFFFF3FFFFF0000E0FF0000" "03FC03F5F3DAFFFFFFFFFFFFFFFFFF00"
                 "FFFFFFFFFFFF40FF" + "00" * 24)
    image[OSCILLATOR], image[STAMP + 5] = EHSS, 0
    image[MISSION_SAMPLES:MISSION_SAMPLES + 3], image[STATUS], image[DELAY:DELAY + 3] = bytes(3), MIP, bytes(3)
    master.tag.until_conversion = 0
    master.tick(1)
    points.equal("the stamp without the clock's unnamed bits", bytes(image[STAMP:STAMP + 6]).hex().upper(),
                 "7F7F7F3F9FFF")


def other_waiting_points(points):
    """Such images again: SUTA and WFTA tell of a waiting conversion, mission samples does not (R102.7)."""
    for control, status, samples, expected in (
            (SUTA, MIP | WFTA, 5, ("0053", 5)), (SUTA, MIP, 0, ("e053", 1)), (0, MIP | WFTA, 0, ("e053", 1))):
        master = begin(new_master(), high=0x54, enable=ETHA)
        image = master.tag.image
        image[CONTROL], image[STATUS], image[MISSION_SAMPLES] = ETL | TLFS | control, status, samples
        master.tick(671)
        points.equal(f"control {control:02X}h, status {status:02X}h, {samples} samples: latest, samples",
                     (image[LATEST:LATEST + 2].hex(), master.tag.number(MISSION_SAMPLES)), expected)


def sheet_mission(points):
    """The mission example at the sheets' end: 10 minutes, 90 minutes of delay, 8 bits."""
    master = new_master()
    master.skip()
    master.clear()
    page = bytes.fromhex("0030150104020A00526600FFFFFFFFFF02FC01C1FFFF5A0000") + b"\xFF" * 7
    points.equal("example: Copy", master.store(0x0200, page), True)
    master.skip()
    points.equal("example: read back", master.read_memory(0x0200, 32)[0].hex().upper(),
                 "0030150104020A00526600000000000002FC01C170C85A000000000000000000")
    master.skip()
    master.start()
    points.equal("example: started", (master.tag.image[STATUS], master.tag.image[ALARMS]), (MIP, 0))
    ticks(master, [(82 + i % 2) * 8 for i in range(5400)])
    points.equal("example: no conversion in 90 minutes", master.tag.number(DEVICE_SAMPLES), 0)
    ticks(master, [0x54 * 8] * 601)
    points.equal("example: stamp", bytes(master.tag.image[STAMP:STAMP + 6]).hex(), "010017010402")
    points.equal("example: two samples", bytes(master.tag.image[LOG_IN_IMAGE:LOG_IN_IMAGE + 3]), b"\x54\x54\0")


# ---- Programs, passwords, the line ----

def program_points(points):
    for name, stdin, expected in (
            ("empty", b"", b"R04\n"), ("ROM alone", ROM, b"R05\n"), ("no event", HEAD, b""),
            ("wrong CRC", ROM[:7] + b"\xA0\x40", b"R04\n"), ("wrong family", bytes(8) + b"\x40", b"R04\n"),
            ("short group", HEAD + b"\x02\0", b""), ("reset, slots, tick", HEAD + bytes.fromhex(
                "020000010000000000030000"), b"0\n1\n0\n1\n"),
            ("code 4", HEAD + bytes.fromhex("02000004FFFF010000"), b"0\n1\n1\n"),
            ("code 5", HEAD + bytes.fromhex("02000005FFFF010000"), b"0\nR01\n"),
            ("reading 2048", HEAD + bytes.fromhex("0307FF030800010000"), b"1\nR02\n"),
            ("stray readings", HEAD + bytes.fromhex("02FFFF01FFFF00FFFF"), b"0\n1\n0\n")):
        points.equal(f"play: {name}", programs.play(stdin), expected)
    number, tag = new(ROM, CODE_L, bytearray(8831))
    points.equal("image length", (number, tag.event(9, 0), tag.event(4, 0)), (3, (3, 1), (3, 1)))
    image = bytearray(b"\x55" * IMAGE_LENGTH)
    number, tag = new(bytes(8), CODE_L, image)
    points.equal("refused tag: 6", (number, tag.event(9, 9999), tag.event(4, 0), set(image)),
                 (4, (6, 1), (6, 1), {0x55}))
    number, tag = new(ROM, CODE_T, image)
    points.equal("a new tag clears the image", (number, sum(image), image[ALARMS]), (0, BOR, BOR))


def password_points(points):
    master = new_master()
    read_password, full_password = b"readable", b"all full"
    master.store(0x0227, b"\xAA" + read_password + full_password + bytes(8))
    for password, right in ((read_password, True), (full_password, True), (ONES, False)):
        master.skip()
        data, crc_right = master.read_memory(0x0226, 26, password)
        points.equal(f"Read Memory with {password}", (data[:2] == b"\x40\xAA", crc_right), (right, right))
    for password, right in ((read_password, False), (ONES, False), (full_password, True)):
        points.equal(f"Copy with {password}", master.store(0x01F0, bytes(16), password), right)
    master.store(0x0200, settings(), full_password)
    status = []
    for command, password in ((master.clear, ONES), (master.clear, full_password), (master.start, read_password),
                              (master.start, full_password), (master.stop, ONES), (master.stop, full_password)):
        master.skip()
        command(password)
        status.append(master.tag.image[STATUS])
    points.equal("Clear, Start, Stop, wrong then right", status, [0, MEMCLR, MEMCLR, MIP, MIP, 0])


def line_points(points):
    master = new_master()
    points.equal("silent before a reset", master.read(1), b"\xFF")
    points.equal("Read ROM", master.read_rom(), ROM)
    bits = [(byte >> i & 1, 1 - (byte >> i & 1)) for byte in ROM for i in range(8)]
    points.equal("Search", master.search(ROM), bits)
    master.resume()
    points.equal("Resume after Search", master.read_scratchpad()[2], True)
    master.skip()
    master.resume()
    points.equal("no Resume after Skip", master.read(3), b"\xFF" * 3)
    points.equal("Conditional Search with BOR", master.search(ROM, conditional=True), bits)
    master.resume()
    master.clear()
    points.equal("Conditional Search without a flag", set(master.search(ROM, conditional=True)), {(1, 1)})
    master.match(ROM[:7] + b"\xA0")
    points.equal("wrong Match", master.read_scratchpad()[2], False)
    master.match(ROM)
    points.equal("right Match", master.read_scratchpad()[2], True)
    ticks(begin(master, control=ETL | RO), [i % 2048 for i in range(300)])
    points.equal("a dump over the line", master.take_dump(), dock.dump(master.tag))
    master.skip()
    data, right = master.read_memory(0x2FC0, 64)
    points.equal("the last page, then 1s", (len(data), right, master.read(4)), (64, True, b"\xFF" * 4))
    points.equal("play gives the same", programs.play(HEAD + master.triples), bytes(master.answers))


# ---- Overdrive ----

def selected(master):
    """Whether a memory command is taken."""
    return master.read_scratchpad()[2]


def speed_points(points):
    master = new_master()
    bits = [master.short_reset(), master.long_reset()]
    master.write((OVERDRIVE_SKIP,))
    bits.append(master.short_reset())
    master.write((READ_ROM,))
    points.equal("Read ROM at overdrive", master.read(8), ROM)
    bits += [master.long_reset(), master.short_reset()]
    points.equal("resets of both kinds", bits, [1, 0, 0, 0, 1])


def overdrive_points(points):
    """The mark after 3Ch and 69h; 69h with its last bit wrong, begun at either speed."""
    for command, number, marked in ((OVERDRIVE_SKIP, b"", False), (OVERDRIVE_MATCH, ROM, True)):
        master = new_master()
        master.match(ROM)
        master.long_reset()
        master.write((command, *number))
        bit = master.short_reset()
        master.write((RESUME,))
        points.equal(f"Resume after {command:02X}h", (bit, selected(master)), (0, marked))
    for fast in (False, True):
        master = new_master()
        master.rom_command(OVERDRIVE_SKIP if fast else SKIP_ROM)
        (master.short_reset if fast else master.long_reset)()
        master.write((OVERDRIVE_MATCH, *ROM[:7], ROM[7] ^ 0x80))
        points.equal(f"a wrong 69h, overdrive {fast}", (selected(master), master.short_reset()), (False, int(not fast)))


def half_heard_points(points):
    """At standard speed a byte goes on over a short reset; at overdrive it is broken off."""
    master = new_master()
    master.long_reset()
    master.write_bits(SKIP_ROM, 4)
    bit = master.short_reset()
    master.write_bits(SKIP_ROM >> 4, 4)
    points.equal("CCh in two halves", (bit, selected(master)), (1, True))
    for fast, status in ((False, 0x1D), (True, 0x3C)):
        master = new_master()
        master.rom_command(OVERDRIVE_SKIP if fast else SKIP_ROM)
        master.write((WRITE_SCRATCHPAD, 0x3C, 0x01, 0xAB))
        master.write_bits(0x05, 3)
        master.short_reset()
        master.write_bits(0x10, 0 if fast else 5)
        master.skip()
        points.equal(f"a data byte in two parts, overdrive {fast}", master.read_scratchpad()[0][2], status)


def main():
    points = Points()
    for check in (crc_points, clock_points, twelve_hour_points, temperature_points, alarm_points, rate_points,
                  scratchpad_points, full_point, suta_points, alarm_start_points, rollover_points, history_points,
                  listing_points, forced_points, other_image_points, other_waiting_points, sheet_mission,
                  program_points, password_points, line_points, speed_points, overdrive_points, half_heard_points):
        check(points)
    print(f"{points.passed} passed, {points.failed} failed")
    return 1 if points.failed else 0


if __name__ == "__main__":
    sys.exit(main())
