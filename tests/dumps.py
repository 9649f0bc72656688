"""Dumps for the listing program: good ones, made by driving the model or forged, and damaged ones of every kind.

As with the sessions, everything comes from a seed and a number.
"""

import random

from model import dock
from model.tag import (
    CODE_L, CODE_T, EHSS, ETL, MEMCLR, RO, SUTA, THF, TLF, TLFS)
from sessions import Session


def driven(rng, most=12000):
    """A tag in or after a mission, run by the model; a few have none, or were cleared since."""
    session = Session(rng)
    if rng.random() < 0.03:
        return session.tag
    tlfs, suta, ehss = rng.choice((0, TLFS)), rng.choice((0, SUTA)), rng.choice((EHSS, EHSS, EHSS, 0))
    session.start(rate=rng.choice((1, 1, 1, 2, 5)), control=ETL | tlfs | suta | rng.choice((0, RO)), oscillator=ehss,
                  delay=rng.choice((0, 0, 0, 1)), thresholds=b"\x20\xD0", enable=rng.choice((1, 2, 3, 3)))
    places = 4096 if tlfs else 8192
    count = rng.choice((0, 1, 2, 10, rng.randrange(300), places - 1, places, places + 1, places + rng.randrange(3000)))
    for _ in range(min(count, most)):
        session.tag.event(3, rng.randrange(2048))
    if rng.random() < 0.4:
        after_mission(session)
    return session.tag


def after_mission(session):
    """Stop, and perhaps a Forced Conversion, which may clear WFTA, or a Clear."""
    session.select()
    session.master.stop()
    session.ticks(session.rng.randrange(3))
    if session.chance(0.6):
        session.select()
        session.master.force()
    if session.chance(0.05):
        session.select()
        session.master.clear()


def forged(rng):
    """Lines in order, whatever the registers say: every bit that the dock must not use may be set."""
    registers = bytearray(rng.randbytes(64))
    registers[0x06:0x08] = rng.choice((1, 256, 0x4000, 0x8001, 0xFFFF, rng.randrange(65536))).to_bytes(2, "little")
    # With TLFS and SUTA entry 0 has low bits, as in a dump of an older tag, and is listed as it stands (R102.5).
    registers[0x13] |= ETL | rng.choice((0, 0, TLFS | SUTA))
    registers[0x15] &= ~MEMCLR
    registers[0x26] = rng.choice((CODE_L, CODE_T))
    samples = rng.choice((0, 1, 5, 4095, 4096, 4097, 8191, 8192, 8193, 0xFFFFFE, 0xFFFFFF, rng.randrange(1 << 24)))
    registers[0x20:0x23] = samples.to_bytes(3, "little")
    if rng.random() < 0.7:
        registers[0x13] |= RO
    registers[0x14] = registers[0x14] & ~(THF | TLF) | rng.choice((0, THF, TLF, THF | TLF))
    return bytes(registers) + rng.randbytes(8192)


def lines_of(data):
    return [dock.line(page, data[i * 32:i * 32 + 32]) for i, page in enumerate(dock.PAGES)]


def damage_length(rng, text):
    short = text[:rng.randrange(len(text) + 1)]
    return rng.choice((b"", text[:-1], text[1:], text[:-73], text[:73], short, text + b"\n", text + b"0", text + text,
                       text.replace(b"\n", b"\r\n")))


def damage_digit(rng, text):
    at = rng.randrange(258) * 73 + rng.choice((0, 3, 4, 67, 68, 71, rng.randrange(72)))
    return text[:at] + rng.choice((b"/", b":", b"@", b"G", b"a", b"f", b" ", b"\n", b"\0", b"\xFF")) + text[at + 1:]


def damage_line_feed(rng, text):
    at = rng.choice((0, 1, 257, rng.randrange(258))) * 73 + 72
    return text[:at] + rng.choice((b"\r", b" ", b"0", b"\0")) + text[at + 1:]


def damage_page(rng, text):
    """A line for another page, itself in order; two lines changed over; or the page's digits alone."""
    lines = [text[i * 73:i * 73 + 73] for i in range(258)]
    at = rng.choice((0, 1, 2, 257, rng.randrange(258)))
    kind = rng.randrange(3)
    if kind == 0:
        lines[at] = dock.line(rng.choice((0x0000, 0x0240, 0x3000, dock.PAGES[at] ^ 0x20)), bytes(32))
    elif kind == 1:
        lines[at], lines[at - 1] = lines[at - 1], lines[at]
    else:
        lines[at] = b"%04X" % (dock.PAGES[at] ^ 1 << rng.randrange(16)) + lines[at][4:]
    return b"".join(lines)


def damage_crc(rng, text):
    """One digit of data or CRC, the CRC's bytes changed over, or the CRC of a page read later."""
    at = rng.randrange(258) * 73
    kind = rng.randrange(3)
    if kind == 0:
        place = at + rng.randrange(4, 72)
        return text[:place] + (b"1" if text[place:place + 1] != b"1" else b"2") + text[place + 1:]
    line = bytes.fromhex(text[at:at + 72].decode())
    crc = line[:33:-1] if kind == 1 else dock.crc16_sent(line[2:34])
    return text[:at + 68] + crc.hex().upper().encode() + text[at + 72:]


def changed_registers(change):
    """A dump in order but for what its registers say."""
    def damage(rng, text):
        data = bytearray(b"".join(bytes.fromhex(text[i * 73:i * 73 + 72].decode())[2:34] for i in range(258)))
        change(rng, data)
        return b"".join(lines_of(bytes(data)))
    return damage


def set_memclr(rng, data):
    data[0x15] |= MEMCLR


def set_code(rng, data):
    data[0x26] = rng.choice((0x00, 0x20, 0x41, 0x61, 0x50, 0xFF))


def set_rate_0(rng, data):
    data[0x06] = data[0x07] = 0


def set_etl_0(rng, data):
    data[0x13] &= ~ETL


def set_counts(rng, data):
    """At and above the log's places without rollover; samples without a flag with SUTA."""
    places = 4096 if data[0x13] & TLFS else 8192
    if rng.random() < 0.6:
        data[0x13] &= ~RO
        samples = places + rng.choice((-2, -1, 0, 1))
    else:
        data[0x13] |= SUTA
        data[0x14] &= ~(THF | TLF)
        samples = rng.choice((0, 1, 256, 0x10000))
    data[0x20:0x23] = samples.to_bytes(3, "little")


DAMAGES = (
    ("length", damage_length), ("digit", damage_digit), ("line feed", damage_line_feed), ("page", damage_page),
    ("CRC", damage_crc), ("MEMCLR", changed_registers(set_memclr)), ("code", changed_registers(set_code)),
    ("rate 0", changed_registers(set_rate_0)), ("ETL 0", changed_registers(set_etl_0)),
    ("counts", changed_registers(set_counts)))


def damaged(rng, text, at):
    """One kind of damage, now and then two: then the order of the refusals decides. The later ones of the table are
    done first, as they need lines that are whole."""
    chosen = [at] + ([rng.randrange(len(DAMAGES))] if rng.random() < 0.4 else [])
    for one in sorted(chosen, reverse=True):
        text = DAMAGES[one][1](rng, text)
    return text


def dump(seed, number):
    """The kind's name, the listing program's standard input, and what it must print."""
    rng = random.Random(f"dump {seed} {number}")
    at = number % (len(DAMAGES) + 8)
    if at < len(DAMAGES):
        base = b"".join(lines_of(forged(rng))) if rng.random() < 0.5 else dock.dump(driven(rng, 300))
        name, text = DAMAGES[at][0], damaged(rng, base, at)
    elif at < len(DAMAGES) + 4:
        name, text = "driven", dock.dump(driven(rng))
    else:
        name, text = "forged", b"".join(lines_of(forged(rng)))
    return name, text, dock.listing(text)
