"""Taking a dump from a real tag, through the Linux kernel's 1-Wire subsystem. Nothing here is proved.

A slave's file rw is the line: each write is a reset, Skip ROM (beside other slaves Match ROM) and the bytes; each read goes
on from there, with no reset. Only Read Memory and Read Scratchpad are ever sent, and neither changes a tag.
"""

import errno
import os
import re
import sys
import time

from . import Fault, Misuse, Refusal, reason
from .line import CRC_BYTES, FAMILY, PAGE_BYTES, PAGES, READ_MEMORY, crc8, crc16
from .listing import DEVICES

SLAVES = "/sys/bus/w1/devices"
SLAVE_NAME = re.compile(r"([0-9a-f]{2})-([0-9a-f]{12})")
OTHER_FAMILIES = {0x21: "a DS1921", 0x53: "a DS1925"}
OTHER_CODES = {0x00: "a DS2422", 0x20: "a DS1923", 0x80: "a DS1922E"}

READ_SCRATCHPAD = 0xAA
SCRATCHPAD_BYTES = 3 + 32 + CRC_BYTES  # TA1, TA2, E/S, the bytes from the offset to 1Fh, the CRC
TIMES = 3  # that a page is read when it does not come right, and a log when its mission goes on
WAIT = 0.6  # seconds before a page is read again: a tag sends 1s during a conversion, which takes no longer

# Why a page did not come. Read Scratchpad has no password: a tag that answers it and not Read Memory is there, and refuses.
ABSENT, REFUSING, DISTURBED = "absent", "refusing", "disturbed"


# ---- The slave ----

class Slave:
    """A slave's file rw. Its driver takes no heed of the offset, but the file ends after 4,096 bytes: each call is at 0."""

    def __init__(self, device):
        folder = folder_of(device)
        self.name = os.path.basename(folder)
        family, number = (int(part, 16) for part in SLAVE_NAME.fullmatch(self.name).groups())
        if family != FAMILY:
            part = OTHER_FAMILIES.get(family, "no DS1922")
            raise Misuse(f"{self.name} is {part}: its family is {family:02X}h, and a DS1922's 41h")
        rom = bytes((family,)) + number.to_bytes(6, "little")
        self.rom = rom + bytes((crc8(rom),))
        self.file = self.opened(folder)
        self.has_given = False  # whether a page has come: then the tag was there, and the password right

    def opened(self, folder):
        path = os.path.join(folder, "rw")
        try:
            return os.open(path, os.O_RDWR | os.O_CLOEXEC)
        except FileNotFoundError:
            if os.path.isdir(folder):
                raise Fault(f"{self.name} has no file rw: another driver than the kernel's default has taken it") from None
            raise Fault(f"there is no slave {self.name} ({present()}): is the tag on the adapter?") from None
        except OSError as error:
            raise Fault(f"can't open {path}: {reason(error)}") from None

    def __enter__(self):
        return self

    def __exit__(self, *_):
        os.close(self.file)

    def ask(self, command, count):
        """The bytes that come after a reset and a command; none if nothing answered the reset."""
        try:
            written = os.pwrite(self.file, command, 0)
            if written == 0:  # so the driver tells that there was no presence pulse
                return b""
            answer = os.pread(self.file, count, 0)
        except OSError as error:
            if error.errno in (errno.ENODEV, errno.ENXIO):
                raise Fault(f"{self.name} was taken away: the kernel no longer has it") from None
            raise Fault(f"can't use the file rw of {self.name}: {reason(error)}") from None
        if written != len(command) or len(answer) != count:
            raise Fault(f"the file rw of {self.name} took {written} of {len(command)} bytes and gave {len(answer)} of {count}; "
                        "is it the kernel's?")
        return answer


def folder_of(device):
    """The folder of a slave that is given by its name, its folder or its rw file."""
    path = os.path.join(SLAVES, device) if SLAVE_NAME.fullmatch(device) else os.path.realpath(device)
    folder = os.path.dirname(path) if os.path.basename(path) == "rw" else path
    if not SLAVE_NAME.fullmatch(os.path.basename(folder)):
        raise Misuse(f"'{device}' is no 1-Wire slave; say its name, as 41-000000fbc52b, folder or file rw ({present()})")
    return folder


def present():
    """The slaves that could be tags, in words."""
    try:
        names = sorted(name for name in os.listdir(SLAVES) if name.startswith(f"{FAMILY:02x}-"))
    except OSError:
        return f"there is no {SLAVES}: the kernel has no 1-Wire master"
    return f"there are: {', '.join(names)}" if names else "the kernel has none of family 41h"


# ---- A page ----

def read_page(slave, page, password):
    """A page's data and CRC as the tag sent them."""
    command = bytes((READ_MEMORY, page & 0xFF, page >> 8))
    reasons = []
    while len(reasons) < TIMES:
        if reasons:
            time.sleep(WAIT)
        answer = slave.ask(command + password, PAGE_BYTES + CRC_BYTES)
        if is_right(command, answer):
            slave.has_given = True
            return answer
        reasons.append(why_not(slave, answer))
    raise fault(reasons, slave.has_given, f"{slave.name}, page {page:04X}h")


def is_right(command, answer):
    """Whether an answer ends in the CRC-16, inverted and low byte first, over the command and what comes before it."""
    body, crc = answer[:-CRC_BYTES], answer[-CRC_BYTES:]
    return len(crc) == CRC_BYTES and crc16(command + body) ^ 0xFFFF == int.from_bytes(crc, "little")


def why_not(slave, answer):
    """Why Read Memory was answered so; a tag that is silent is asked by Read Scratchpad."""
    if not is_silent(answer):
        return DISTURBED
    command = bytes((READ_SCRATCHPAD,))
    sent = slave.ask(command, SCRATCHPAD_BYTES)
    if is_silent(sent):
        return ABSENT
    offset = sent[0] & 0x1F  # what comes after the CRC, so many bytes, is 1s
    return REFUSING if is_right(command, sent[:SCRATCHPAD_BYTES - offset]) else DISTURBED


def is_silent(answer):
    """Nothing answered the reset, or all that came is 1s, as from a line with nobody on it."""
    return not answer.strip(b"\xFF")


def fault(reasons, has_given, where):
    """What a person is told of a page that never came. A password is called wrong only if nothing else was ever in the way."""
    if reasons == [REFUSING] * TIMES:
        words = "the tag gives no more pages; was another laid in its place?" if has_given else "the password is wrong"
        return Refusal(f"{where}: {words}")
    if reasons[-1] == ABSENT:
        words = "the tag was taken away" if has_given else "no tag is there, no contact, or its battery is empty"
        return Fault(f"{where}: no answer; {words}")
    return Fault(f"{where}: read {TIMES} times, never with a right CRC; is the contact poor, or another program on the line?")


# ---- The dump ----

def dump(slave, password, say):
    """The dump's text, of one moment: if a conversion was made while the pages were read, all are read again, which is told."""
    for turn in range(TIMES):
        if turn:
            say(f"{slave.name}: its mission went on while it was read; reading it again ..")
        pages = read_pages(slave, password)
        before, after = pages[:2], pages[len(PAGES):]
        if steady(before) == steady(after):
            return "".join(f"{page:04X}{sent.hex().upper()}\n" for page, sent in zip(PAGES, pages))
    raise Fault(f"{slave.name}: read {TIMES} times, and each time its mission, with a conversion every {period(after):,} s, "
                "went on: there is no dump of one moment unless the mission is stopped first")


def read_pages(slave, password):
    """The dump's pages as the tag sent them, and then its first two, the registers, a second time."""
    order = (*PAGES, *PAGES[:2])
    pages = []
    with Progress(slave.name, len(order)) as progress:
        for page in order:
            pages.append(read_page(slave, page, password))
            progress.step()
            if len(pages) == 2:
                check_code(slave, pages)
    return pages


def registers(pages):
    """The 64 bytes of 0200h to 023Fh."""
    return b"".join(sent[:PAGE_BYTES] for sent in pages)


def check_code(slave, pages):
    code = registers(pages)[0x26]
    if code not in DEVICES:
        part = OTHER_CODES.get(code, "no DS1922L or DS1922T")
        raise Misuse(f"{slave.name} is {part}: its code at 0226h is {code:02X}h, not 40h (DS1922L) or 60h (DS1922T)")


def steady(pages):
    """The registers that stay while no conversion is made: all but the clock, 0200h-0205h, and the start delay, 0216h-0218h."""
    held = registers(pages)
    return held[0x06:0x16] + held[0x19:]


def period(pages):
    """Seconds: the rate, in minutes unless EHSS is 1."""
    held = registers(pages)
    return int.from_bytes(held[0x06:0x08], "little") * (1 if held[0x12] & 2 else 60)


class Progress:
    """One line on a terminal that counts the pages; nothing where standard error is no terminal."""

    def __init__(self, name, total):
        self.name, self.total, self.done = name, total, 0
        self.shown = sys.stderr is not None and sys.stderr.isatty()

    def __enter__(self):
        return self

    def step(self):
        self.done += 1
        self.put(f"reader: {self.name}: page {self.done} of {self.total} ..")

    def put(self, text):
        if self.shown:
            sys.stderr.write(f"\r{text}\x1B[K")  # from the line's start; and what a longer text left there is cleared
            sys.stderr.flush()

    def __exit__(self, *_):
        self.put("")
