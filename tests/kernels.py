"""For tests/take: a tag, which is the program `play`, and the kernel's 1-Wire driver in front of it.

A Kernel does with the calls on a slave's file rw what the kernel's default driver does, as its source (drivers/w1/w1.c) is
understood here; no kernel was asked. Each kind of it lets something happen on the line, and is named after that.
"""

import errno
import os
import random
import signal
import subprocess

from reader import line, sessions

TOP = os.path.dirname(os.path.dirname(os.path.realpath(__file__)))
RUN = os.path.join(TOP, "run")
NAME = "41-000000fbc52b"  # of the sessions' tag, 412BC5FB000000A1
PASSWORD, FULL_PASSWORD = "INSPECT1", "GROWER-1"
SKIP_ROM, MATCH_ROM = 0xCC, 0x55
RW_BYTES = 4096  # the size that the kernel gives the file
PAGE, CODE_AT = 34, 0x06  # a page with its CRC; the code's place in page 0220h


def example(name):
    with open(os.path.join(TOP, "examples", name), encoding="utf-8") as file:
        return file.read()


# ---- The tag: the program play, driven through a pipe ----

class Tag:
    def __init__(self, session):
        self.process = subprocess.Popen([RUN, "play"], stdin=subprocess.PIPE, stdout=subprocess.PIPE, stderr=subprocess.DEVNULL)
        frames = sessions.parse(session, "the test's session")
        code, *self.rom = frames[0].data
        self.process.stdin.write(bytes((*self.rom, code)))
        self.play(b"".join(map(line.events_of, frames[1:])))

    def play(self, events):
        """The line bits of some events. Few at a time, so that neither pipe is ever full."""
        bits = b""
        for at in range(0, len(events), 3 * 4096):
            part = events[at:at + 3 * 4096]
            self.process.stdin.write(part)
            self.process.stdin.flush()
            bits += self.process.stdout.read(2 * (len(part) // 3))[::2]
        return bits

    def reset(self):
        self.play(line.RESET_EVENT)

    def write(self, data):
        self.play(b"".join(line.BYTE_EVENTS[byte] for byte in data))

    def read(self, count):
        bits = self.play(line.BYTE_EVENTS[0xFF] * count)
        return bytes(int(bits[at:at + 8][::-1], 2) for at in range(0, len(bits), 8))

    def tick(self, reading):
        self.play(bytes((3, reading >> 8, reading & 0xFF)))

    def asked(self, command, count):
        self.reset()
        self.write(bytes((SKIP_ROM, *command)))
        return self.read(count)

    def page(self, page):
        return self.asked((0x69, page & 0xFF, page >> 8, *PASSWORD.encode()), PAGE)

    def memory(self):
        """Every page that there is, with its CRC, and the scratchpad: what a change of the tag would show in."""
        return [self.page(page) for page in range(0, 0x3000, 32)], self.asked((0xAA,), 37)

    def dump(self):
        """All pages at this very moment, for no tick comes between."""
        return "".join(f"{page:04X}{self.page(page).hex().upper()}\n" for page in line.PAGES)

    def close(self):
        self.process.stdin.close()
        self.process.wait()
        self.process.stdout.close()


# ---- The kernel ----

class Kernel:
    """What the driver does with a slave's file rw, whoever is on the line. Each kind below lets something happen."""

    def __init__(self, tag):
        self.tag, self.asked, self.waits, self.alien, self.opened = tag, 0, [], [], 0

    def open(self, flags):
        self.opened += 1
        if flags & os.O_ACCMODE != os.O_RDWR:
            self.alien.append(f"opened with {flags:o}")

    def pwrite(self, data, offset):
        self.asked += 1
        if offset != 0 or data[0] not in (0x69, 0xAA):  # anything else might change the tag
            self.alien.append(f"{data.hex()} at {offset}")
        self.tag.reset()
        self.tag.write(self.choice())
        self.tag.write(self.sent(data))
        return len(data)

    def choice(self):
        return bytes((SKIP_ROM,))

    def sent(self, data):
        return data

    def pread(self, count, offset):
        if offset != 0 or count > RW_BYTES:
            self.alien.append(f"{count} bytes read at {offset}")
        return self.heard(self.tag.read(count))

    def heard(self, data):
        return data

    def sleep(self, seconds):
        self.waits.append(seconds)

    def close(self):
        self.opened -= 1

    def is_well(self):
        """The file was used as the kernel has it, nothing was sent that might change the tag, and it was closed."""
        return not self.alien and self.opened == 0


class BesideOthers(Kernel):
    """More than one slave: each is called by its number."""

    def choice(self):
        return bytes((MATCH_ROM, *self.tag.rom))


class DisturbedReads(Kernel):
    """Two of three answers have a bit turned: a page comes right at its third time."""

    def heard(self, data):
        place = random.randrange(8 * len(data))
        turned = (int.from_bytes(data, "little") ^ 1 << place).to_bytes(len(data), "little")
        return data if self.asked % 3 == 0 else turned


class DisturbedAddresses(Kernel):
    """Every second time the tag hears another page's address, and sends that page with a CRC which is right for it."""

    def sent(self, data):
        return data[:2] + bytes((data[2] ^ 0x01,)) + data[3:] if self.asked % 2 and data[0] == 0x69 else data


class DisturbedPage(Kernel):
    """One page never comes right."""

    def sent(self, data):
        self.bad = data[:3] == b"\x69\x40\x12"
        return data

    def heard(self, data):
        return data[:5] + bytes((data[5] ^ 0x10,)) + data[6:] if self.bad else data


class PoorContact(Kernel):
    """Now and then nothing answers the reset, which the driver tells by 0 bytes written."""

    def pwrite(self, data, offset):
        written = super().pwrite(data, offset)
        return 0 if self.asked % 10 in (3, 4) else written


class Searching(Kernel):
    """The kernel looks for slaves between a write and the read: what is read then is 1s."""

    def heard(self, data):
        return b"\xFF" * len(data) if self.asked % 40 == 7 else data


class Converting(Kernel):
    """A conversion: from the midst of a page on the tag sends 1s, for 0.6 s."""
    left, when = 0.0, 50

    def heard(self, data):
        if self.left > 0:
            return b"\xFF" * len(data)
        if self.asked % 60 == self.when:
            self.asked += 1  # that this one comes once
            self.left = 0.6
            return data[:9] + b"\xFF" * (len(data) - 9)
        return data

    def sleep(self, seconds):
        self.left -= seconds


class Away(Kernel):
    """There is no tag."""
    from_time, until_time = 0, 10 ** 9

    def away(self):
        return self.from_time < self.asked <= self.until_time

    def pwrite(self, data, offset):
        written = super().pwrite(data, offset)
        return 0 if self.away() else written


class TakenAway(Away):
    """In the midst of a page, and not laid back."""
    from_time = 100

    def heard(self, data):
        return data[:20] + b"\xFF" * (len(data) - 20) if self.asked == 100 else data


class AwayBesideOthers(BesideOthers):
    """The tag is taken away; other slaves still answer the reset."""

    def heard(self, data):
        return b"\xFF" * len(data) if self.asked > 50 else data


class LetGo(Kernel):
    """The kernel notices that the tag is away, and takes its files away."""
    code = errno.ENODEV

    def pread(self, count, offset):
        if self.asked == 30:
            raise OSError(self.code, "")
        return super().pread(count, offset)


class Failing(LetGo):
    code = errno.EIO


class Interrupted(Kernel):
    """Somebody presses Ctrl-C."""

    def pread(self, count, offset):
        if self.asked == 40:
            self.process.send_signal(signal.SIGINT)
        return super().pread(count, offset)


class Forbidden(Kernel):
    def open(self, flags):
        raise OSError(errno.EACCES, "")


class Shorted(Kernel):
    """The line is held low: that looks like a presence pulse, and all bytes are 0."""

    def heard(self, data):
        return bytes(len(data))


class AnotherTag(Kernel):
    """A tag with other passwords is laid in the place of the first."""

    def pwrite(self, data, offset):
        if self.asked == 20:
            self.tag.close()
            self.tag = Tag(example("landing.session").replace("494E535045435431", "4F54484552505731"))
        return super().pwrite(data, offset)


class FromAnOffset(Kernel):
    """The scratchpad was last written from an offset on: Read Scratchpad sends so many bytes fewer."""

    def __init__(self, tag):
        super().__init__(tag)
        tag.asked((0x0F, 0x27, 0x02, *range(25)), 2)


class Code(Kernel):
    """A sibling of the DS1922: its code is another, and its CRC is right."""

    def sent(self, data):
        self.page = data[:3]
        return data

    def heard(self, data):
        if self.page != b"\x69\x20\x02":
            return data
        data = data[:CODE_AT] + bytes((self.code,)) + data[CODE_AT + 1:-2]
        return data + (line.crc16(self.page + data) ^ 0xFFFF).to_bytes(2, "little")


class Ticking(Kernel):
    """Seconds go by while the tag is read: one with every so many pages."""
    every, reading = 26, 0x0310

    def pwrite(self, data, offset):
        if self.asked % self.every == self.every - 1:
            self.tag.tick(self.reading)
        return super().pwrite(data, offset)


class GoneBetween(Ticking, Away):
    """An entry falls due; and then, before all is read again, the tag is taken away."""
    from_time = 260


def kind(base, **more):
    """A kind of Kernel with other numbers."""
    return type(base.__name__, (base,), more)
