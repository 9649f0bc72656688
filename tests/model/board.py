"""Several tags on one line (change request #106 and its rulings R106.1 to R106.11). A board carries them, each with its own
record and its own part of the block that is lent."""

from .tag import IMAGE_LENGTH, LARGEST_READING, new as new_tag

MOST_TAGS = 7
TICK = 3


def refused_line(roms, length):
    """What is asked of a line before any check of a tag, in this order: the number of a refusal, or 0. The registration numbers
    are compared as they are, good or not (R106.4)."""
    if not 1 <= len(roms) <= MOST_TAGS:
        return 14
    if length != IMAGE_LENGTH * len(roms):
        return 3
    return 13 if len(set(roms)) < len(roms) else 0


class Board:
    """The tags by their places, and how long the block lent to them is."""

    def __init__(self, tags, length):
        self.tags = tags
        self.length = length

    def event(self, code, place, reading):
        """The answer to one event: a number and the line's bit. Place and reading count with a tick alone (R106.5)."""
        number = self.refused(code, place, reading)
        if number:
            return number, 1
        if code <= 1:
            return 0, self.slot(code)
        if code == TICK:
            return self.tags[place].event(code, reading)
        return 0, min(tag.event(code, reading)[1] for tag in self.tags)

    def refused(self, code, place, reading):
        """The number of a refusal, or 0: 14, 3, 13, 6, 1, 2 (R106.3). One broken record refuses every event."""
        if code == TICK and place >= len(self.tags):
            return 14
        number = refused_line([tag.rom for tag in self.tags], self.length)
        if number:
            return number
        if not all(tag.in_ranges for tag in self.tags):
            return 6
        if code > 4:
            return 1
        return 2 if code == TICK and reading > LARGEST_READING else 0

    def slot(self, master):
        """Each tag hears the master's bit, and gives its own and the master's combined (R106.6)."""
        return min(tag.slot(master) for tag in self.tags)


class Wired(Board):
    """A board whose tags hear the line's bit, as tags on a wire do: from a new line on the same (R106.6)."""

    def slot(self, master):
        awake = [tag for tag in self.tags if tag.line is not None]
        bit = min([master, *(next(tag.line) for tag in awake)])
        for tag in awake:
            try:
                tag.line.send(bit)
            except StopIteration:
                tag.line = None
        return bit


def new(heads, length, kind=Board):
    """A number and a board, from a registration number and a code for each place (R106.2). Refused, it is the board with no
    tag, whose events are refused too."""
    number, made = refused_line([rom for rom, _ in heads], length), []
    if not number:
        made = [new_tag(rom, code, bytearray(IMAGE_LENGTH)) for rom, code in heads]
        number = next((refusal for refusal, _ in made if refusal), 0)
    return number, kind([] if number else [tag for _, tag in made], length)
