"""Many events in one call (change request #101 and its rulings R101.1 to R101.7), and lists of them given to a new tag."""

from typing import NamedTuple

from .tag import IMAGE_LENGTH, new

SLOTS_AND_RESETS = (0, 1, 2, 4)  # their words are their codes
FIRST_TICK, LAST_TICK = 4096, 6143  # a tick's word is 4096 and the reading
REFUSED_WORD, BAD_IMAGE, BAD_RECORD, FEW_REPLIES = 1, 3, 6, 17
UNUSED_REPLY, UNUSED_IMAGE = b"\x77", b"\x55"  # what the lent bytes hold before


class Played(NamedTuple):
    """What lists leave, in the order in which the driver prints it."""
    answer: int  # the new tag's
    ends: list  # of each list: its answer, and how many words are done
    replies: bytes  # of all lists, one behind the other
    image: bytes


def event_of(word):
    """The code and the reading, or None for a word that is refused (R101.1, R101.7)."""
    if word in SLOTS_AND_RESETS:
        return word, 0
    if FIRST_TICK <= word <= LAST_TICK:
        return 3, word - FIRST_TICK
    return None


def events(tag, words, replies):
    """The answer and the number done. The tag is left as the words done leave it, and replies as far as they go."""
    if len(words) > len(replies):
        return FEW_REPLIES, 0
    if len(tag.image) != IMAGE_LENGTH:
        return BAD_IMAGE, 0
    if not tag.in_ranges:
        return BAD_RECORD, 0
    for done, word in enumerate(words):
        event = event_of(word)
        if event is None:
            return REFUSED_WORD, done
        _, replies[done] = tag.event(*event)
    return 0, len(words)


def play(rom, code, length, lists):
    """What the lists, each its words and how many reply bytes are lent, leave of a new tag with an image of that length.

    A longer image than the tag's is lent to the new tag without what is too much, and to the lists whole: so there is a
    good record with a bad image too.
    """
    image = bytearray(UNUSED_IMAGE * length)
    lent = image[:IMAGE_LENGTH]
    answer, tag = new(rom, code, lent)
    image[:IMAGE_LENGTH] = lent
    tag.image = image
    ends, all_replies = [], bytearray()
    for words, room in lists:
        replies = bytearray(UNUSED_REPLY * room)
        ends.append(events(tag, words, replies))
        all_replies += replies
    return Played(answer, ends, bytes(all_replies), bytes(image))
