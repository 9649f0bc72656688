"""The packed record, read by the table of include/bagtag.h and the ranges of docs/RANGES.md alone: which bytes are a record, and
what a record holds of what the model's tag knows. The enums' cases are counted as they are declared, from 0 on."""

import re

from model.crc import crc8
from model.tag import CODE_L, CODE_T, FAMILY, LARGEST_READING, LONGEST_PERIOD

from .face import HEADER, RECORD

END_OF_MEMORY = 0x3000
# Where each part begins and ends.
PARTS = {name: (int(at), int(at) + int(width)) for name, at, width in re.findall(
    r"(?m)^#define BAGTAG_AT_(\w+) +(\d+) +/\* (\d+) bytes?:", HEADER.read_text("utf-8"))}

# What may stand behind a case's number.
ANY, NONE, PLACE = range(256), range(1), None
CHOOSING = {0: (NONE, NONE), 1: (ANY, range(8)), 2: (NONE, range(64)), 3: (range(2), range(64)), 4: (NONE, range(64)),
            5: (NONE, range(64)), 6: (NONE, range(64)), 7: (NONE, NONE)}
# By the stage's two first numbers; a place of the scratchpad is asked of TA.
STAGE = {(0, 0): NONE,
         (1, 0): NONE, (1, 1): range(3), (1, 2): range(3), (1, 3): PLACE, (1, 4): NONE, (1, 5): range(4),
         (2, 0): NONE, (2, 1): NONE, (2, 2): range(3),
         (3, 0): NONE, (3, 1): NONE, (3, 2): NONE, (3, 3): PLACE, (3, 4): NONE, (3, 5): range(2), (3, 6): range(2),
         (4, 0): NONE}
BITS = (1, 8, 64, 8, 2)  # below this, by the stage
SENDS_MEMORY, CRC_OF_PAGE = (3, 4, 0), ((3, 5, 1), (3, 6, 1))


def part(record, name):
    return record[slice(*PARTS[name])]


def number(record, name):
    return int.from_bytes(part(record, name), "little")


def is_record(data):
    """Whether every call takes these bytes as a record."""
    return (len(data) == RECORD and number(data, "VERSION") == 1 and is_number(part(data, "NUMBER"))
            and number(data, "CODE") in (CODE_L, CODE_T) and number(data, "MODE") < 4 and number(data, "PF") < 2
            and number(data, "AA") < 2 and are_counters(data) and is_choosing(*part(data, "CHOOSING")) and is_bus(data))


def is_number(rom):
    return rom[0] == FAMILY and crc8(rom[:7]) == rom[7]


def are_counters(data):
    return number(data, "READING") <= LARGEST_READING and number(data, "MINUTE") < 60 and number(data, "WAIT") < LONGEST_PERIOD


def is_choosing(case, first, second):
    return case in CHOOSING and first in CHOOSING[case][0] and second in CHOOSING[case][1]


def is_bus(data):
    places = range(number(data, "TA") & 0x1F, 32)
    stage, address = tuple(part(data, "STAGE")), number(data, "ADDRESS")
    if number(data, "ENDING") not in places or stage[:2] not in STAGE or number(data, "BITS") >= BITS[stage[0]]:
        return False
    seconds = STAGE[stage[:2]]
    if stage[2] not in (places if seconds is PLACE else seconds):
        return False
    if stage == SENDS_MEMORY or stage in CRC_OF_PAGE:
        return address < END_OF_MEMORY and (stage == SENDS_MEMORY or address & 0x1F == 0x1F)
    return True


# ---- What a record holds ----

def of_model(tag):
    """The parts that the model's tag knows; the line's state it has in another form."""
    return {"VERSION": b"\1", "CODE": bytes((tag.code,)), "MINUTE": bytes((tag.minute,)),
            "MODE": bytes((tag.resume_mark | tag.overdrive << 1,)), "ENDING": bytes((tag.ending_offset,)),
            "PF": bytes((tag.partial,)), "AA": bytes((tag.accepted,)), "READING": tag.last_reading.to_bytes(2, "little"),
            "TA": tag.target_address.to_bytes(2, "little"), "NUMBER": bytes(tag.rom),
            "WAIT": tag.until_conversion.to_bytes(8, "little"), "SCRATCHPAD": bytes(tag.scratchpad)}


def with_parts(record, **parts):
    """The record with other bytes in some parts."""
    changed = bytearray(record)
    for name, data in parts.items():
        changed[slice(*PARTS[name])] = data
    return bytes(changed)


def after_reset(record, mode):
    """What a reset leaves: all that was under way on the line is over, and a ROM command is heard."""
    return with_parts(record, CHOOSING=b"\1\0\0", STAGE=b"\1\0\0", BYTE=b"\0", BITS=b"\0", STATUS=b"\0", CRC=bytes(2),
                      ADDRESS=bytes(2), FIELD=bytes(8), MODE=bytes((mode,)))
