"""Deliberate faults of the library, its header and the firmware, each a line or two changed in a copy of the sources, to show
that tests/library would catch them.

A fault names the files, and texts, each of which must stand there exactly once, with what takes their place.
"""

import collections
import shutil
from typing import NamedTuple

from . import cases, lines, listed, played, programs, throws
from .builds import CRATE, EXAMPLES, TOP, Builds, kit
from .face import guarded

SESSIONS, LINES, DUMPS, THROWS = 28, 12, 18, 4000
BAGTAG = ("crates/bagtag/src/lib.rt",)
LINE = ("crates/bagtag/src/line.rt", "crates/rack/src/lib.rt")
PACKING = ("crates/packing/src/lib.rt", "crates/packing/src/parts.rt", "crates/packing/src/codes.rt")
HEADER = ("include/bagtag.h",)
FIRMWARE = ("firmware.c",)


class Fault(NamedTuple):
    name: str
    files: tuple
    edits: dict


FAULTS = (
    Fault("wait and field change places, in packing and unpacking", PACKING, {
        "put(lent, 32, ": "put(lent, 41, ", "put(lent, 40, ": "put(lent, 32, ", "put(lent, 41, ": "put(lent, 40, ",
        "wait: image::word(lent, 32, 8)": "wait: image::word(lent, 40, 8)",
        "field: image::word(lent, 40, 8)": "field: image::word(lent, 32, 8)"}),
    Fault("numbers of two bytes high byte first, in packing and unpacking", PACKING, {
        "&reading.to_le_bytes()": "&reading.to_be_bytes()", "&ta.to_le_bytes()": "&ta.to_be_bytes()",
        "&crc.to_le_bytes()": "&crc.to_be_bytes()", "&address.to_le_bytes()": "&address.to_be_bytes()",
        "image::word(lent, at, 2) as u16": "(image::word(lent, at + 1, 1) + 256 * image::word(lent, at, 1)) as u16"}),
    Fault("mark 2 and overdrive 1, in packing and unpacking", PACKING, {
        "self as u8": "match self { Mode::Plain => 0, Mode::Marked => 2, Mode::Overdrive => 1, Mode::OverdriveMarked => 3 }",
        "1 => Mode::Marked": "2 => Mode::Marked", "2 => Mode::Overdrive,": "1 => Mode::Overdrive,"}),
    Fault("any version", PACKING, {"image::peek(lent, 0) == VERSION": "image::peek(lent, 0) != 0"}),
    Fault("any byte for PF", PACKING, {"        && codes::is_own::<bool>(image::peek(lent, 14))\n": ""}),
    Fault("any numbers for a stage", PACKING, {"codes::is_own::<Stage>(parts::coded_at(lent, 7))": "lent.len() != 0"}),
    Fault("a byte read past the record", PACKING, {"image::peek(lent, 0) == VERSION": "lent[0] == VERSION && lent[80] != 77"}),
    Fault("the line left as it was by a refusal", BAGTAG, {"    *line = 1;\n": ""}),
    Fault("the record changed by a refused reading", BAGTAG, {
        "packing::pack(lent, answered.tag);\n    *line": "packing::pack(lent, answered.tag);\n"
        "    if reading > 2047 { image::poke(lent, 79, 1); }\n    *line"}),
    Fault("the record as it was where words end with a refused one", BAGTAG, {
        "packing::pack(lent, left.tag);\n    *done": "if left.done == words.len() { packing::pack(lent, left.tag); }\n    *done"}),
    Fault("done not told", BAGTAG, {"    *done = left.done;\n": ""}),
    Fault("too few replies after a bad image", BAGTAG, {
        "if replies.len() < words.len() {": "if replies.len() < words.len() && image.len() == IMAGE {"}),
    Fault("a head of 27 bytes taken", BAGTAG, {"const HEAD: usize = 28;": "const HEAD: usize = 27;"}),
    Fault("places written with too short a head", BAGTAG, {
        "return short_head(dump);": "dock::list_dump(dump, temperatures);\n        return short_head(dump);"}),
    Fault("a head filled for a dump with too few places", BAGTAG, {
        "if listing.answer.is_ok() {\n        put_head": "if answer::number(listing.answer) % 12 == 0 {\n        put_head"}),
    Fault("entries held and first entry change places in a head", BAGTAG, {
        "(head, 8, 4, listing.held": "(head, 0, 4, listing.held", "(head, 12, 4, ": "(head, 8, 4, ",
        "(head, 0, 4, listing.held": "(head, 12, 4, listing.held"}),
    Fault("a line's records packed the other way round", LINE, {
        "pack_from(records, place * RECORD, ": "pack_from(records, (board::places(board.count) - 1 - place) * RECORD, "}),
    Fault("records that are no line's refused with 6, whatever their numbers", LINE, {
        "block.len(), same, false, ": "block.len(), same && false, false, "}),
    Fault("the number compared of a record that is not wholly there", LINE, {"(few / 80)": "((few + 40) / 80)"}),
    Fault("the records of a refused new line left", LINE, {
        "    rack::pack(records, board);\n": "    if shown.board.count != 0 { rack::pack(records, board); }\n"}),
    Fault("the records of a line not packed after a tick", LINE, {
        "    rack::pack(records, shown.board);\n": "    if code != 3 { rack::pack(records, shown.board); }\n"}),
    Fault("the bits of Read ROM not counted as sent", HEADER, {"(record)[BAGTAG_AT_CHOOSING] == 2 || ": ""}),
    Fault("the bits after a Copy not counted as sent", HEADER, {" || (record)[BAGTAG_AT_STAGE] == 4": ""}),
    Fault("the master's choice of a Search counted as sent", HEADER, {
        "(record)[BAGTAG_AT_CHOOSING] == 5": "(record)[BAGTAG_AT_CHOOSING] >= 5 && (record)[BAGTAG_AT_CHOOSING] <= 6"}),
    Fault("a password counted as sent", HEADER, {"(record)[BAGTAG_AT_STAGE] == 3": "(record)[BAGTAG_AT_STAGE] >= 2"}),
)
FIRMWARE_FAULTS = (
    Fault("the record that counts overwritten", FIRMWARE, {"idle = !board_kept.turn": "idle = board_kept.turn"}),
    Fault("the mark turned first", FIRMWARE, {
        "    board_store(board_kept.records[idle], record, sizeof record);\n": "",
        "    board_store(&board_kept.turn, &idle, sizeof idle);\n": "    board_store(&board_kept.turn, &idle, sizeof idle);\n"
        "    board_store(board_kept.records[idle], record, sizeof record);\n"}),
    Fault("power-up without the kept record", FIRMWARE, {
        "memcpy(record, board_kept.records[board_kept.turn], sizeof record);": ";"}),
    Fault("the speed not told", FIRMWARE, {"board_ready(bit, record[BAGTAG_AT_MODE] & OVERDRIVE)": "board_ready(bit, false)"}),
    Fault("nothing made ready for the next slot", FIRMWARE, {
        "        keep_record();\n        look_ahead();\n": "        keep_record();\n"}),
    Fault("a slot worked out ahead of a tag that listens", FIRMWARE, {"if (BAGTAG_SENDS(record))": "if (record[0])"}),
)


def edit(home, fault):
    """A ValueError says which text is not there once."""
    for old, new in fault.edits.items():
        found = [home / file for file in fault.files if old in (home / file).read_text("utf-8")]
        if len(found) != 1 or found[0].read_text("utf-8").count(old) != 1:
            raise ValueError(f"'{old.strip()}' does not stand once in {', '.join(fault.files)}")
        found[0].write_text(found[0].read_text("utf-8").replace(old, new), "utf-8")


def checks(folder, play, list_, seed):
    for place, fault in enumerate(FAULTS):
        yield from tried(folder / f"fault{place}", fault, lambda home: library_checks(home, fault, play, seed))
    for place, fault in enumerate(FIRMWARE_FAULTS):
        yield from tried(folder / f"firmware{place}", fault, lambda home: firmware_checks(home, fault, play, list_))


def tried(home, fault, results):
    """Caught, if one of the checks is not right."""
    home.mkdir()
    try:
        caught = next((name for name, right, _ in results(home) if not right), None)
    except (ValueError, kit.Missing) as error:
        yield f"deliberate fault: {fault.name}", False, f"it could not be made: {error}"
        return
    if caught:
        print(f"caught: {fault.name}: by {caught}")
    yield f"deliberate fault: {fault.name}", caught is not None, "not caught"
    shutil.rmtree(home)


def library_checks(home, fault, play, seed):
    """Of the library or its header with a fault; what costs least comes first."""
    for folder in ("include", *(f"crates/{crate}/src" for crate in kit.with_all_below(CRATE))):
        shutil.copytree(TOP / folder, home / folder)
    shutil.copy(TOP / "crates.txt", home)
    edit(home, fault)
    driver, reached = Builds(home, top=home).driver(), []
    yield from guarded("cases", cases.checks(driver))
    yield from guarded("cases of a line", lines.cases(driver))
    yield from played.checks(driver, play, seed, range(SESSIONS), reached)
    yield from lines.sessions(driver, seed, range(LINES))
    yield from listed.checks([driver], seed, range(DUMPS), collections.Counter())
    yield from throws.checks([driver], seed, THROWS, reached, collections.Counter())
    yield from lines.throws([driver], seed, THROWS // 10, reached, collections.Counter())


def firmware_checks(home, fault, play, list_):
    shutil.copytree(EXAMPLES, home / "c")
    edit(home / "c", fault)
    yield from programs.checks(Builds(home), play, list_, (), home / "c")
