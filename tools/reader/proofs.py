"""What of a page rests on a proof and what does not, in words; and what a dump's registers say of its mission."""

from . import SESSION
from .words import begins_coarsely, date_of, period_words

PROVED = (
    "Every function of the program list that judges the dump and works out and writes the listing: which entries the log holds, "
    "each one's seconds from the stamp and its temperature in sixteenths of a degree, for every dump. The build is taken for "
    "proved because rt run or .ci/run made it and no source, definition or proof is newer; .ci/run proves all from nothing.")
PLAYED = {"play": " So are the functions of the program play, the tag whose dump this is.",
          "shed": " So are the functions of the program shed, to one of whose tags this dump belongs."}
TESTED = "That list prints the pieces of the listing one after the other: its function main is proved to be safe and to end."
ASSUMED = "The contracts of the C functions that the programs call for input and output, and the compiler's back end."
NOTHING = "Nothing on this page. A page made with proved builds says so here; .ci/run makes them."
NOT_PROVED = (
    "The reader, which made this page: it took thresholds and period from the dump's registers, turned the stamp into dates and "
    "sixteenths into degrees, worked out the summary, drew the picture and set the table.")
NOT_SHOWN = (
    "That the file is from this tag and unchanged: the CRCs in a dump find accidents, not forgery. That the tag's clock and "
    "thermometer were right.")


def warnings(source):
    """What must stand before everything else."""
    if source.disagreements:
        yield (f"The session is not as recorded: {len(source.disagreements):,} of its bytes differ from what the tag sent; the "
               f"first: {source.disagreements[0]}.")
    if source.kind == SESSION:
        yield f"No real tag was read: the dump is that of a tag played by the program {source.player}, from a session."
    if not source.builds:
        yield "Made from a listing of unknown origin: nothing on this page rests on a proof."
    elif not all_proved(source):
        yield "The programs used here are not a proved build: nothing on this page rests on a proof."


def all_proved(source):
    return source.builds and all(build.proved for build in source.builds)


def rows(source):
    """Pairs of a name and words."""
    if all_proved(source):
        yield "Proved", PROVED + PLAYED.get(source.player, "")
        yield "Tested", TESTED
        yield "Assumed", ASSUMED
    else:
        yield "Proved", NOTHING
    yield "Not proved", NOT_PROVED
    yield "Not shown", NOT_SHOWN


def mission_rows(registers, listing):
    """What a person asks of a mission; read out of the dump by the reader."""
    clock = date_of(registers.clock)
    resolution = "0.0625 °C an entry" if registers.entry_bytes == 2 else "0.5 °C an entry"
    if registers.entry_bytes == 2 and begins_coarsely(listing):
        resolution += ", 0.5 °C in entry 0, the alarm"
    yield "Sampling", f"{period_words(registers.period)}, {resolution}"
    yield "When the log is full", "the oldest entries are overwritten (rollover)" if registers.ro else "logging ends"
    yield "Start", "upon an alarm (SUTA)" if registers.suta else "at once, or after the delay that was set"
    yield "State", "the mission was still running" if registers.mip else "no mission was running any more"
    flags = [name for name, is_set in (("high (THF)", registers.thf), ("low (TLF)", registers.tlf)) if is_set]
    yield "Alarms marked by the tag", " and ".join(flags) or "none"
    yield "Counted", f"{registers.samples:,} in this mission, {registers.device_samples:,} in the tag's life"
    yield "The tag's clock as it was read", f"{clock:%Y-%m-%d %H:%M:%S}" if clock else "no date and time"
