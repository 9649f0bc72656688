"""The reader's commands, and what a person is told when one can't be done."""

import os
import sys
from collections import namedtuple

from . import DONE, DUMP, FAILED, REFUSED, SESSION, Fault, Misuse
from . import dumps, export, files, line, listing, mend, options, password, picture, programs, report, sessions, source, table, take, view
from .files import say

MOST_TOLD = 10  # of the bytes that are not as a session says

USAGE = """reader COMMAND ..      (nothing of the reader is proved; the programs play, shed and list that it drives are, by .ci/run)

{commands}

FILE is a session, a dump, or a listing (what the program list prints), which show, table, picture and report tell apart; - is
standard input.
reader COMMAND --help says what else a command takes; reader --version which revision this is.
Exit status of every command: 0 done; 1 refused, by the tag or the dock; 2 used wrongly; 3 could not be done.
docs/READER.md says more; examples/README.md has sessions and how they are written."""


# ---- Commands ----

def session(given):
    """A session's name, its text and its frames."""
    name = files.name_of(given.file)
    text = files.text_of(files.read(given.file), name)
    return name, text, sessions.parse(text, name)


def player(given, frames):
    """The command that plays a session: that for one tag, or for several."""
    return getattr(given, sessions.player_of(frames))


def judged(name, wrong):
    """Whether the tag sent every byte that the session gives; wrong has a sentence for each other one, and the first are told."""
    for sentence in wrong[:MOST_TOLD]:
        say(f"{name}, {sentence}")
    if len(wrong) > MOST_TOLD:
        say(f"{name}: and {len(wrong) - MOST_TOLD:,} other bytes read")
    return REFUSED if wrong else DONE


def play(given):
    name, text, frames = session(given)
    answers = line.play(player(given, frames), frames, name)
    files.write(given.output, sessions.filled(text, frames, answers))
    return judged(name, sessions.disagreements(frames, answers))


def record(given):
    name, _, frames = session(given)
    sessions.check_recordable(frames, name)
    answers = line.play(given.play, frames, name)
    files.write(given.output, "".join(sessions.strict(frames, answers)))
    return judged(name, sessions.disagreements(frames, answers))


def take_dump(given):
    with take.Slave(given.file) as slave:
        text = take.dump(slave, password.ask(given), say)
    files.write(given.output, text)
    say(f"{slave.name}: all {len(line.PAGES)} pages; its number, by the kernel's word: --rom {slave.rom.hex().upper()}")
    return DONE


def dump(given):
    name, _, frames = session(given)
    place = sessions.place_in(frames, given.place, name)
    text, answers = line.take_dump(player(given, frames), frames, password.ask(given), name, place)
    files.write(given.output, text)
    return judged(name, sessions.disagreements(frames, answers))


def seen(given):
    """What a file holds, and how it is to be shown."""
    found = source.load(given)
    return found, view.View(found.listing, given.fahrenheit, given.zone, given.clock)


def print_table(given):
    found, how = seen(given)
    make = export.csv_text if given.csv else export.json_text if given.json else table.table
    files.write(given.output, make(found, how))
    return judged(found.name, found.disagreements)


def draw(given):
    found, how = seen(given)
    files.write(given.output, picture.svg(found, how))
    return judged(found.name, found.disagreements)


def make_report(given):
    found, how = seen(given)
    files.write(given.output, report.html(found, how, given.note))
    if given.output:
        say(f"wrote {given.output}: open it in a browser, and print it from there")
    return judged(found.name, found.disagreements)


def show(given):
    """The main job, with every step told on standard error; the table alone goes to standard output."""
    found, how = seen(given)
    whole = table.table(found, how)
    parts = {"listing": found.listed, "table": whole, "svg": picture.svg(found, how), "html": report.html(found, how, given.note)}
    if found.kind == SESSION:
        parts["dump"] = found.dump.decode("ascii")
    paths = save(given.output or os.path.join(programs.TOP, "target", "shown"), given.file, parts)
    if len(found.listing.entries) > table.MOST_ROWS:
        whole = f"{table.table(found, how, rows=False)}\nAll {len(found.listing.entries):,} rows: {paths['table']}\n"
    files.write(None, whole)
    say(f"the picture is {paths['svg']}, the page for an inspector {paths['html']}: open them in a browser")
    return judged(found.name, found.disagreements)


def save(folder, path, parts):
    """Writes each part beside the others, by the file's name and its own; returns the paths."""
    files.make_folder(folder)
    name = "shown" if path == files.STANDARD else os.path.splitext(os.path.basename(path))[0]
    paths = {ending: files.short(os.path.join(folder, f"{name}.{ending}")) for ending in parts}
    for ending, text in parts.items():
        files.write(paths[ending], text)
    return paths


def mend_dump(given):
    """What was taken away is told, and then the dock's word on what is left, which is the program's."""
    data, name = files.read(given.file), files.name_of(given.file)
    if files.is_same(given.file, given.output):
        raise Misuse("NEW is the same file: a dump as it came is evidence, and stays")
    if source.kind_of(data, name) != DUMP:
        raise Misuse(f"{name} is no dump")
    mended, found = mend.mended(data)
    files.write_bytes(given.output, mended)
    for sentence in found:
        say(f"{name}: mended: {sentence}")
    if not found:
        say(f"{name}: nothing that an editor or a mail program adds: the new file is the same")
    number = programs.refusal_in(programs.run(given.list_, mended))
    if number:
        raise listing.refused(f"{name} as mended", number, dumps.explain(number, mended))
    say(f"{name}: the dock takes it as mended")
    return DONE


# ---- The command line ----

# What does it, what it takes ([FILE]: or standard input), what it is for, and its options by groups (options.py).
Command = namedtuple("Command", "does takes about groups")
COMMANDS = {
    "show": Command(show, "[FILE]", "all of it: prints the table, writes the picture and the page for an inspector",
                    (options.secret, options.seen, options.note, options.folder)),
    "table": Command(print_table, "[FILE]", "the table alone, or CSV or JSON",
                     (options.secret, options.seen, options.exports, options.output)),
    "picture": Command(draw, "[FILE]", "the picture alone, SVG", (options.secret, options.seen, options.output)),
    "report": Command(make_report, "[FILE]", "one page for an inspector, HTML, for screen and paper",
                      (options.secret, options.seen, options.note, options.output)),
    "mend": Command(mend_dump, "[DUMP]", "takes away what a text editor or a mail program added to a dump, and nothing else",
                    (options.new_file, options.list_program)),
    "play": Command(play, "SESSION", "plays a session to new tags and prints it with the bytes read filled in",
                    (options.output, options.play_program, options.shed_program)),
    "record": Command(record, "SESSION", "the same of one tag, in the strict form of a recording, which has no short reset",
                      (options.output, options.play_program)),
    "take": Command(take_dump, "DEVICE", "reads a real tag's dump through the kernel's 1-Wire files (docs/TAKE.md)",
                    (options.secret, options.output)),
    "dump": Command(dump, "SESSION", "plays a session, then reads the dump over the line, by Read Memory",
                    (options.secret, options.place, options.output, options.play_program, options.shed_program)),
}


def usage():
    return USAGE.format(commands="\n".join(
        f"  {f'{name} {command.takes}':<28} {command.about}" for name, command in COMMANDS.items()))


def perform(words):
    """Does what the words say; the exit status."""
    if not words:
        raise Misuse(f"say a command: {', '.join(COMMANDS)} (reader --help says more)")
    if words[0] in ("-h", "--help", "help"):
        files.write(None, usage() + "\n")
        return DONE
    if words[0] == "--version":
        files.write(None, f"reader of Xolqinda, revision {programs.revision()}, not proved; Python {sys.version.split()[0]}\n")
        return DONE
    command = COMMANDS.get(words[0])
    if not command:
        raise Misuse(f"there is no command '{words[0]}'; there are: {', '.join(COMMANDS)}")
    return command.does(options.parse(words[0], command, words[1:]))


def main(words):
    """The exit status, with every fault told in one line."""
    files.hold_descriptors()
    try:
        return perform(words)
    except Fault as fault:
        if fault.args:
            say(str(fault))
        return fault.status
    except KeyboardInterrupt:
        say("stopped")
        return FAILED
