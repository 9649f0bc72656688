"""Bad input to `reader` and `run`: each ends with its status and one clear line, and leaves no file behind."""

import os
import shutil
import stat
import sys
import tempfile

from .common import (DONE, FAILED, LANDING, MISUSED, NEW_TAG, READER, REFUSED, RUN, TOP, content, leftovers, listing, one_line,
                     start)

# What is given to `reader play`, the status and what the line says.
SESSION_FAULTS = (
    ("", MISUSED, "no frame"),
    ("# only a comment\n\n", MISUSED, "no frame"),
    ("04 40 41\n", MISUSED, "line 1: frame 04 takes 9 bytes"),
    ("00\n", MISUSED, "line 1: the first frame is 04"),
    (NEW_TAG + "01 C\n", MISUSED, "line 2: '01 C' is not pairs"), (NEW_TAG + "01 GG\n", MISUSED, "line 2: '01 GG' is not pairs"),
    (NEW_TAG + "\n07 00\n", MISUSED, "line 3: 07 is no frame"), (NEW_TAG + "?? 00\n", MISUSED, "line 2: ?? is no frame"),
    (NEW_TAG + "06\n", MISUSED, "06 is no frame: 00 reset, 01 write, 02 read, 03 tick, 04 new tag, 05 short reset"),
    ("05\n", MISUSED, "line 1: the first frame is 04"), ("05 40 412BC5FB000000A1\n", MISUSED, "line 1: the first frame is 04"),
    (NEW_TAG + "05 11\n", MISUSED, "line 2: frame 05 takes no bytes"), (NEW_TAG + "05 0000\n", MISUSED, "and here are 2"),
    (NEW_TAG + "05 ??\n", MISUSED, "line 2: ?? is for bytes read"), (NEW_TAG + "05 x0\n", MISUSED, "line 2: x0 times"),
    (NEW_TAG + "01\n", MISUSED, "line 2: frame 01 takes one byte"),
    (NEW_TAG + "02\n", MISUSED, "line 2: frame 02 takes one byte"),
    (NEW_TAG + "00 11\n", MISUSED, "line 2: frame 00 takes no bytes"),
    (NEW_TAG + "01 ??\n", MISUSED, "line 2: ?? is for bytes read"),
    (NEW_TAG + "03 0800\n", MISUSED, "line 2: the reading 0800 is above 07FF"),
    (NEW_TAG + "03 07\n", MISUSED, "line 2: frame 03 takes 2 bytes"), (NEW_TAG + "03 0100 x0\n", MISUSED, "line 2: x0 times"),
    (NEW_TAG + "03 0100 x999999999\n", MISUSED, "more than 20,000,000 events"),
    (NEW_TAG + "03 0100 x\n", MISUSED, "is not pairs"),
    ("04 40 412BC5FB000000A1 x2\n", MISUSED, "line 1: a new tag comes once"), (NEW_TAG + "01 \udcff\n", MISUSED, "is not text"),
    ("04 40 412BC5FB000000A2\n", REFUSED, "line 1: the tag refused with 04"),
    ("04 41 412BC5FB000000A1\n", REFUSED, "line 1: the tag refused with 05"),
    (NEW_TAG + "00\n01 33\n02 41 2C\n", REFUSED, "line 4, byte 2 read: the tag sent 2B, the session says 2C"),
)
# What is given to `reader table`, `picture` and `report`.
LISTING_FAULTS = (
    ("", MISUSED, "is no session, dump or listing: it is empty"), ("\n  \n", MISUSED, "it is empty"),
    ("hello\n", MISUSED, "is no session, dump or listing: it begins with 'hello'"),
    ("a\0b\x1b[31m\n", MISUSED, "it begins with 'a\\x00b"), ("05\n" + NEW_TAG, MISUSED, "it begins with '05'"),
    ("R07\n", REFUSED, "refused the dump with 07: the dump is not 18,834 bytes"),
    ("R10\n", REFUSED, "refused the dump with 10: the tag's memory is cleared"), ("R11\n", REFUSED, "refused the dump with 11"),
    ("50000000000000000000AB\n", MISUSED, "is no session"), ("400000000100300512112\n", MISUSED, "line 1: not a listing"),
    (listing((0, 0, 0)) + "00\n", MISUSED, "its first line says 1 entry, and it has 2"),
    (listing((0, 0, 0))[:-1], MISUSED, "its first line says 1 entry, and it has 0"),
    (listing((0, 0, 0))[:-3] + "zz\n", MISUSED, "line 2: not an entry"),
    (NEW_TAG + "00\n01 33\n02 41 2C\n", REFUSED, "refused the dump with 11: it can't be of a mission: its sample rate is 0; "),
)
# Words of a command, which gets a new tag and a reset as standard input.
WORDS = (
    ([READER], MISUSED, "say a command"), ([READER, "fly"], MISUSED, "there is no command 'fly'; there are: show"),
    ([READER, "play"], MISUSED, "required: SESSION"),
    ([READER, "table", "--hgih", "3"], MISUSED, "unrecognized arguments: --hgih"),
    ([READER, "play", "a", "b\nc"], MISUSED, "unrecognized arguments: b\\nc"),
    ([READER, "play", "nowhere.session"], FAILED, "can't read nowhere.session: no such file"),
    ([READER, "table", "nowhere\n.dump"], FAILED, "can't read nowhere\\n.dump: no such file"),
    ([READER, "play", TOP], FAILED, "is a directory"),
    ([READER, "table", "/dev/zero"], MISUSED, "/dev/zero is longer than any session, dump or listing"),
    ([READER, "play", "-", "--play", "/nowhere/play"], FAILED, "can't run '/nowhere/play': no such file"),
    ([READER, "play", "-", "--play", "false"], FAILED, "'false' ended with status 1"),
    ([READER, "play", "-", "--play", ""], MISUSED, "--play: the command is empty"),
    ([READER, "play", "-", "--play", "'"], MISUSED, "--play: no closing quotation"),
    ([READER, "play", "-", "--play", "./run nothing"], MISUSED, "run: there is no program 'nothing'"),
    ([READER, "play", "-", "--play", "echo"], FAILED, "did not answer each of the 1 events"),
    ([READER, "play", "-", "--play", "printf '\\n1'"], FAILED, "did not answer each of the 1 events"),
    ([READER, "play", "-", "--play", "echo R99"], REFUSED, "line 1: the tag refused with 99: no known refusal"),
    ([READER, "play", "-", "--play", "echo R01"], REFUSED, "line 2: the tag refused with 01: an event code above 4"),
    ([READER, "table", "examples/landing.dump", "--list", "echo 41"], FAILED, "what 'echo 41' printed for examples/landing.dump"),
    ([READER, "play", "-", "-o", "/nowhere/out"], FAILED, "can't write /nowhere/out: no such file"),
    ([READER, "play", "-", "-o", TOP], FAILED, "is a directory"),
    ([READER, "show", *LANDING, "-o", os.path.join(READER, "x")], FAILED, "can't make the folder"),
    ([READER, "dump", "-", "-p", "short"], MISUSED, "a password is 16 hexadecimal digits or 8 characters"),
    ([READER, "dump", "-", "-p", "zz4E535045435431"], MISUSED, "a password is 16 hexadecimal digits or 8 characters"),
    ([READER, "dump", "-", "--password-file", "/nowhere"], FAILED, "can't read /nowhere: no such file"),
    ([READER, "dump", "-", "--password-file", "README.md"], MISUSED, "README.md, line 1: a password is 16"),
    ([READER, "dump", "-", "-p", "INSPECT1", "--password-file", "x"], MISUSED, "--password or --password-file, not both"),
    ([READER, "dump", "examples/landing.session", "-p", "WRONGPW1"], REFUSED, "did not give page 0200h: is the password right?"),
    ([READER, "show", "-"], REFUSED, "refused the dump with 11"),
    ([READER, "table", "-", "--high", "hot"], MISUSED, "'hot' is not a temperature"),
    ([READER, "table", "-", "--high", "nan"], MISUSED, "'nan' is not a temperature"),
    ([READER, "table", "-", "--high", "inf"], MISUSED, "'inf' is not a temperature"),
    ([READER, "table", "-", "--low", "1.25"], MISUSED, "'1.25' is not a temperature in whole or half degrees"),
    ([READER, "table", "-", "--low", "5", "--high", "4.5"], MISUSED, "--low is above --high"),
    ([READER, "table", "examples/landing.dump", "--low", "11"], MISUSED, "threshold, 11.0 °C, is above the high one, 10.0 °C"),
    ([READER, "table", "-", "--zone", "Nowhere/There"], MISUSED, "'Nowhere/There' is no zone"),
    ([READER, "table", "-", "--zone", "UTC+25:00"], MISUSED, "is no zone"),
    ([READER, "table", "-", "--zone", "../x"], MISUSED, "is no zone"),
    ([READER, "table", "-", "--rom", "412BC5FB000000A2"], MISUSED, "is no registration number"),
    ([READER, "table", "-", "--rom", "41"], MISUSED, "is no registration number"),
    ([READER, "table", *LANDING, "--rom", "41000000000000FA"], MISUSED, "--rom is 41000000000000FA, and the session's tag 412BC"),
    ([READER, "table", "-", "--csv", "--json"], MISUSED, "not allowed with argument --csv"),
    ([READER, "mend", "examples/landing.dump"], MISUSED, "required: -o/--output"),
    ([READER, "mend", "examples/landing.dump", "-o", "examples/../examples/landing.dump"], MISUSED, "NEW is the same file"),
    ([READER, "mend", "examples/landing.session", "-o", "/nowhere/x"], MISUSED, "examples/landing.session is no dump"),
    ([RUN], MISUSED, "say a program"), ([RUN, "nothing"], MISUSED, "there is no program 'nothing'"),
    ([RUN, "../play"], MISUSED, "there is no program"), ([RUN, "--fast", "list"], MISUSED, "there is no option '--fast'"),
    ([RUN, "--build"], MISUSED, "say a program"), ([RUN, "--build", "play", "nothing"], MISUSED, "there is no program 'nothing'"),
    ([RUN, "--proved"], MISUSED, "say a program"),
)


def told():
    cases = [([READER, "play", "-"], *case) for case in SESSION_FAULTS]
    cases += [([READER, word, "-"], *case) for case in LISTING_FAULTS for word in ("table", "picture", "report")]
    cases += [(words, NEW_TAG + "00\n", status, says) for words, status, says in WORDS]
    for words, stdin, status, says in cases:
        yield f"{words} with {stdin[:60]!r}", *one_line(start(words, stdin), status, says)


# ---- Where what is written goes ----

WRITING = ([READER, "show", *LANDING], [READER, "table", "examples/landing.dump"], [READER, "picture", "examples/landing.dump"],
           [READER, "report", "examples/landing.dump"], [READER, "play", "examples/setup.session"],
           [READER, "record", "examples/setup.session"], [READER, "dump", *LANDING], [READER, "--help"],
           [READER, "show", "--help"], [READER, "--version"], [RUN, "--help"], [RUN, "--version"], [RUN, "--build", "list"],
           [RUN, "list"])


def nowhere_to_write():
    """A full disk and a closed output are told by every command, with status 3 and no traceback; a closed input by run."""
    dump = content("examples", "landing.dump")
    for words in WRITING:
        with open("/dev/full", "wb") as full, tempfile.TemporaryDirectory() as folder:
            words = [*words, "-o", folder] if words[:2] == [READER, "show"] else words
            yield f"{words} to a full disk", *one_line(start(words, dump, stdout=full), FAILED, "can't write")
            closed = ["bash", "-c", 'exec "$@" >&-', "bash", *words]
            yield f"{words} to a closed output", *one_line(start(closed, dump), FAILED, "standard output")
    for words, says in (([RUN, "list"], "standard input is closed"), ([READER, "table", "-"], "standard input: it is closed")):
        done = start(["bash", "-c", 'exec "$@" <&-', "bash", *words])
        yield f"{words} from a closed input", *one_line(done, FAILED, says)
    done = start(["bash", "-c", 'exec "$@" 2>&-', "bash", READER, "table", "nowhere"])
    yield "a fault with nobody to tell", done.returncode == FAILED and done.stdout == b"", (done.returncode, done.stdout)


def closed_pipe():
    """Whoever reads our output goes away: no traceback, and no word."""
    text = listing(*((k, 60 * k, k % 700) for k in range(8192)))
    for words in ([READER, "table", "-"], [RUN, "list"]):
        stdin = text if words[0] == READER else content("examples", "landing.dump")
        reading, writing = os.pipe()
        os.close(reading)
        done = start(words, stdin, stdout=writing)
        os.close(writing)
        yield f"{words} into a closed pipe", (done.returncode, done.stderr) == (FAILED, b""), (done.returncode, done.stderr)


def whole_or_not():
    """A refusal leaves no file, and a file that was there as it was; a device is written to, never replaced."""
    with tempfile.TemporaryDirectory() as folder:
        path = os.path.join(folder, "out")
        refused = (["table"], ["picture"], ["report"])
        for words in refused:
            start([READER, *words, "-o", path], "R07\n")
            yield f"{words} refused, its file", leftovers(folder) == [], leftovers(folder)
        with open(path, "w", encoding="ascii") as file:
            file.write("before")
        os.chmod(path, 0o604)
        start([READER, "picture", "-o", path], "R07\n")
        yield "a refusal, the file from before", content(path) == b"before", content(path)
        no_room = ["bash", "-c", 'ulimit -f 4; exec "$@"', "bash"]  # files of 4,096 bytes at most
        done = start([*no_room, READER, "picture", "-o", path, "examples/landing.dump"])
        yield "no room for the whole", *one_line(done, FAILED, f"can't write {path}: file too large")
        yield "no room, the file from before", content(path) == b"before" and leftovers(folder) == ["out"], leftovers(folder)
        done = start([READER, "picture", "-o", path, "examples/landing.dump"])
        kept = stat.S_IMODE(os.stat(path).st_mode) == 0o604 and leftovers(folder) == ["out"]
        yield "a file written anew", done.returncode == DONE and content(path).startswith(b"<svg") and kept, leftovers(folder)
        link = os.path.join(folder, "link")
        os.symlink("/dev/null", link)
        done = start([READER, "picture", "-o", link, "examples/landing.dump"])
        kept = stat.S_ISCHR(os.stat("/dev/null").st_mode) and os.path.islink(link)
        yield "a device", done.returncode == DONE and kept, done.stderr
        done = start([READER, "picture", "-o", "/dev/full", "examples/landing.dump"])
        yield "a full device", *one_line(done, FAILED, "can't write /dev/full: no space left")


def disagreements():
    """A session whose reads are not what the tag sends: every command that plays it says so and ends with 1."""
    wrong = content("examples", "landing.session") + b"00\n01 33\n02 41 2C C5\n"
    for word in ("show", "table", "picture", "report", "dump"):
        with tempfile.TemporaryDirectory() as folder:
            where = ["-o", folder] if word == "show" else []
            done = start([READER, word, "-", "-p", "INSPECT1", *where], wrong)
            yield f"{word}, a session that is not as recorded", *one_line_among(done, "the tag sent 2B, the session says 2C")
            yield f"{word}, what it writes all the same", len(done.stdout) > 1000, done.stdout[:200]
            if word in ("table", "report"):
                yield f"{word} says so itself", b"of its bytes differ from what the tag sent" in done.stdout, done.stdout[:600]
    many = content("examples", "landing.session") + b"00\n01 33\n02 " + b"00 " * 20 + b"\n"
    said = start([READER, "table", "-", "-p", "INSPECT1"], many).stderr.decode().count("the session says")
    yield "many such bytes are not all told", said == 10, said


def unrecorded():
    """A recording has no frame for a short reset: the first is told, before anything is played, and nothing is written."""
    session = NEW_TAG + "00\n01 3C\n\n05\n01 33\n02 00\n05 x2\n"
    with tempfile.TemporaryDirectory() as folder:
        words = ["-", "--play", f"touch {os.path.join(folder, 'played')}"]
        for where in ([], ["-o", os.path.join(folder, "out")]):
            done = start([READER, "record", *words, *where], session)
            yield f"record {where}, a short reset", *one_line(done, MISUSED, "standard input, line 5: a short reset (05), which")
            left = done.stdout, leftovers(folder)
            yield f"record {where}, a short reset, what is left", left == (b"", []), left
        start([READER, "play", *words], session)
        yield "play, a short reset, is played", leftovers(folder) == ["played"], leftovers(folder)


def one_line_among(done, says):
    lines = [line for line in done.stderr.decode().split("\n") if says in line]
    return done.returncode == REFUSED and len(lines) == 1, (done.returncode, done.stderr[-300:])


def kitless():
    """Without the kit, and with one that is named and not there."""
    path = {**os.environ, "PATH": "/usr/bin:/bin"}
    path.pop("RATTLE_HOME", None)
    words = ([RUN, "play"], [sys.executable, READER, "play", "examples/setup.session"],
             [sys.executable, READER, "show", "examples/setup.session"])
    if shutil.which("rt", path=path["PATH"]):
        yield "the tools without the kit", None, "rt stands in a folder of the system"
    else:
        for command in words:
            yield f"{command[-2:]} without the kit", *one_line(start(command, env=path), FAILED, "the Rattle kit is missing")
    for home, says in (("/nowhere", "names /nowhere, and there is no such folder"), (TOP, "which is no Rattle kit")):
        for command in words:
            done = start(command, env={**os.environ, "RATTLE_HOME": home})
            yield f"{command[-2:]} with the kit in {home}", *one_line(done, FAILED, says)


def checks():
    for group in (told, nowhere_to_write, closed_pipe, whole_or_not, disagreements, unrecorded, kitless):
        yield from group()
