"""include/bagtag.h: that it compiles without a warning, that its numbers are the library's, and what the library needs."""

import re
import shutil
import subprocess

import elf

from . import packed
from .builds import NAME, OWN_HEADERS, STRICT, TESTS, TOP, kit, succeeds
from .face import HEADER, RECORD

C, CPP = ("c99", "c11"), ("c++11", "c++17")
STANDARDS = C + CPP
INSTALLED = {"gcc": C, "clang": C, "g++": CPP, "clang++": CPP}  # where they are
# Twice, and the macro in use, of an expression too.
USED = b"""#include "bagtag.h"
#include "bagtag.h"
int next_sends(const uint8_t *records);
int next_sends(const uint8_t *records) { return BAGTAG_SENDS(records) || !BAGTAG_SENDS(records + BAGTAG_RECORD) ? 1 : 0; }
"""
PROVED = TOP / "crates" / "promises" / "specs" / "Library.antt"  # what is proved of the macro, by other words for it
# The numbers of the library's sources that the header says too: LIBRARY_NAME in tests/driver/sizes.c.
SOURCES = {"IMAGE": ("bagtag", "IMAGE"), "HEAD": ("bagtag", "HEAD"), "RECORD": ("packing", "RECORD"),
           "VERSION": ("packing", "VERSION"), "DUMP": ("dump", "LENGTH"), "PLACES": ("list", "PLACES")}
FROM_CPP = b"""#include "bagtag.h"
int main() { unsigned char image[1], record[1]; return bagtag_new(image, 1, record, 1, 0, 0x40) == BAGTAG_BAD_IMAGE ? 0 : 1; }
"""


def checks(builds):
    yield from compiled(builds)
    yield from sized(builds)
    yield from sending()
    yield from linked(builds)
    parts = sorted(packed.PARTS.values())
    yield "the parts of the header's record lie one behind the other", [0, *(end for _, end in parts)] == [
        *(start for start, _ in parts), RECORD], parts


def compiled(builds):
    yield from by("the kit's clang with our own stdint.h", builds.clang(*OWN_HEADERS, *builds.include), STANDARDS)
    for compiler, standards in INSTALLED.items():
        if shutil.which(compiler):
            yield from by(compiler, [compiler, *builds.include], standards)
            yield from by(f"{compiler} with our own stdint.h", [compiler, *OWN_HEADERS, *builds.include], standards)
        else:
            yield f"the header by {compiler}", None, f"there is no {compiler}"


def by(name, compiler, standards):
    for standard in standards:
        words = [f"-std={standard}", "-x", "c++" if standard in CPP else "c", *STRICT, "-fsyntax-only", "-"]
        yield f"the header as {standard}, by {name}", *tried([*compiler, *words], USED)


def tried(words, stdin):
    """Whether a compiler takes it without a word, and what it said."""
    ran = subprocess.run(words, input=stdin, stdout=subprocess.PIPE, stderr=subprocess.STDOUT, cwd=TOP)
    return ran.returncode == 0 and not ran.stdout, ran.stdout


# ---- Sizes ----

def number_in(crate, name):
    """A constant of a crate's source."""
    sources = (TOP / "crates" / crate / "src").glob("*.rt")
    found = re.findall(rf"(?m)^(?:pub )?const {name}: \w+ = (\d+);", "".join(map(lambda path: path.read_text("utf-8"), sources)))
    return int(found[0]) if len(found) == 1 else None


def sized(builds):
    """By static assertions, each of which must fail too, with another number."""
    numbers = {name: number_in(*place) for name, place in SOURCES.items()}
    for name, number in numbers.items():
        yield f"the library's number for {name} is found in its source", number is not None, SOURCES[name]
    if None in numbers.values():
        return
    yield "the header's numbers are the library's", *tried(asserting(builds, numbers), b"")
    for name in numbers:
        other = asserting(builds, {**numbers, name: numbers[name] + 1})
        yield f"another number for {name} is noticed", not succeeds(other), "the static assertions hold"


def asserting(builds, numbers):
    defines = [f"-DLIBRARY_{name}={number}" for name, number in numbers.items()]
    words = ("-std=c11", *STRICT, *builds.include, *defines, "-fsyntax-only", str(TESTS / "driver" / "sizes.c"))
    return builds.clang(*OWN_HEADERS, *words)


# ---- The macro ----

def sending():
    """BAGTAG_SENDS is what it is proved of: the same condition, on the same bytes of a record."""
    macro = re.search(r"#define BAGTAG_SENDS\(record\) ((?:.*\\\n)*.*)", HEADER.read_text("utf-8"))
    proved = re.search(r"(?m)^sends_by choosing stage =((?:\n .*)+)", PROVED.read_text("utf-8"))
    bytes_of = re.search(r"sends_by \(get_or lent (\d+) 0\) \(get_or lent (\d+) 0\)", PROVED.read_text("utf-8"))
    if not (macro and proved and bytes_of):
        yield "BAGTAG_SENDS and what is proved of it are found", False, (macro, proved, bytes_of)
        return
    ours = re.sub(r"\(record\)\[BAGTAG_AT_(CHOOSING|STAGE)\]", lambda part: part[1].lower(), macro[1].replace("\\\n", ""))
    others = re.sub(r"eqb (choosing|stage) (\d+)", r"(\1 == \2)", proved[1])
    yield "BAGTAG_SENDS is the condition that is proved", holding(ours) == holding(others), (ours, others)
    places = [packed.PARTS[part][0] for part in ("CHOOSING", "STAGE")]
    yield "it is proved of the bytes that it looks at", [*map(int, bytes_of.groups())] == places, bytes_of[0]


def holding(condition):
    """The first bytes of CHOOSING and STAGE that a condition, in the operators of C, holds of."""
    words = " ".join(condition.replace("||", " or ").replace("&&", " and ").split())
    holds = eval(f"lambda choosing, stage: {words}")
    return {(choosing, stage) for choosing in range(256) for stage in range(256) if holds(choosing, stage)}


# ---- Linking ----

def linked(builds):
    archiver, folder = builds.tools.tools / "bin" / "llvm-ar", builds.folder / "members"
    folder.mkdir()
    kit.call([archiver, "x", "--output", folder, builds.library])
    defined, wanted = map(set().union, *map(elf.symbols, folder.iterdir()))
    yield "the library has the header's six functions and no other", defined == {
        f"{NAME}_{name}" for name in ("new", "event", "events", "line_new", "line_event", "list")}, defined
    yield "it needs memcpy and memset alone", wanted - defined == {"memcpy", "memset"}, wanted - defined
    _, _, variables = elf.sizes(*folder.iterdir())
    yield "it has no variables", variables == 0, variables
    source = folder / "called.cpp"
    source.write_bytes(FROM_CPP)
    called = builds.tools.compile_c(source, folder / "called.o", "-x", "c++", *OWN_HEADERS, *builds.include)
    program = builds.tools.link(folder / "called", called, builds.library)
    yield "a program in C++ calls it", succeeds([*builds.tools.runner(), program]), "another status"
