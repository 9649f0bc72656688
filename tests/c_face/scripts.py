"""The script lib, and the commands of examples/c/README.md as they stand there."""

import os
import platform
import re
import shutil
import subprocess
import sys
import tempfile

from .builds import EXAMPLES, TOP

LIB = TOP / "lib"
MADE = "target/unproved/libbagtag.a"
TIMEOUT = 120


def ran(words, cwd=TOP, **how):
    """The status, and what came on standard output and standard error."""
    done = subprocess.run(words, cwd=cwd, stdin=subprocess.DEVNULL, stdout=subprocess.PIPE, stderr=subprocess.PIPE, text=True,
                          timeout=TIMEOUT, **how)
    return done.returncode, done.stdout, done.stderr


def checks():
    yield from asked()
    yield from read()


def asked():
    with tempfile.TemporaryDirectory() as elsewhere:
        status, out, _ = ran([LIB, "--unproved"], cwd=elsewhere)
    said = (f"lib: library: {MADE}, NOT PROVED", "lib: header: include/bagtag.h", f"cc -Iinclude -o PROGRAM PROGRAM.c {MADE}")
    yield "lib --unproved says where library and header are", status == 0 and all(part in out for part in said), (status, out)
    yield "the library is there", (TOP / MADE).exists(), MADE
    status, out, err = ran([LIB, "--help"])
    yield "lib --help", (status, err) == (0, "") and "--unproved" in out, (status, out, err)
    without = {**os.environ, "PATH": os.devnull, "RATTLE_HOME": ""}
    call = [sys.executable, LIB]  # without env, which a path that leads nowhere does not find
    for name, expected, result in (
            ("a word that is none", 2, ran([*call, "--proved"])), ("two words", 2, ran([*call, "--unproved", "x"])),
            ("no kit", 3, ran([*call, "--unproved"], env=without)), ("no kit to prove with", 3, ran(call, env=without)),
            ("no room to write", 3, ran(f"'{LIB}' --help > /dev/full", shell=True))):
        status, out, err = result
        yield f"lib with {name}", (status, out, err.count("\n")) == (expected, "", 1), result


def read():
    """The commands of the page, which need a cc; each is run as it stands."""
    if platform.machine() != "x86_64" or not shutil.which("cc"):
        yield "the commands of examples/c/README.md", None, "there is no cc for x86-64"
        return
    commands = re.findall(r"(?m)^    (\S.*)$", (EXAMPLES / "README.md").read_text("utf-8"))
    yield "examples/c/README.md has commands", len(commands) > 5, commands
    for command in commands:
        status, out, err = ran(command, shell=True)
        yield f"examples/c/README.md: {command}", status == 0, (status, out[-300:], err[-300:])
