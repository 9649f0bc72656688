"""`.ci/run`, with scripts and a kit in the place of the real ones: what fails stops it, and rt ci's last line is its last."""

import os
import re
import shutil
import stat
import tempfile

from .common import DONE, TOP, start

with open(os.path.join(TOP, ".ci", "run"), encoding="utf-8") as file:
    SCRIPTS = re.findall(r"(?m)^without_proof (\S+)", file.read())
DUE = {"tests/determinacy", "tests/examples", "tests/tools", "tests/take", "tests/run", "tests/lists", "tests/lines", "tests/library",
       "chip/test"}


def make(folder, path, text):
    path = os.path.join(folder, path)
    os.makedirs(os.path.dirname(path), exist_ok=True)
    with open(path, "w", encoding="ascii") as file:
        file.write(f"#!/bin/sh\n{text}\n")
    os.chmod(path, stat.S_IRWXU)


# What rt ci prints where all is proved, with the words of its edits.
PASSED = "rt: ok; handles allowed: none; must-fail edits: {}; every proof and must-fail edit was done in this run"


def gate(failing, proofs="echo '7 passed, 0 failed'; exit 4"):
    """With one of the scripts failing, or none: the status, the lines, and whether it came to the proofs."""
    with tempfile.TemporaryDirectory() as folder:
        os.mkdir(os.path.join(folder, ".ci"))
        shutil.copy(os.path.join(TOP, ".ci", "run"), os.path.join(folder, ".ci", "run"))
        for script in SCRIPTS:
            make(folder, script, "echo '1 passed, 0 failed'; exit " + ("1" if script == failing else "0"))
        make(folder, "run", "echo built; exit " + ("1" if failing == "run" else "0"))
        make(folder, "bin/rt", f"[ \"$*\" = ci ] || exit 9; touch proved; {proofs}")
        path = f"{os.path.join(folder, 'bin')}:{os.environ['PATH']}"
        done = start([os.path.join(folder, ".ci", "run")], cwd="/", env={**os.environ, "PATH": path, "CI": "true"})
        return done.returncode, done.stdout.decode().split("\n")[:-1], os.path.exists(os.path.join(folder, "proved"))


def edits():
    """rt ci passes with bad edits and says so; the gate fails, and rt ci's last line is its last all the same."""
    for words, bad in (("31 refused", None), ("31 refused, 0 bad", None), ("29 refused, 2 bad", 2), ("0 refused, 12 bad", 12),
                       ("28 refused, 1 of them only by a limit, 3 bad", 3)):
        status, lines, proved = gate(None, f"echo '{PASSED.format(words)}'; echo '7 passed, 0 failed'")
        told = f"gate: FAILED: of the must-fail edits {bad} are bad: they could not be tried"
        right = (status != DONE, told in lines, lines[-1], proved) == (bool(bad), bool(bad), "7 passed, 0 failed", True)
        yield f"the gate, must-fail edits: {words}", right, (status, lines)
    status, lines, proved = gate(None, "exit 2")
    yield "the gate, rt ci that says nothing", (status, proved) == (2, True), (status, lines)


def checks():
    yield "the gate runs what it should", DUE <= set(SCRIPTS), SCRIPTS
    yield from edits()
    status, lines, proved = gate(None)
    yield "the gate, all well", (status, lines[-1], proved) == (4, "7 passed, 0 failed", True), (status, lines)
    yield "the gate, its lines have names", all(line.startswith(("gate: ", "tests/", "chip/")) for line in lines[:-1]), lines
    for script in SCRIPTS:
        status, lines, proved = gate(script)
        right = status != DONE and lines[-1] == f"gate: FAILED: {script}, before anything was proved" and not proved
        yield f"the gate, {script} failing", right, (status, lines, proved)
    status, lines, proved = gate("run")
    yield "the gate, a build failing", status != DONE and lines[-1] == "gate: built" and not proved, (status, lines, proved)
