"""Running the programs `play`, `shed` and `list`, or others in their place, and which builds of them there are."""

import hashlib
import os
import re
import subprocess
from collections import namedtuple

from . import MISUSED, REFUSED, Fault, Misuse, files, reason

TOP = os.path.dirname(os.path.dirname(os.path.dirname(os.path.realpath(__file__))))
RUN = os.path.join(TOP, "run")
PLAY, SHED, LIST = [RUN, "play"], [RUN, "shed"], [RUN, "list"]
REFUSAL = re.compile(rb"R([0-9]{2})\n")
BUILD = re.compile(r"run: (\w+): (\S+), (proved|NOT PROVED).*")

# proved: None of a program that is not ours
Build = namedtuple("Build", "program path proved digest")


def run(command, stdin):
    """What a program writes on its standard output; a refusal is among it."""
    try:
        done = subprocess.run(command, input=stdin, stdout=subprocess.PIPE)
    except OSError as error:
        raise Fault(f"can't run '{command[0]}': {reason(error)}") from None
    if done.returncode and not (done.returncode == REFUSED and refusal_in(done.stdout)):
        if os.path.realpath(command[0]) == RUN:  # our own script, which says why
            raise Misuse if done.returncode == MISUSED else Fault
        raise Fault(f"'{' '.join(command)}' ended with status {done.returncode}")
    return done.stdout


def refusal_in(output):
    """The number of the refusal with which a program's output ends, or None."""
    last = REFUSAL.fullmatch(output[-4:])
    return int(last[1]) if last and output[-5:-4] in (b"", b"\n") else None


def build_of(command):
    """Which build a command runs; ours is built where that is needed."""
    if [os.path.realpath(command[0]), *command[1:]] not in (PLAY, SHED, LIST):
        return Build(files.printable(" ".join(command)), None, None, None)
    said = BUILD.fullmatch(run([RUN, "--build", command[1]], b"").decode().strip())
    if not said:
        raise Fault(f"./run --build {command[1]} did not say which build there is")
    digest = hashlib.sha256(files.read(os.path.join(TOP, said[2]))).hexdigest()
    return Build(said[1], said[2], said[3] == "proved", digest)


def revision():
    """Of this repository, where git can tell."""
    try:
        said = subprocess.run(["git", "-C", TOP, "describe", "--always", "--dirty"], stdin=subprocess.DEVNULL,
                              stdout=subprocess.PIPE, stderr=subprocess.DEVNULL)
    except OSError:
        return "unknown"
    return said.stdout.decode("ascii", "replace").strip() or "unknown"
