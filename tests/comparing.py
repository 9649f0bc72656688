"""What the scripts share that hold a program against the model: the words of their options, running a program, and what is shown of
a difference."""

import argparse
import os
import select
import shlex
import signal
import subprocess
import sys

SHOWN = 1500  # characters of events shown of a failure
TIMEOUT = 120
PIPE_TIMEOUT = 10  # for an answer that should come at once


# ---- Options ----

class Arguments(argparse.ArgumentParser):
    def error(self, message):
        fail(message)


def fail(message):
    """One line, never a traceback."""
    print(f"{os.path.basename(sys.argv[0])}: {message}", file=sys.stderr)
    sys.exit(2)


def count(text):
    if not text.isdecimal():
        raise argparse.ArgumentTypeError(f"'{text}' is not a number")
    return int(text)


def command(text):
    try:
        words = shlex.split(text)
    except ValueError as error:
        raise argparse.ArgumentTypeError(f"'{text}' can't be split into words: {error}")
    if not words:
        raise argparse.ArgumentTypeError("the command is empty")
    return words


def folder(text):
    if not os.path.isdir(text):
        raise argparse.ArgumentTypeError(f"no folder '{text}'")
    return text


# ---- A program ----

def begin(words):
    try:
        return subprocess.Popen(words, stdin=subprocess.PIPE, stdout=subprocess.PIPE, stderr=subprocess.DEVNULL, bufsize=0,
                                start_new_session=True)
    except OSError as error:
        fail(f"can't run '{words[0]}': {error.strerror}")


def end(process):
    """It and what it started: ./run is a script that starts the program. Gives what it had written."""
    os.killpg(process.pid, signal.SIGKILL)
    return process.communicate()[0]


def answer(words, stdin):
    """What the program wrote, and a word on how it ended if that was not by itself."""
    process = begin(words)
    try:
        output = process.communicate(stdin, timeout=TIMEOUT)[0]
    except subprocess.TimeoutExpired:
        return end(process), f"stopped after {TIMEOUT} seconds"
    return output, f"ended by signal {-process.returncode}" if process.returncode < 0 else ""


def read_soon(process, length):
    """As many bytes, or fewer if they don't come in time."""
    got = b""
    while len(got) < length and select.select([process.stdout], [], [], PIPE_TIMEOUT)[0]:
        part = process.stdout.read(length - len(got))
        if not part:
            break
        got += part
    return got


# ---- A difference ----

def first_difference(expected, got):
    """The number of the first line that differs, and the two lines, None where one has ended."""
    lines = expected.split(b"\n"), got.split(b"\n")
    at = next((i for i, (one, other) in enumerate(zip(*lines)) if one != other), min(map(len, lines)))
    return at, *(part[at][:80].decode("ascii", "backslashreplace") if part[at:] not in ([], [b""]) else None
                 for part in lines)


def event_words(events):
    """Events in short, each a code, a reading and what is shown behind it: R a reset, r a short one, t672 a tick, 8 slots a byte in
    hexadecimal, fewer as b and the bits in order."""
    words, bits = [], ""
    for code, reading, behind in events:
        bits += str(code) if code <= 1 else ""
        if bits and (code > 1 or len(bits) == 8):
            words.append(f"{int(bits[::-1], 2):02X}" if len(bits) == 8 else "b" + bits)
            bits = ""
        if code > 1:
            words.append({2: "R", 3: f"t{reading}{behind}", 4: "r"}.get(code, f"code{code}/{reading}{behind}"))
    return words + ["b" + bits] if bits else words


def shown(words):
    text = " ".join(words) or "none"
    return text if len(text) <= SHOWN else "... " + text[-SHOWN:]


def save(options, name, data):
    """Where that is asked for; says where."""
    if options.save:
        path = os.path.join(options.save, name)
        with open(path, "wb") as file:
            file.write(data)
        print(f"  its input is in {path}")
