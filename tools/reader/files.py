"""Files in and out: read whole, and written whole or not at all."""

import os
import sys
import tempfile

from . import Fault, Misuse, reason

STANDARD = "-"  # as a file's name: standard input or output
LARGEST = 256 << 20  # bytes; the recording of the largest session has fewer


def hold_descriptors():
    """A closed standard input, output or error is filled up, so that no file of ours takes its place."""
    for number in range(3):
        try:
            os.fstat(number)
        except OSError:
            os.open(os.devnull, os.O_RDWR)


def printable(text):
    """In one line, whatever a file's name or a word of the command line has in it."""
    return "".join(c if c.isprintable() else c.encode("unicode_escape", "surrogatepass").decode() for c in text)


def say(text):
    """To a person, on standard error, where there is one."""
    try:
        if sys.stderr:
            print(f"reader: {printable(text)}", file=sys.stderr, flush=True)
    except OSError:
        pass  # nobody can be told


# ---- In ----

def name_of(path):
    return "standard input" if path == STANDARD else printable(path)


def read(path):
    """The bytes of a file or of standard input."""
    if path == STANDARD and not sys.stdin:
        raise Fault("can't read standard input: it is closed")
    try:
        with open(0 if path == STANDARD else path, "rb", closefd=path != STANDARD) as file:
            data = file.read(LARGEST + 1)
    except (OSError, ValueError) as error:  # a ValueError is a name that no file has
        words = reason(error) if isinstance(error, OSError) else str(error)
        raise Fault(f"can't read {name_of(path)}: {words}") from None
    if len(data) > LARGEST:
        raise Misuse(f"{name_of(path)} is longer than any session, dump or listing")
    return data


def text_of(data, name):
    """A mark at its start that some editors write is passed over, and so is the return that they write before a line feed."""
    try:
        return data.decode("utf-8-sig").replace("\r\n", "\n")
    except UnicodeDecodeError:
        raise Misuse(f"{name} is not text") from None


# ---- Out ----

def write(path, text):
    write_bytes(path, text.encode())


def write_bytes(path, data):
    """To a file, which is then there whole or as it was before; to standard output if there is no path."""
    if path in (None, STANDARD):
        to_standard_output(data)
        return
    try:
        if os.path.exists(path) and not os.path.isfile(path):  # a device or a pipe takes what comes; a folder is told
            with open(path, "wb") as file:
                file.write(data)
        else:
            replace(os.path.realpath(path), data)
    except (OSError, ValueError) as error:
        words = reason(error) if isinstance(error, OSError) else str(error)
        raise Fault(f"can't write {path}: {words}") from None


def replace(path, data):
    handle, part = tempfile.mkstemp(prefix=".reader.", dir=os.path.dirname(path))
    try:
        with open(handle, "wb") as file:
            file.write(data)
        os.chmod(part, os.stat(path).st_mode & 0o777 if os.path.exists(path) else 0o666 & ~mask())
        os.replace(part, path)
    except BaseException:
        os.unlink(part)
        raise


def mask():
    """Which rights new files don't get: it can only be asked for by setting it."""
    held = os.umask(0o077)
    os.umask(held)
    return held


def to_standard_output(data):
    if not sys.stdout:
        raise Fault("can't write standard output: it is closed")
    try:
        sys.stdout.buffer.write(data)
        sys.stdout.buffer.flush()
    except OSError as error:
        os.dup2(os.open(os.devnull, os.O_WRONLY), 1)  # or Python would try again as it ends
        if isinstance(error, BrokenPipeError):  # whoever read our output has had enough
            raise Fault from None
        raise Fault(f"can't write standard output: {reason(error)}") from None


def is_same(path, new):
    """Whether a file that is read and one that is to be written are the same."""
    try:
        return os.path.samestat(os.fstat(0) if path == STANDARD else os.stat(path), os.stat(new))
    except OSError:
        return False  # there is no such file yet


def make_folder(folder):
    try:
        os.makedirs(folder, exist_ok=True)
    except OSError as error:
        raise Fault(f"can't make the folder {folder}: {reason(error)}") from None


def short(path):
    """From the current folder, if the path leads there."""
    near = os.path.relpath(path)
    return os.path.abspath(path) if near.startswith("..") else near
