"""The drivers of tests/driver, compiled here with no proof: Rattle libraries under a C function main, which call the crates with
what no program of ours can be given."""

import contextlib
import os
import pathlib
import sys
import tempfile

TESTS = pathlib.Path(__file__).resolve().parent
sys.path.append(str(TESTS.parent / "bench"))

import kit

DRIVER = TESTS / "driver"
BUILDS = TESTS.parent / "target"
Missing = kit.Missing


@contextlib.contextmanager
def compiled(name, crate):
    """The words that run a driver over this crate and those below it. Raises Missing with why there is none."""
    try:
        BUILDS.mkdir(exist_ok=True)
        folder = tempfile.TemporaryDirectory(prefix=f"{name}.", dir=BUILDS)
    except OSError as error:
        raise Missing(f"can't write into {BUILDS}: {error.strerror}")
    with folder:
        tools = kit.Kit()
        made = os.path.join(folder.name, name)
        library = tools.compile_library(DRIVER / f"{name}.rattle", f"{made}_library.o", kit.with_all_below(crate))
        yield [*tools.runner(), tools.link(made, tools.compile_c(DRIVER / f"{name}.c", f"{made}.o"), library)]
