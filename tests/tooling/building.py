"""`run`: statuses, symbolic links, clones that can't be written to, and builds made anew when a source is newer."""

import os
import shutil
import tempfile
import time

from .common import DONE, FAILED, READER, REFUSED, RUN, TOP, content, leftovers, one_line, start

NEW_TAG = bytes.fromhex("412BC5FB000000A140")
TWO_TAGS = b"\2" + NEW_TAG + bytes.fromhex("41D70AFC0000006540")
PARTS = ("run", "reader", "crates.txt", "crates", "tools", "bench", "examples")
NOBODY = 65534


def copy_into(folder):
    for part in PARTS:
        path = os.path.join(TOP, part)
        if os.path.isdir(path):
            shutil.copytree(path, os.path.join(folder, part), ignore=shutil.ignore_patterns("out"))
        else:
            shutil.copy2(path, os.path.join(folder, part))
    return os.path.join(folder, "run"), os.path.join(folder, "reader")


def statuses():
    """0 listed or played, 1 refused, with what the programs print untouched."""
    dump = content("examples", "landing.dump")
    for words, stdin, status, output in (
            (["list"], dump, DONE, content("examples", "landing.listing")), (["list"], b"", REFUSED, b"R07\n"),
            (["list"], dump[:-1] + b"\r", REFUSED, b"R07\n"), (["play"], NEW_TAG + b"\2\0\0\3\0\0", DONE, b"0\n1\n"),
            (["play"], NEW_TAG, DONE, b""), (["play"], b"", REFUSED, b"R04\n"),
            (["play"], NEW_TAG + b"\2\0\0\4\xFF\xFF", DONE, b"0\n1\n"),
            (["play"], NEW_TAG + b"\2\0\0\5\0\0\2\0\0", REFUSED, b"0\nR01\n"),
            (["shed"], TWO_TAGS + b"\2\0\0\0\3\1\0\0", DONE, b"0\n1\n"), (["shed"], TWO_TAGS, DONE, b""),
            (["shed"], b"", REFUSED, b"R14\n"), (["shed"], b"\2" + 2 * NEW_TAG, REFUSED, b"R13\n"),
            (["shed"], TWO_TAGS + b"\2\0\0\0\3\2\0\0\2\0\0\0", REFUSED, b"0\nR14\n")):
        done = start([RUN, *words], stdin)
        yield f"run {words} with {stdin[:20]}", (done.returncode, done.stdout) == (status, output), done
    for word in ("--help", "-h"):
        done = start([RUN, word])
        right = done.returncode == DONE and all(part in done.stdout for part in (b"1 refused", b"3 could not be done"))
        yield f"run {word}", right, done
    done = start([RUN, "--version"])
    yield "run --version", done.returncode == DONE and b"not proved" in done.stdout, done


def links():
    """Through a symbolic link, to it and to its folder, from elsewhere."""
    with tempfile.TemporaryDirectory() as folder:
        os.symlink(RUN, os.path.join(folder, "run"))
        os.symlink("run", os.path.join(folder, "again"))
        os.symlink(TOP, os.path.join(folder, "top"))
        for name in ("run", "again", "top/run"):
            done = start([os.path.join(folder, name), "list"], b"x", cwd=folder)
            yield f"run through the link {name}", (done.returncode, done.stdout) == (REFUSED, b"R07\n"), done
        os.symlink(READER, os.path.join(folder, "reader"))
        done = start([os.path.join(folder, "reader"), "table", os.path.join(TOP, "examples/landing.dump")], cwd=folder)
        yield "reader through a link", done.returncode == DONE, done.stderr
        done = start(["bash", "-c", "cp \"$0\" run && exec ./run list", RUN], cwd=tempfile.mkdtemp(dir=folder))
        yield "run away from its folder", *one_line(done, FAILED, "there is no folder crates beside")


def unwritable():
    """Where nothing can be built: one line, and nothing is made or taken away elsewhere."""
    with tempfile.TemporaryDirectory() as folder:
        run, reader = copy_into(folder)
        target = os.path.join(folder, "target")
        with open(target, "w", encoding="ascii") as file:
            file.write("no folder")
        for words in ([run, "list"], [run, "--build", "list"], [reader, "table", "examples/landing.dump"]):
            done = start(words, cwd=folder)
            yield f"{words[0][-6:]} with a file for target", *one_line(done, FAILED, "'list' was not built: can't write into")
        yield "what stands in the folder then", leftovers(folder) == sorted([*PARTS, "target"]), leftovers(folder)
        os.remove(target)
        os.mkdir(target)
        os.chmod(folder, 0o755)
        os.chmod(target, 0o555)
        more = {"user": NOBODY, "group": NOBODY, "extra_groups": []} if os.geteuid() == 0 else {}
        if not can_start([run, "--version"], cwd=folder, **more):
            yield "run in a clone that can't be written to", None, "a user without rights can't use the kit or the folder"
            return
        done = start([run, "list"], cwd=folder, **more)
        yield "run in a clone that can't be written to", *one_line(done, FAILED, "'list' was not built: can't write into")
        yield "what it leaves there", leftovers(target) == [] and not os.path.exists("/src"), leftovers(target)


def can_start(words, **more):
    try:
        return start(words, **more).returncode == DONE
    except OSError:
        return False


def builds():
    """In a copy without a proved build: it says so, builds once, and again when a source is newer; and not what is broken."""
    with tempfile.TemporaryDirectory() as folder:
        run, reader = copy_into(folder)
        source = os.path.join(folder, "crates", "answer", "src", "lib.rt")
        for name, touched, says in (("first", False, True), ("a second time", False, False), ("after a change", True, True)):
            if touched:
                time.sleep(0.01)
                os.utime(source)
            done = start([run, "list"], b"x")
            yield f"run, {name}", done.stdout == b"R07\n" and (b"NOT PROVED" in done.stderr) == says, (done.stdout, done.stderr)
        yield "run leaves no work behind", leftovers(os.path.join(folder, "target", "unproved")) == ["list"], None
        yield from proved_builds(folder, run, reader)
        with open(source, "a", encoding="utf-8") as file:
            file.write("fn broken( {\n")
        done = start([run, "list"], b"x")
        right = done.returncode == FAILED and done.stderr.endswith(b"run: 'list' was not built: 'rt check' in crates/list says more\n")
        yield "run, a broken source", right and b"rattle-link" not in done.stderr, done.stderr
        yield "a broken build leaves no work behind", leftovers(os.path.join(folder, "target", "unproved")) == ["list"], None


def proved_builds(folder, run, reader):
    """A build where rt puts it counts as proved, with rt run's stamp or rt ci's second build beside it, until a source, definition or
    proof is newer; the pages say which."""
    proved = os.path.join(folder, "crates", "list", "out", "list")
    os.makedirs(os.path.dirname(proved))
    dump = os.path.join(folder, "examples", "landing.dump")
    proof = os.path.join(folder, "crates", "dock", "proofs")
    for name, beside, newer, says in (("with nothing beside it", None, None, False), ("by rt ci", ".by-rattle", None, True),
                                      ("newer than rt ci's second one", None, proved, False), ("by rt run", ".stamp", None, True),
                                      ("with a newer proof", None, proof, False)):
        if not os.path.exists(proved):
            shutil.copy(os.path.join(folder, "target", "unproved", "list"), proved)
        time.sleep(0.01)
        if beside:
            with open(proved + beside, "w", encoding="ascii"):
                pass
        if newer:
            os.utime(newer)
        done = start([run, "--build", "list"])
        yield f"run --build, {name}", done.stdout.endswith(b"list, proved\n") == says, done.stdout
        for word in ("table", "picture"):
            done = start([reader, word, dump])
            right = done.returncode == DONE and (b"list, a proved build" in done.stdout) == says
            yield f"the {word} of a build {name}", right, done.stdout[:900]
        page = start([reader, "report", dump]).stdout
        right = (b"Every function of the program list that judges" in page, b"nothing on this page rests on a proof" in page)
        yield f"the report of a build {name}", right == (says, not says), right


def checks():
    for group in (statuses, links, unwritable, builds):
        yield from group()
