"""How the scripts of this folder measure a program: by processor time, and by instructions."""

import os
import pathlib
import platform
import re
import shutil
import subprocess
import tempfile

import inputs
import kit

SHORT, LONG = 20_000, 100_000
PLUGIN = pathlib.Path(__file__).resolve().parent / "count_plugin.c"


# ---- Processor time ----

def cpu_seconds(command, stdin, stdout):
    """Runs once; the processor time that it took, the system's for it included."""
    with open(stdin, "rb") as given, open(stdout, "wb") as taken:
        child = subprocess.Popen(command, stdin=given, stdout=taken)
        _, status, usage = os.wait4(child.pid, 0)
        child.returncode = os.waitstatus_to_exitcode(status)
    if child.returncode:
        raise kit.Missing(f"{command[-1]} ended with {child.returncode}")
    return usage.ru_utime + usage.ru_stime


def least(commands, stdin, runs, seconds=cpu_seconds):
    """The least time of each command over the runs, taken in turn; all must print the same."""
    best = [float("inf")] * len(commands)
    with tempfile.TemporaryDirectory() as folder:
        outputs = [f"{folder}/{place}" for place in range(len(commands))]
        for _ in range(runs):
            for place, command in enumerate(commands):
                best[place] = min(best[place], seconds(command, stdin, outputs[place]))
            texts = {pathlib.Path(output).read_bytes() for output in outputs}
            if len(texts) != 1:
                raise kit.Missing("the programs printed different bytes")
    return best


def without(times, starts):
    return [time - start for time, start in zip(times, starts)]


# ---- Instructions ----

class NoCounter(Exception):
    """Nothing on this machine counts instructions."""


def find_counter(tools):
    """The words before a program's own that count its instructions, and what stands before their number on standard error."""
    if platform.machine() == "x86_64" and shutil.which("valgrind"):
        return ["valgrind", "--tool=cachegrind", "--cache-sim=no", "--cachegrind-out-file=/dev/null", *tools.loader()], r"I +refs: +"
    if shutil.which("qemu-x86_64") and shutil.which("cc"):
        kit.WORK.mkdir(parents=True, exist_ok=True)
        for interface in (2, 1):
            plugin = kit.WORK / f"count_plugin{interface}.so"
            kit.call(["cc", "-O2", "-shared", "-fPIC", f"-DINTERFACE={interface}", "-o", plugin, PLUGIN])
            words = ["qemu-x86_64", "-plugin", str(plugin), *tools.loader()]
            if subprocess.run([*words, "--version"], stdout=subprocess.DEVNULL, stderr=subprocess.DEVNULL).returncode == 0:
                return words, "instructions: "
    raise NoCounter("nothing counts here: it takes valgrind on x86-64, or cc and a qemu-x86_64 on the path that takes plug-ins")


class Counter:
    def __init__(self, tools):
        self.words, self.before = find_counter(tools)

    def count(self, program, given):
        """The instructions of a whole run, and what it printed."""
        ran = subprocess.run([*self.words, str(program)], input=given, capture_output=True)
        said = re.search(self.before + "([0-9,]+)", ran.stderr.decode(errors="replace"))
        if ran.returncode or not said:
            raise kit.Missing(f"{program.name} was not counted: it ended with {ran.returncode}")
        return int(said[1].replace(",", "")), ran.stdout

    def differences(self, programs, short, long):
        """By how much the longer input takes more, for each program; all must print the same."""
        counts, texts = [], set()
        for program in programs:
            less, _ = self.count(program, short)
            more, text = self.count(program, long)
            counts.append(more - less)
            texts.add(text)
        if len(texts) != 1:
            raise kit.Missing("the programs printed different bytes")
        return counts

    def an_event(self, programs, make, list_size=None):
        """What one event takes, for each program: of play, or of those that take lists."""
        short, long = make(SHORT), make(LONG)
        events = inputs.events_in(long) - inputs.events_in(short)
        if list_size is not None:
            short, long = inputs.in_lists(short, list_size), inputs.in_lists(long, list_size)
        return [count / events for count in self.differences(programs, short, long)]

    def a_line_event(self, programs, make, tags):
        """What one event of a line of so many tags takes, for each program."""
        short, long = make(tags, SHORT // tags), make(tags, LONG // tags)
        events = inputs.line_events_in(long) - inputs.line_events_in(short)
        return [count / events for count in self.differences(programs, short, long)]
