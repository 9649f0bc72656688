"""What tests/library builds: the library with no proof, unless one is given, and programs in C over it, by the kit's compiler
with the headers of tests/include; and the driver once more with every access of the library checked, where the system's compiler
brings an address sanitizer."""

import pathlib
import platform
import shutil
import subprocess
import sys

TESTS = pathlib.Path(__file__).resolve().parent.parent
TOP = TESTS.parent
sys.path[:0] = [str(TOP / "bench"), str(TOP / "chip")]

import kit
import module

NAME, CRATE = "bagtag", "bagtag_c"  # of the library, and of the crate that exports its functions
DRIVER, EXAMPLES = TESTS / "driver" / "library.c", TOP / "examples" / "c"
STRICT = ("-Wall", "-Wextra", "-Wpedantic", "-Werror")
OWN_HEADERS = ("-nostdinc", "-isystem", str(TESTS / "include"))
WITH_SANITIZERS = ("gcc", "clang")  # the first that has one is taken


class Builds:
    def __init__(self, folder, library=None, top=TOP):
        self.folder, self.tools, self.include = pathlib.Path(folder), kit.Kit(), ("-I", str(top / "include"))
        self.library = library or self.tools.compile_archive(self.folder / f"lib{NAME}.a", CRATE, top)

    def clang(self, *words):
        """The words that call the kit's compiler for x86-64."""
        return [str(self.tools.tools / "bin" / "clang"), "--no-default-config", f"--target={kit.TARGET}", *words]

    def program(self, name, *sources, standard="c99"):
        """The words that run the program of these sources over the library."""
        words = (f"-std={standard}", *STRICT, *OWN_HEADERS, *self.include)
        objects = [self.tools.compile_c(source, self.folder / f"{name}-{source.stem}.o", *words) for source in sources]
        return [*self.tools.runner(), str(self.tools.link(self.folder / name, *objects, self.library))]

    def driver(self):
        return self.program("driver", DRIVER, standard="c11")

    # ---- Under an address sanitizer ----

    def sanitized_library(self):
        """The object file of the library's module, each access of which asks the sanitizer first."""
        source, made = self.folder / "sanitized.ll", self.folder / "sanitized.o"
        source.write_text(module.text(self.tools, proved=False).replace(kit.FOR_EVERY, f"sanitize_address {kit.FOR_EVERY}"))
        kit.call(self.clang("-fsanitize=address", "-O1", "-fPIE", "-x", "ir", "-c", "-o", made, source))
        return made

    def sanitized_driver(self):
        """The words that run it. Raises Missing with why there is none."""
        if platform.machine() != "x86_64":
            raise kit.Missing(f"the library is for x86-64, and a sanitizer here is for {platform.machine()}")
        library, made = self.sanitized_library(), self.folder / "sanitized"
        for compiler in filter(shutil.which, WITH_SANITIZERS):
            words = [compiler, "-std=gnu11", "-DSANITIZED", "-O1", "-fsanitize=address", *self.include, "-o", made]
            if succeeds([*words, DRIVER, library]) and succeeds([made, "1"]):
                return [str(made)]
        raise kit.Missing(f"no address sanitizer: neither {' nor '.join(WITH_SANITIZERS)} is there and brings one")


def succeeds(words, stdin=b""):
    return subprocess.run([str(word) for word in words], input=stdin, stdout=subprocess.DEVNULL, stderr=subprocess.DEVNULL,
                          cwd=TOP).returncode == 0
