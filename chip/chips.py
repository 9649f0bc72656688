"""The chips that the library is made for, and how: the module and a little C compiled by the kit's clang, and put into archives.

What the kit guarantees ends before this: it proves the code and compiles it for x86-64.
"""

import pathlib
import re
import tempfile
from collections import namedtuple

import module
from module import HERE, NAME, kit

import elf

INCLUDE = kit.TOP / "include"
LEVEL = "-Os"
LIBRARY, SUPPORT = f"lib{NAME}.a", f"lib{NAME}_support.a"
# The kit's compiler brings no headers.
C_WORDS = ("-x", "c", "-std=c11", "-Wall", "-Wextra", "-fomit-frame-pointer", "-nostdinc", "-isystem", kit.TOP / "tests" / "include",
           "-I", INCLUDE)
# There is no enum; with this said, GNU ld does not warn on an Arm that a firmware's may have another size.
PART_WORDS = (*C_WORDS, "-fshort-enums")

# words: for clang; narrow: whether size_t has 32 bits; emulator: the program of Debian's qemu-user that runs it; models: what that is told
# to be, the first that it takes (that of Debian 12 takes no Cortex-M)
Chip = namedtuple("Chip", "name title words narrow emulator models")
CHIPS = {chip.name: chip for chip in (
    # Soft: the core has no floating-point number, and a chip needs no unit for them.
    Chip("cortex-m4", "Cortex-M4", ("--target=thumbv7em-none-eabi", "-mcpu=cortex-m4", "-mfloat-abi=soft"), True,
         "qemu-arm", ("cortex-m4", "cortex-a7")),
    Chip("rv32imac", "RV32IMAC", ("--target=riscv32-unknown-none-elf", "-march=rv32imac", "-mabi=ilp32"), True,
         "qemu-riscv32", ("sifive-e31",)),
    Chip("aarch64", "aarch64", ("--target=aarch64-unknown-none-elf",), False,
         "qemu-aarch64", ("cortex-a53",)),
)}

# needs: the names that the library wants of others
Built = namedtuple("Built", "folder code constants needs")


class Maker:
    """The kit's tools for one chip; more words go to the compiler last."""

    def __init__(self, tools, chip, more=()):
        self.chip, self.bin = chip, tools.tools / "bin"
        # What the kit gives its compiler beside the processor, the level and what is for shared libraries.
        self.words = ("--no-default-config", *kit.ANY_MODULE_WORDS, *chip.words, LEVEL, *more)

    def compile(self, source, made, *words, to="-c"):
        kit.call([self.bin / "clang", *self.words, *words, to, "-o", made, source])
        return made

    def archive(self, made, *objects):
        kit.call([self.bin / "llvm-ar", "rcsD", made, *objects])
        return made

    def link(self, made, *parts):
        """A program for Linux with no C library, of what it uses of these."""
        kit.call([self.bin / "ld.lld", "--gc-sections", "-o", made, *parts])
        return made

    def target(self):
        """The lines of a module that name the processor and how it lays out what it holds."""
        text = kit.call([self.bin / "clang", *self.words, "-S", "-emit-llvm", "-x", "c", "-o", "-", "/dev/null"])
        return "".join(re.findall(r"^target .*\n", text, re.M))

    def parts(self, text, folder):
        """The sources of the library, each with the words that it is compiled with."""
        lowered = folder / f"{NAME}.ll"
        lowered.write_text(module.retargeted(text, self.target(), self.chip.narrow))
        return [(lowered, ("-x", "ir"))] + ([(HERE / "wrapper.c", PART_WORDS)] if self.chip.narrow else [])


def check_all(wanted, defined, where):
    missing = sorted(set(wanted) - defined)
    if missing:
        raise kit.Missing(f"there is no {missing[0]} in {where}")


def make(maker, text, folder):
    """The two archives of a chip, in this folder: whole or not at all."""
    folder.mkdir(parents=True, exist_ok=True)
    with tempfile.TemporaryDirectory(prefix="made.", dir=folder) as place:
        place = pathlib.Path(place)
        objects = [maker.compile(source, place / f"{source.stem}.o", *words) for source, words in maker.parts(text, place)]
        support = maker.compile(HERE / "support.c", place / "support.o", *PART_WORDS, "-fno-builtin")
        defined, wanted = map(set().union, *map(elf.symbols, objects))
        needs = sorted(wanted - defined)
        check_all(module.exported(text), defined, "wrapper.c, and the library exports it")
        check_all(needs, elf.symbols(support)[0], "support.c, and the library needs it")
        code, constants, variables = elf.sizes(*objects)
        if variables:
            raise kit.Missing(f"the library has {variables} bytes of variables, and should have none")
        archives = maker.archive(place / LIBRARY, *objects), maker.archive(place / SUPPORT, support)
        for made in (*archives, place / f"{NAME}.ll"):
            made.replace(folder / made.name)
    return Built(folder, code, constants, needs)


def folder_of(chip, proved):
    """Where a chip's archives go; those with no proof never take the place of proved ones."""
    return module.WORK / (chip.name if proved else f"unproved/{chip.name}")
