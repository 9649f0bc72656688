"""What the build for chips lets through of a module, and what it stops at, tried on the module itself with one thing changed."""

import re

import module
from module import kit

OTHER = "#999"
RETURNS = "\n  ret "
# The check must stop at each: what its message must hold, what is replaced, once, and by what.
STOPPED = {
    "another attribute": ("naked", kit.FOR_EVERY, f"naked {kit.FOR_EVERY}"),
    "an attribute that is missing": ("probe-stack", ' "probe-stack"="inline-asm"', ""),
    "another size of stack probes": ("stack-probe-size", '"stack-probe-size"="3072"', '"stack-probe-size"="4096"'),
    "another processor": ("x86-64", kit.FOR_EVERY, '"target-cpu"="x86-64-v3"'),
    "a pointer made a number": ("ptrtoint", RETURNS, f"\n  %number = ptrtoint ptr %a0 to i64{RETURNS}"),
    "a pointer as the second of a pair": ("{ i64, ptr }", RETURNS, f"\n  %pair = load {{ i64, ptr }}, ptr %a0, align 8{RETURNS}"),
    "a variable": ("@static.999", "\n\n", "\n@static.999 = private unnamed_addr global [1 x i8] zeroinitializer, align 1\n\n"),
}


def inlined(text):
    """The module as a proved one is: functions of the kit's library are always inlined, in a group of attributes of their own."""
    number, words = next(group for group in module.GROUP.findall(text) if module.INLINED not in group[1])
    marked = re.sub(rf'^(define internal .*@"core::.*) #{number} \{{$', rf"\1 {OTHER} {{", text, flags=re.M)
    return f"{marked}attributes {OTHER} = {{ {module.INLINED} {words} }}\n"


def stopping(text):
    """What the check says as it stops; nothing where it lets the module through."""
    try:
        module.check(text)
    except kit.Missing as missing:
        return str(missing)
    return ""


def checks(text):
    """Each check gives its name and whether it went right."""
    for name, (says, old, new) in STOPPED.items():
        yield f"stops at {name}", says in stopping(text.replace(old, new, 1))
    own = inlined(text)
    for name, says, wrong in (
            ("another attribute in a second group", "naked", own.replace(f"{OTHER} = {{ ", f"{OTHER} = {{ naked ")),
            ("a processor named by a function itself", "elsewhere", own.replace(f" {OTHER} {{", f" {kit.FOR_EVERY} {OTHER} {{", 1)),
            ("no processor", "no processor", re.sub("^attributes .*\n", "", text, flags=re.M)),
            ("a feature of a processor", "features", f'{text}attributes {OTHER} = {{ "target-features"="+avx2" }}\n')):
        yield f"stops at {name}", says in stopping(wrong)
    yield "the kit's library has functions to be inlined", f" {OTHER} {{\n" in own
    yield "lets functions that are always inlined through", stopping(own) == ""
    made = module.retargeted(own, "", narrow=True)
    yield "each group is for the chip", '"target-cpu"' not in made and made.count(" optsize") == own.count(kit.FOR_EVERY) > 1
