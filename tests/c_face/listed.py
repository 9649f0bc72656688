"""Dumps (dumps.py), good and damaged, through bagtag_list, against the model's dock: head and temperatures, with more places than
entries, as many and fewer, and heads of any length."""

import random
import struct

import dumps
from model import dock
from model.tag import CODE, CONTROL, EHSS, OSCILLATOR, REGISTERS, STAMP, SUTA

from .face import CHANGED_HEAD, CHANGED_PLACES, HEAD, NUMBERS, UNUSED, Calls, Died

PLACES, NO_ROOM = NUMBERS["PLACES"], NUMBERS["FEW_PLACES"]
UNUSED_PLACE, = struct.unpack("<i", bytes((UNUSED,)) * 4)


def listing(text):
    """The model's: the answer, the head and the temperatures; of a refused dump the answer alone."""
    try:
        registers, log = dock.read_dump(text)
        register = {REGISTERS + at: byte for at, byte in enumerate(registers)}.__getitem__
        dock.check(register)
        count = dock.entry_count(register)
    except dock.Refused as refusal:
        return refusal.args[0], b"", []
    held = min(count, dock.places(register))
    period = dock.rate(register) * (1 if register(OSCILLATOR) & EHSS else 60)
    first = count - held
    seconds = period * (first - bool(register(CONTROL) & SUTA))
    stamp = bytes(register(STAMP + at) for at in range(6))
    temperatures = [dock.entry_reading(register, log, k) - dock.BELOW_ZERO[register(CODE)] for k in range(first, count)]
    return 0, struct.pack("<Bx6sIIqI", register(CODE), stamp, held, first, seconds, period), temperatures


def rooms(rng, held):
    """Places and a head's length: as a caller should lend them, at the edges, and anything."""
    return ((PLACES, HEAD), (held, HEAD), (max(held - 1, 0), HEAD + 1), (rng.choice((PLACES, held, held + 1)), HEAD - 1),
            (rng.randrange(PLACES + 2), rng.choice((HEAD, HEAD + 5, 200))), (rng.choice((0, held)), rng.randrange(HEAD)))


def expected(answer, head, temperatures, places, length):
    """What a call must leave in so many places and so long a head, and what it may change."""
    if not answer and (length < HEAD or places < len(temperatures)):
        answer = NO_ROOM
    if answer:
        head, temperatures = b"", []
    return (answer, CHANGED_PLACES * (temperatures != []) | CHANGED_HEAD * (head != b""),
            (*temperatures, *[UNUSED_PLACE] * (places - len(temperatures))), head + bytes((UNUSED,)) * (length - len(head)))


def checks(drivers, seed, numbers, counts):
    """`counts` gets how often each answer came."""
    for number in numbers:
        kind, text, _ = dumps.dump(seed, number)
        name = f"dump {number} ({kind}), seed {seed}"
        listed, rng = listing(text), random.Random(f"library {seed} {number}")
        lent = rooms(rng, len(listed[2]))
        calls = Calls()
        for places, length in lent:
            calls.list(text, places, length)
        try:
            results = calls.run(*drivers)
        except Died as died:
            yield name, False, f"the driver {died}"
            continue
        counts.update(got.answer for got in results)
        for (places, length), got in zip(lent, results):
            wanted = expected(*listed, places, length)
            yield f"{name}, {places} places and a head of {length} bytes", tuple(got) == wanted, shown(got, wanted)


def shown(got, wanted):
    for part, one, other in zip(("answer", "change", "places", "head"), got, wanted):
        if one != other:
            return f"{part}: expected {other!r:.200}, got {one!r:.200}"
    return None
