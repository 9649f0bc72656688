"""A listing as a table for people, with where it comes from before it and its figures after it."""

from . import evidence, summary, words
from .listing import DEVICES

MOST_ROWS = 100  # that are shown where a summary and a pointer to the rest would do


def columns(source, view):
    """Pairs of a head and a function of an entry; the mark, which has no head, comes last."""
    yield "entry", lambda entry: str(entry.k)
    yield ("time" if view.moment else "from the stamp"), lambda entry: view.time(entry.seconds)
    if view.zone and view.moment:
        yield view.zone, lambda entry: view.zone_time(entry.seconds)
    yield "seconds", lambda entry: str(entry.seconds)
    yield "°C", lambda entry: words.number(entry.temperature, 4)
    if view.fahrenheit:
        yield "°F", lambda entry: f"{words.fahrenheit(entry.temperature):.4f}"
    yield "", lambda entry: words.mark(entry.temperature, source.thresholds)


def notes(source, view):
    """What a reader must know, a sentence each."""
    yield from words.log_words(source.listing)
    yield words.stamp_words(source.listing)
    yield from view.zone_words()
    yield from words.threshold_words(source, view)


def head(source, view):
    yield f"{DEVICES[source.listing.code]}, {view.extent(source.listing)}"
    yield ""
    yield from aligned(evidence.rows(source))
    yield ""
    yield from notes(source, view)


def body(source, view):
    """The entries, a line each, under the columns' heads."""
    heads, cells = zip(*columns(source, view))
    lines = [heads, *([cell(entry) for cell in cells] for entry in source.listing.entries)]
    wide = [max(map(len, column)) for column in zip(*lines)]
    for row in lines:
        yield "  ".join((f"{text:>{width}}" for text, width in zip(row, wide))).rstrip()


def foot(source, view):
    found = summary.summary(source.listing, source.thresholds, source.period)
    yield from aligned(summary.rows(found, source.thresholds, view))
    if source.thresholds != (None, None):
        yield summary.how_times_are_counted(source.period)


def aligned(pairs):
    pairs = list(pairs)
    wide = max(len(name) for name, _ in pairs)
    return [f"{name:<{wide}}  {text}" for name, text in pairs]


def table(source, view, rows=True):
    """Its text; without the rows if they are not wanted."""
    parts = [head(source, view)]
    if source.listing.entries:
        parts += [body(source, view)] if rows else []
        parts.append(foot(source, view))
    return "\n".join("".join(f"{line}\n" for line in part) for part in parts)
