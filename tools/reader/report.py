"""A log as one page for an inspector: HTML with nothing to load beside it, for a screen of any width and for A4."""

import os
from html import escape
from math import ceil

from . import SESSION, evidence, picture, proofs, summary, table, words
from .listing import DEVICES
from .words import minus

LEAST_IN_A_TABLE, MOST_IN_A_TABLE = 12, 30  # entries; two of the longest tables stand above each other on A4
with open(os.path.join(os.path.dirname(__file__), "report.css"), encoding="utf-8") as style:
    STYLE = style.read()
# Each sheet of paper says which file it is of; a browser that can't write into margins leaves it out.
MARGINS = """
  @page {{ margin-bottom: 18mm;
    @bottom-left {{ content: "file {digest}"; font: 8px sans-serif; color: #666 }}
    @bottom-right {{ content: "page " counter(page) " of " counter(pages); font: 8px sans-serif; color: #666 }} }}
"""
OPENING = """<!DOCTYPE html>
<html lang="en">
<head>
<meta charset="utf-8">
<meta name="viewport" content="width=device-width, initial-scale=1">
<meta http-equiv="Content-Security-Policy" content="default-src 'none'; style-src 'unsafe-inline'">
"""


def html(source, view, note=None):
    """The whole page."""
    tag = f"tag {source.rom.hex().upper()}" if source.rom else f"a {DEVICES[source.listing.code]} tag"
    title = f"Temperatures of {tag}"
    styles = STYLE + MARGINS.format(digest=source.digest) + picture.STYLE
    body = [f"{OPENING}<title>{escape(title)}</title>\n<style>\n{styles}</style>\n</head>\n<body>\n<main>",
            f'<header><h1>{escape(title)}</h1><p class="sub">{escape(minus(view.extent(source.listing)))}</p></header>']
    body += [f'<p class="note">{escape(note)}</p>'] if note else []
    body += [f'<p class="warning">{escape(text)}</p>' for text in proofs.warnings(source)]
    body += figures(source, view)
    body += section("Where this comes from", pairs(evidence_rows(source)))
    body += section("Summary", *summed_up(source, view))
    body += section("Temperature by time", *drawings(source, view))
    if source.registers:
        body += section("What the dump says of the mission", pairs(proofs.mission_rows(source.registers, source.listing)))
    body += section("What was proved, and what was not", pairs(proofs.rows(source)))
    body += ['<div class="signing"><div>Read at the dock by, date</div><div>Seen by, date</div></div>']
    body += entries(source, view)
    return "\n".join([*body, "</main>", "</body>", "</html>"]) + "\n"


def section(name, *parts):
    return [f"<section><h2>{escape(name)}</h2>", *parts, "</section>"]


def pairs(rows):
    return "<dl>" + "".join(f"<dt>{escape(name)}</dt><dd>{escape(text)}</dd>" for name, text in rows) + "</dl>"


def sentences(texts):
    return "".join(f"<p>{escape(minus(text))}</p>" for text in texts)


def evidence_rows(source):
    yield from evidence.rows(source)
    if source.kind == SESSION:
        yield "SHA-256 of its dump", evidence.digest(source.dump)
    for build in source.builds:
        if build.digest:
            yield f"SHA-256 of {build.program}", build.digest


def figures(source, view):
    """The few numbers that are looked for first."""
    if not source.listing.entries:
        return []
    found = summary.summary(source.listing, source.thresholds, source.period)
    shown = []
    for value, name in ((found.highest.temperature, "highest"), (found.lowest.temperature, "lowest"), (found.mean, "mean")):
        beside = f", {words.fahrenheit(value):.2f} °F" if view.fahrenheit else ""
        alarm = name != "mean" and words.mark(value, source.thresholds)
        shown.append((f"{words.number(value, 2)} °C", name + beside, alarm))
    for name, count in (("high", found.above), ("low", found.below)):
        bound = words.bound_words(source.thresholds, view).get(name)
        if bound:
            shown.append((words.span(count * found.period) if found.period else str(count), bound, "alarm" if count else ""))
    cells = "".join(f'<div{" class=alarm" if alarm else ""}><b>{minus(number)}</b><span>{minus(name)}</span></div>'
                    for number, name, alarm in shown)
    return [f'<div class="figures">{cells}</div>']


def summed_up(source, view):
    if source.listing.entries:
        found = summary.summary(source.listing, source.thresholds, source.period)
        yield pairs(map(minus, row) for row in summary.rows(found, source.thresholds, view))
    yield sentences(table.notes(source, view))
    if source.listing.entries and source.thresholds != (None, None):
        yield sentences([summary.how_times_are_counted(source.period)])


def drawings(source, view):
    """Drawn twice, for a desk and for a phone: the page shows the one that fits."""
    for shape, where in ((picture.IN_PAGE, "desk"), (picture.ON_PHONE, "phone")):
        yield picture.embedded(source, view, shape).replace('class="log"', f'class="log {where}"', 1)


# ---- The table ----

def entries(source, view):
    """Tables side by side, read row by row of them: a browser breaks a page between two rows of tables."""
    held, across = source.listing.entries, 2 if view.zone or view.fahrenheit else 4
    if not held:
        return
    size = min(MOST_IN_A_TABLE, max(LEAST_IN_A_TABLE, ceil(len(held) / across)))
    yield f'<section class="table"><h2>Every entry ({len(held):,})</h2>\n<div class="rows across-{across}">'
    for at in range(0, len(held), size):
        yield f"<table><thead><tr>{heads(view)}</tr></thead><tbody>"
        yield "\n".join(rows(held[at:at + size], source, view))
        yield "</tbody></table>"
    yield "</div></section>"


def heads(view):
    return "".join(f"<th>{escape(name)}</th>" for name, _ in columns(view)) + "<th></th>"


def columns(view):
    """A date stands once, over its times."""
    yield "entry", lambda entry: str(entry.k)
    if view.moment:
        yield "time", lambda entry: view.time(entry.seconds)[11:]
    else:
        yield "from the stamp", lambda entry: minus(view.time(entry.seconds))
    if view.zone and view.moment:
        yield view.zone, lambda entry: view.zone_time(entry.seconds)
    yield "°C", lambda entry: minus(words.number(entry.temperature, 4))
    if view.fahrenheit:
        yield "°F", lambda entry: minus(f"{words.fahrenheit(entry.temperature):.4f}")


def rows(part, source, view):
    shown, day = list(columns(view)), None
    for entry in part:
        today = view.time(entry.seconds)[:10] if view.moment else None
        if today != day:
            yield f'<tr class="day"><td colspan="{len(shown) + 1}">{today}</td></tr>'
        day = today
        mark = words.mark(entry.temperature, source.thresholds)
        cells = "".join(f"<td>{escape(value(entry))}</td>" for _, value in shown)
        yield f'<tr{" class=alarm" if mark else ""}>{cells}<td>{mark}</td></tr>'
