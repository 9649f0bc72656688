"""What a text editor or a mail program adds to a dump, taken away again; nothing else of it is touched."""

import re

BYTE_ORDER_MARK = b"\xEF\xBB\xBF"
BLANK_END = re.compile(rb"(?<=\n)(?:[ \t\r]*\n)*[ \t\r]*\Z")
A_LINE = re.compile(rb"[0-9A-Fa-f]{72}")


def mended(data):
    """The bytes without what was added, and a sentence for each thing that was found."""
    sentences = []
    for step in (without_mark, without_returns, without_blank_end, with_line_feed, with_upper_case):
        data, sentence = step(data)
        sentences += [sentence] if sentence else []
    return data, sentences


def without_mark(data):
    if not data.startswith(BYTE_ORDER_MARK):
        return data, None
    return data[len(BYTE_ORDER_MARK):], "a byte-order mark stands before line 1"


def without_returns(data):
    lines = data.split(b"\n")
    found = [number for number, line in enumerate(lines, 1) if line.endswith(b"\r")]
    return b"\n".join(line[:-1] if line.endswith(b"\r") else line for line in lines), in_lines(
        found, "ends in a return and a line feed (CRLF)", "end in a return and a line feed (CRLF)")


def without_blank_end(data):
    found = BLANK_END.search(data)
    if not found or not found[0]:
        return data, None
    number = data[:found.start()].count(b"\n") + 1
    return data[:found.start()], f"blank lines follow line {number - 1}"


def with_line_feed(data):
    """A last line that is not whole was cut off: that is no editor's doing, and it stays."""
    last = data.rsplit(b"\n", 1)[-1]
    if not A_LINE.fullmatch(last):
        return data, None
    return data + b"\n", "the last line has no line feed"


def with_upper_case(data):
    lines = data.split(b"\n")
    found = [number for number, line in enumerate(lines, 1) if A_LINE.fullmatch(line) and line != line.upper()]
    return b"\n".join(line.upper() if A_LINE.fullmatch(line) else line for line in lines), in_lines(
        found, "has lower-case digits", "have lower-case digits")


def in_lines(found, one, many):
    if not found:
        return None
    if len(found) == 1:
        return f"line {found[0]} {one}"
    without_gap = len(found) == found[-1] - found[0] + 1
    return f"{f'lines {found[0]} to {found[-1]}' if without_gap else f'{len(found)} lines from line {found[0]} on'} {many}"
