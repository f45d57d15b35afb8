"""Reads a replay log, line by line, as docs/SPECIFICATION.md has it in section 12 (log lines, numbers). What is no log is refused with its line and the reason."""

import re
from typing import BinaryIO, NamedTuple

N = "(0|[1-9][0-9]*)"
FORMS = [
    ("header", f"(replay) rate {N} ceiling {N}"),
    ("frame", f"frame {N} (uncovered|ahead|quiet|flat|weak|ceiling|crowded)"),
    ("frame", f"frame {N} (banked) {N}"),
    ("frame", f"frame {N} (region) {N} {N}"),
    ("cycle", f"cycle {N} (hold)"),
    ("cycle", f"cycle {N} (move) {N}"),
    ("cycle", f"cycle {N} reacquire (edge|lost|jump|seam)"),
    ("refusal", f"event {N} (refused) {N}"),
    ("closing", f"(end) frames {N} cycles {N}"),
    ("closing", f"(bad event) {N}"),
    ("closing", "(bad header|bad totals)"),
]
READERS = [(sort, re.compile(form)) for sort, form in FORMS]
LONGEST = 75  # bytes of the longest log line, its newline not counted
RATES, CEILINGS, REFUSALS = range(8000, 192001), range(1, 4001), range(1, 8)
DELAYS = range(2**62)


class NotALog(Exception):
    """What is wrong, and in which line, counted from 1."""

    def __init__(self, place: int, reason: str):
        super().__init__(reason)
        self.place = place


class Line(NamedTuple):
    place: int  # its line of the file, counted from 1
    text: str
    sort: str  # header, frame, cycle, refusal or closing
    word: str  # the answer, verdict or trigger; of other lines the words that they begin with
    numbers: tuple  # all its numbers, in order

    @property
    def number(self) -> int:
        """Of a frame or cycle its own number, of a refusal the event's."""
        return self.numbers[0]

    @property
    def reacquires(self) -> bool:
        return self.sort == "cycle" and self.word not in ("hold", "move")


def limits(sort: str, word: str) -> list:
    """What each number of a line can be."""
    long, short = range(2**64), range(2**32)
    return {
        "replay": [RATES, CEILINGS],
        "banked": [long, short],
        "region": [long, DELAYS, long],
        "move": [long, DELAYS],
        "refused": [short, REFUSALS],
        "bad event": [short],
        "end": [long, long],
    }.get(word, [long] if sort in ("frame", "cycle") else [])


def quoted(text: str) -> str:
    """A text as it can stand in a message: short, and without control characters."""
    shown = "".join(c if c.isascii() and c.isprintable() else "?" for c in text)
    return f"'{shown}'" if len(shown) <= LONGEST else f"'{shown[:40]}..'"


def read_line(place: int, text: str) -> Line:
    for sort, form in READERS:
        found = form.fullmatch(text) if len(text) <= LONGEST else None
        if found:
            word = next(part for part in found.groups() if not part.isdigit())
            numbers = tuple(int(part) for part in found.groups() if part.isdigit())
            if not all(number in limit for number, limit in zip(numbers, limits(sort, word))):
                raise NotALog(place, f"a number is larger or smaller than a log can hold: {quoted(text)}")
            return Line(place, text, sort, word, numbers)
    raise NotALog(place, f"no log line: {quoted(text)}" if text else "no log line: it is empty")


def read(file: BinaryIO) -> list:
    """The lines of a log. A log may stop before its closing line, as it does while the replay still runs; nothing else of it can be missing.

    No more is read than the first line that is none, so that a large file of another sort is refused at once."""
    lines, due = [], {"frame": 0, "cycle": 0}
    for place, data in enumerate(iter(lambda: file.readline(LONGEST + 2), b""), 1):
        line = read_line(place, data.decode("latin-1").removesuffix("\n"))
        judge(line, lines, due)
        lines.append(line)
        if line.sort in due:
            due[line.sort] += 1
    if not lines:
        raise NotALog(1, "the file is empty")
    return lines


def judge(line: Line, before: list, due: dict):
    """Whether a log line can stand where it does."""
    opens = line.sort == "header" or line.word == "bad header"
    if opens != (not before):
        raise NotALog(line.place, f"a log {'begins' if opens else 'does not begin'} with {quoted(line.text)}")
    if before and before[-1].sort == "closing":
        raise NotALog(line.place, f"nothing follows {quoted(before[-1].text)}")
    if line.sort in due and line.number != due[line.sort]:
        raise NotALog(line.place, f"{line.sort} {line.number} stands where {line.sort} {due[line.sort]} is due")
    if line.word == "end" and line.numbers != (due["frame"], due["cycle"]):
        raise NotALog(line.place, f"the log has {due['frame']} frames and {due['cycle']} cycles, and its end line counts {line.numbers[0]} and {line.numbers[1]}")
