"""The lower part of a picture: what its marks mean and how many there are, and in words where two logs part."""

from collections import Counter
from typing import Callable

from . import svg
from .delays import Mark, shape
from .numbers import plural
from .page import CALL_INK, FAINT, GIVEN_UP, INK, LEFT, LOOKS, WIDTH
from .parting import count, differences
from .strips import bar, lettered

MARGIN, ROW, INDENT, LETTER = 24, 19, 30, 6.7  # the left edge, a row's height, where its words begin, and the width of a letter
MONO = "DejaVu Sans Mono, Menlo, Consolas, monospace"
BRIEF = {
    "uncovered": "far history missing",
    "ahead": "far audio not there yet",
    "quiet": "loudspeaker silent",
    "flat": "microphone level flat",
    "banked": "kept for a decision",
    "weak": "no delay fits well enough",
    "ceiling": "delay at the ceiling or past it",
    "crowded": "no clear winner",
    "region": "echo found",
    "hold": "alignment kept",
    "move": "alignment follows",
    "edge": "delay left the range",
    "lost": "no echo heard",
    "jump": "candidates contradict",
    "seam": "no echo after a cut",
}
REFUSED = {1: "a setting", 2: "a length", 3: "a broken state", 4: "a sample is not finite", 5: "a number is too large", 6: "a frame waits", 7: "no full frame"}
DELAYS = {"region": "region: the scan's delay", "move": "move: the alignment's new delay", "interior": "candidate of a cycle", "edge": "edge candidate"}


def times(calls: list, sort: str, told: Callable) -> str:
    """How often each log has a line of which this is told."""
    return "(" + " and ".join(f"{sum(map(told, (step.line for step in call.of(sort)))):,}" for call in calls) + ")"


def answers(calls: list) -> list:
    there = Counter(step.line.word for call in calls for step in call.of("frame"))
    return [(swatch(word), f"{word}: {BRIEF[word]} {times(calls, 'frame', lambda line: line.word == word)}") for word in LOOKS if there[word]]


def swatch(word: str) -> str:
    return svg.rect(0, -7, 22, 14, fill=f"url(#of-{word})", stroke=FAINT, stroke_width=0.6) + lettered(word, 11, 0, 22)


def verdicts(calls: list) -> list:
    there = Counter(step.line.word for call in calls for step in call.of("cycle"))
    rows = []
    for word in ("hold", "move", *GIVEN_UP):
        if there[word]:
            sample = svg.tag("g", bar(word, 0, 0, 26.0), transform="translate(11 -8.5) scale(0.5)")
            rows.append((sample, f"{'reacquire ' if word in GIVEN_UP else ''}{word}: {BRIEF[word]} {times(calls, 'cycle', lambda line: line.word == word)}"))
    return rows


def signs(calls: list, sorts: set) -> list:
    """The marks of the upper panel and the refusals, as far as this picture has them."""
    rows = [(shape(Mark(0, sort, 0.0, ""), 11, 0, 0), words) for sort, words in DELAYS.items() if sort in sorts]
    if "alignment" in sorts:
        line = svg.line(0, 0, 22, 0, stroke=CALL_INK[0], stroke_width=1.6, opacity=0.75)
        rows.append((line, "alignment in use" if any(call.timed for call in calls) else "alignment, where the log tells it"))
    for number in sorted({step.line.numbers[1] for call in calls for step in call.of("refusal")}):
        counted = times(calls, "refusal", lambda line: line.numbers[1] == number)
        rows.append((svg.triangle(11, 0, 6, fill="#ffffff", stroke=INK, stroke_width=1.4), f"refused {number}: {REFUSED[number]} {counted}"))
    if len(calls) > 1:
        rows.append((svg.circle(11, 0, 6, fill=CALL_INK[0]), "filled, solid: log A"))
        rows.append((svg.circle(11, 0, 7, fill="none", stroke=CALL_INK[1], stroke_width=2), "hollow, dashed: log B"))
    return rows


def legend(calls: list, sorts: set, y: float) -> tuple:
    """The legend, and where it ends: its parts stand beside each other, and below where there is no more room."""
    made, x, end = "", float(MARGIN), y
    for column in filter(None, (answers(calls), verdicts(calls), signs(calls, sorts))):
        wide = INDENT + LETTER * max(len(words) for _, words in column) + 18
        if x > MARGIN and x + wide > WIDTH:
            x, y = float(MARGIN), end + ROW / 2
        for k, (sample, words) in enumerate(column):
            made += svg.tag("g", sample + svg.text(INDENT, 4, words), transform=f"translate({svg.number(x)} {svg.number(y + k * ROW)})", class_="legend")
        x, end = x + wide, max(end, y + ROW * len(column))
    return made, end


def parting(calls: list, slots: list, y: float) -> tuple:
    """In words where two logs part, and where that ends."""
    found = differences(calls, slots)
    if not found:
        texts = [[line.text for line in call.lines] for call in calls]
        same = "The two logs are the same." if texts[0] == texts[1] else "The two logs have the same lines, in another order."
        return svg.text(MARGIN, y, same, font_weight="bold", class_="same"), y + ROW
    title = f"Where they part: {plural(count('frame', slots), 'frame')} and {plural(count('cycle', slots), 'cycle')} differ. The first line of each sort that does:"
    made = svg.text(MARGIN, y, title, font_weight="bold")
    for difference in found:
        y += ROW
        made += svg.text(MARGIN, y, difference.sort, fill=FAINT)
        for which, text in enumerate(difference.texts):
            made += svg.text(LEFT + which * 470, y, f"{'AB'[which]}: {text or 'nothing'}", fill=CALL_INK[which], class_="part", font_family=MONO, font_size=11)
    return made, y + ROW
