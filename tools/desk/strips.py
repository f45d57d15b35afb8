"""The strips of a picture: frames by answer, cycles by verdict, refusals, and where two logs part."""

from collections import Counter

from . import svg
from .numbers import plural
from .page import CALL_INK, FAINT, GIVEN_UP, INK, LEFT, LOOKS, Axis
from .show import said, subject

FRAMES, SHARES, CYCLES, MARKS = 34, 56, 34, 18  # heights; SHARES is that of frames where several have one column


def columns(axis: Axis, slots: list, which: int, sort: str) -> list:
    """For each column that has any: its number, and the steps of that sort of one call."""
    found = {}
    for place, slot in enumerate(slots):
        if slot.key[0] == sort and slot.steps[which]:
            found.setdefault(place // axis.each, []).append(slot.steps[which])
    return list(found.items())


def caption(y: float, height: float, words: str, colour: str = INK) -> str:
    return svg.text(LEFT - 18, y + height / 2 + 4, words, "end", fill=colour)


def told(call, steps: list) -> str:
    """What the pointer shows over a column."""
    if len(steps) == 1:
        return f"line {steps[0].line.place}: {subject(steps[0])}: {said(call, steps[0])}"
    return f"{subject(steps[0])} to {steps[-1].line.number:,}: " + ", ".join(f"{count:,} {word}" for word, count in Counter(step.line.word for step in steps).most_common())


def frames_height(axis: Axis) -> int:
    return FRAMES if axis.each == 1 else SHARES


def frames(call, axis: Axis, found: list, y: float) -> str:
    """Of a column with several frames each answer has its share of the height, in the legend's order."""
    made = ""
    for column, steps in found:
        count, x, top = Counter(step.line.word for step in steps), LEFT + axis.column * column, y
        cell = ""
        for word in (word for word in LOOKS if word in count):
            height = frames_height(axis) * count[word] / len(steps)
            cell += svg.rect(x, top, axis.column, height, fill=f"url(#of-{word})" if axis.each == 1 else LOOKS[word][0], class_=word)
            top += height
        if axis.each == 1:
            cell += svg.rect(x, y, axis.column, FRAMES, fill="none", stroke=FAINT, stroke_width=0.6)
            cell += lettered(steps[0].line.word, x + axis.column / 2, y + FRAMES / 2, axis.column)
        made += svg.tag("g", cell, title=told(call, steps), class_="frame", shape_rendering=None if axis.each == 1 else "crispEdges")
    return made


def lettered(word: str, x: float, y: float, room: float) -> str:
    content = word if room >= 6.6 * len(word) + 3 else LOOKS[word][2] if room >= 12 else ""
    if not content:
        return ""
    looks = {"fill": "#ffffff"} if word == "region" else {"fill": INK, "paint_order": "stroke", "stroke": LOOKS[word][0], "stroke_width": 4}
    return svg.text(x, y + 4, content, "middle", font_size=11, **looks)


def cycles(call, axis: Axis, found: list, y: float, labels: svg.Labels) -> str:
    """The taller the bar, the more was done: hold is low, a move half, a reacquire whole. A column shows the most that happened in it."""
    made, before = "", ""
    for column, steps in found:
        words = [step.line.word for step in steps]
        worst = next((word for word in words if word in GIVEN_UP), "move" if "move" in words else "hold")
        x = LEFT + axis.column * (column + 0.5)
        made += svg.tag("g", bar(worst, x, y, axis.column), title=told(call, steps), class_=f"cycle {worst}")
        if worst in GIVEN_UP and worst != before:
            made += labels.place(x, [y - 3, y - 14], worst, fill=GIVEN_UP[worst][0], font_weight="bold", font_size=11)
        before = worst
    return made


def bar(word: str, x: float, y: float, column: float) -> str:
    wide = max(0.8, min(16.0, column * 0.72))
    bottom = y + CYCLES
    if word == "hold":
        return svg.rect(x - wide / 2, bottom - 5, wide, 5.0, fill="#9a9a9a")
    if word == "move":
        head = svg.diamond(x, bottom - 17, min(6.0, max(2.0, wide / 2)), fill="#005b96") if wide >= 4 else ""
        return svg.rect(x - wide / 2, bottom - 13, wide, 13.0, fill="#005b96") + head
    colour, letter = GIVEN_UP[word]
    whole = svg.rect(x - wide / 2, y, wide, float(CYCLES), fill=colour)
    return whole + (svg.text(x, y + 15, letter, "middle", fill="#ffffff", font_size=11, font_weight="bold") if wide >= 10 else "")


def refusals(call, axis: Axis, found: list, y: float, labels: svg.Labels) -> str:
    made = ""
    for column, steps in found:
        x = LEFT + axis.column * (column + 0.5)
        numbers = sorted({step.line.numbers[1] for step in steps})
        title = told(call, steps) if len(steps) == 1 else f"{plural(len(steps), 'refusal')} from event {steps[0].line.number:,} on"
        made += svg.tag("g", svg.triangle(x, y + 7, 6 * axis.size, fill="#ffffff", stroke=INK, stroke_width=1.4), title=title, class_="refused")
        made += labels.place(x, [y + 25], " ".join(map(str, numbers)), fill=INK, font_size=10)
    return made


def parts(axis: Axis, slots: list, y: float, labels: svg.Labels) -> str:
    """A mark wherever two logs differ, and the place of the first of each sort."""
    marks, named = {}, set()
    for place, slot in enumerate(slots):
        if slot.differs:
            marks.setdefault(place // axis.each, []).append(slot)
    made = ""
    for column, differing in marks.items():
        x = LEFT + axis.column * (column + 0.5)
        title = f"{differing[0].place} differs" if len(differing) == 1 else f"{len(differing):,} lines differ from {differing[0].place} on"
        made += svg.tag("g", svg.rect(x - max(0.5, axis.column * 0.3), y, max(1.0, axis.column * 0.6), 12.0, fill=INK), title=title, class_="differs")
        for slot in differing:
            if slot.key[0] not in named:
                named.add(slot.key[0])
                made += labels.place(x, [y + 24, y + 36], slot.place, fill=INK, font_size=11)
    return made


def ink(which: int, calls: list) -> str:
    return CALL_INK[which] if len(calls) > 1 else INK
