"""One picture of a call, or of two over each other."""

from typing import Iterator

from . import delays, legend, parting, strips, svg, words
from .call import Call
from .numbers import clock, plural
from .page import FAINT, GRID, INK, LEFT, RIGHT, WIDTH, Axis, patterns

FONT = "DejaVu Sans, Verdana, Helvetica, Arial, sans-serif"


def picture(calls: list) -> str:
    slots = parting.slots(calls)
    axis = Axis(len(slots))
    made, y = heading(calls)
    if slots:
        body, y, sorts = plot(calls, slots, axis, y)
        made += body
    else:
        sorts = set()
        made += svg.rect(24, y, WIDTH - 48, 54, fill="#f4f4f4", stroke=GRID) + svg.text(WIDTH / 2, y + 32, "No frame, cycle or refusal stands in this log.", "middle")
        y += 72
    if len(calls) > 1:
        told, y = legend.parting(calls, slots, y)
        made, y = made + told, y + 12
    signs, y = legend.legend(calls, sorts, y)
    return page(made + signs, y + 6)


def page(content: str, height: float) -> str:
    body = svg.MADE_BY + patterns() + svg.rect(0, 0, WIDTH, height, fill="#ffffff") + content
    looks = {"font_family": FONT, "font_size": 12, "fill": INK}
    return svg.tag("svg", body, xmlns="http://www.w3.org/2000/svg", viewBox=f"0 0 {WIDTH} {svg.number(height)}", width=WIDTH, height=height, **looks) + "\n"


def heading(calls: list) -> tuple:
    made, y = "", 20
    for which, call in enumerate(calls):
        letter = f"{'AB'[which]}  " if len(calls) > 1 else ""
        y += 10
        made += svg.text(24, y, letter + (call.name if len(call.name) <= 80 else ".." + call.name[-78:]), font_size=17, font_weight="bold", fill=strips.ink(which, calls))
        y += 19
        made += svg.text(24, y, about(call), fill=FAINT)
        y += 19
        made += svg.text(24, y, ending(call), class_="closing", font_weight=None if call.closing and call.closing.word == "end" else "bold")
        y += 14
    return made, y + 6


def about(call: Call) -> str:
    if not call.rate:
        return "no rate and no ceiling: the log is one line"
    counts = f"{plural(len(call.of('frame')), 'frame')}, {plural(len(call.of('cycle')), 'cycle')}"
    heard = [step.at for step in call.steps if step.at is not None]
    audio = f", {clock(heard[-1], call.rate)} of near audio" if heard else "; times are not known without the recording"
    return f"rate {call.rate:,} Hz; delays up to {call.ceiling:,} ms are searched; {counts}{audio}"


def ending(call: Call) -> str:
    return f"{call.closing.text}: {words.CLOSINGS[call.closing.word]}" if call.closing else words.CUT_OFF


def plot(calls: list, slots: list, axis: Axis, y: float) -> tuple:
    """The panel of delays and the strips below it: what is drawn, where it ends, and which sorts of marks it has."""
    labels = svg.Labels(LEFT, float(RIGHT))
    made, y = across(calls[0], slots, axis, y + 12), y + 34
    every = [list(delays.marks(call, slots, which)) for which, call in enumerate(calls)]
    known = [delays.alignment(call, slots, which) for which, call in enumerate(calls)]
    sorts = {mark.sort for marks in every for mark in marks} | ({"alignment"} if any(known) else set())
    top = y
    if sorts:
        scale = delays.scale(y, calls, every)
        made += delays.grid(scale, axis, calls)
        made += "".join(delays.line(line, axis, scale, which) for which, line in enumerate(known))
        made += "".join(delays.drawn(marks, axis, scale, which, labels) for which, marks in enumerate(every))
        y += delays.HEIGHT + 18
    for sort in ("frame", "cycle", "refusal"):
        for which, call in enumerate(calls):
            strip, y = one_strip(sort, call, which, calls, slots, axis, y, labels)
            made += strip
    if len(calls) > 1:
        made += strips.caption(y, 12, "they part") + strips.parts(axis, slots, y, labels)
        y += 40
    return silent(calls, slots, axis, top, y) + made + ticks(slots, axis, y), y + 68, sorts


def one_strip(sort: str, call: Call, which: int, calls: list, slots: list, axis: Axis, y: float, labels: svg.Labels) -> tuple:
    found = strips.columns(axis, slots, which, sort)
    if not found:
        return "", y
    name = {"frame": "frames", "cycle": "cycles", "refusal": "refusals"}[sort] + (f" {'AB'[which]}" if len(calls) > 1 else "")
    if sort == "frame":
        height = strips.frames_height(axis)
        return strips.caption(y, height, name, strips.ink(which, calls)) + strips.frames(call, axis, found, y), y + height + 8
    if sort == "cycle":
        y += 14 if axis.each == 1 else 26
        return strips.caption(y, strips.CYCLES, name, strips.ink(which, calls)) + strips.cycles(call, axis, found, y, labels), y + strips.CYCLES + 10
    return strips.caption(y, strips.MARKS, name, strips.ink(which, calls)) + strips.refusals(call, axis, found, y, labels), y + strips.MARKS + 14


def across(call: Call, slots: list, axis: Axis, y: float) -> str:
    """The time in the call along the upper edge, where the recording tells it."""
    made, labels = "", svg.Labels(LEFT - 12, float(RIGHT))
    if not call.timed:
        return ""
    for place in axis.ticks(84):
        step = slots[place].steps[0]
        if step and step.at is not None:
            made += labels.place(axis.middle(place), [y], clock(step.at, call.rate), fill=FAINT, font_size=11)
    return made + svg.text(LEFT - 18, y, "time", "end")


def silent(calls: list, slots: list, axis: Axis, top: float, bottom: float) -> str:
    """Rearms, discards and discontinuities have no line in the log: they stand as lines across, before the step that follows them."""
    made, labels = "", svg.Labels(LEFT, float(RIGHT))
    for which, call in enumerate(calls):
        for x, what in dict.fromkeys(unlogged(call, slots, axis, which)):
            cut = what == "discontinuity"
            line = svg.line(x, top - 4, x, bottom, stroke=strips.ink(which, calls), stroke_width=1.4 if cut else 0.9, stroke_dasharray="6 3" if cut else "2 3")
            made += svg.tag("g", line, title=what, class_=what)
            made += labels.place(x, [top - 8], {"discontinuity": "cut", "discard_near": "discard"}.get(what, what), font_size=11, fill=strips.ink(which, calls))
    return made


def unlogged(call: Call, slots: list, axis: Axis, which: int) -> Iterator[tuple]:
    """Where the events of a call that have no line stand, and what they are."""
    at, place = {id(slot.steps[which]): number for number, slot in enumerate(slots) if slot.steps[which]}, 0
    for step in call.steps:
        place = at[id(step)] + 1 if id(step) in at else place
        if step.silent:
            yield min(axis.left(place), axis.end), step.silent


def ticks(slots: list, axis: Axis, y: float) -> str:
    made, labels = svg.line(LEFT, y, axis.end, y, stroke=FAINT), svg.Labels(LEFT - 12, float(RIGHT))
    for place in axis.ticks(84):
        x = axis.middle(place)
        made += svg.line(x, y, x, y + 5, stroke=FAINT) + labels.place(x, [y + 17], slots[place].place, fill=FAINT, font_size=11)
    many = f"one column is {axis.each:,} lines of the log; its frames by their shares in the legend's order, its cycles by the most that was done" if axis.each > 1 else "one column is one line of the log"
    return made + svg.text(LEFT - 18, y + 17, "log line", "end") + svg.text(LEFT, y + 34, many, fill=FAINT, font_size=11)
