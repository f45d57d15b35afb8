"""The upper panel of a picture: regions, moves, candidates and the alignment, as delays in ms."""

from typing import Iterator, NamedTuple

from . import svg
from .page import CALL_INK, FAINT, GRID, INK, LEFT, Axis
from .recording import EDGE, INTERIOR
from .strips import told

HEIGHT = 210
CROWD = 4  # so many marks of one sort in a column are drawn one by one; more become a bar from the least to the largest


class Mark(NamedTuple):
    place: int
    sort: str  # region, move, interior or edge
    ms: float
    title: str


class Scale(NamedTuple):
    top: float  # of the panel
    most: float  # ms at its upper end

    def y(self, ms: float) -> float:
        return self.top + HEIGHT * (1 - ms / self.most)


def marks(call, slots: list, which: int) -> Iterator[Mark]:
    for place, slot in enumerate(slots):
        step = slot.steps[which]
        if step is None:
            continue
        if step.line.word in ("region", "move"):
            yield Mark(place, step.line.word, 1000 * step.line.numbers[1] / call.rate, told(call, [step]))
        if step.event and step.event.kind in (INTERIOR, EDGE):
            yield Mark(place, "interior" if step.event.kind == INTERIOR else "edge", 1000 * step.event.number / call.rate, told(call, [step]))


def alignment(call, slots: list, which: int) -> list:
    """The alignment at each place where it is known: (place, ms or none). From a log alone it is known between a move and a reacquire."""
    known = []
    for place, slot in enumerate(slots):
        step = slot.steps[which]
        if step is None or step.line.sort != "cycle":
            continue
        if step.event and step.event.kind in (INTERIOR, EDGE):
            known.append((place, 1000 * step.event.count / call.rate))
        if step.line.word == "move":
            known.append((place, 1000 * step.line.numbers[1] / call.rate))
        elif step.line.reacquires and not call.timed:
            known.append((place, None))
    return known


def scale(top: float, calls: list, every: list) -> Scale:
    """From 0 to the ceiling, or to the largest delay where the ceiling is much higher or lower."""
    largest = max((mark.ms for marks in every for mark in marks), default=0.0)
    ceiling = max((call.ceiling for call in calls if call.ceiling), default=1)
    return Scale(top, max(1.0, 1.08 * (ceiling if largest <= ceiling <= 3 * largest or largest == 0 else largest)))


def grid(scale: Scale, axis: Axis, calls: list) -> str:
    size = 1.0
    while scale.most / size > 6:
        size *= 2 if f"{size:.0f}"[0] in "15" else 2.5
    made, ms = "", 0.0
    while ms <= scale.most:
        y = scale.y(ms)
        made += svg.line(LEFT, y, axis.end, y, stroke=GRID) + svg.text(LEFT - 8, y + 4, f"{ms:,.0f}" if ms < 1e9 else f"{ms:.3g}", "end", fill=FAINT, font_size=11)
        ms += size
    for ceiling in sorted({call.ceiling for call in calls if call.ceiling and call.ceiling <= scale.most}):
        y = scale.y(ceiling)
        made += svg.line(LEFT, y, axis.end, y, stroke=FAINT, stroke_dasharray="8 4") + svg.text(axis.end - 4, y - 4, f"ceiling {ceiling:,} ms", "end", fill=FAINT, font_size=11)
    return made + svg.text(LEFT - 18, scale.top - 8, "delay, ms", "end")


def shape(mark: Mark, x: float, y: float, which: int, size: float = 1.0) -> str:
    """The first log's marks are filled, the second's are larger and hollow, so that where they agree one is seen inside the other."""
    colour = CALL_INK[which]
    looks = {"fill": colour, "stroke": "#ffffff", "stroke_width": size} if which == 0 else {"fill": "none", "stroke": colour, "stroke_width": 2 * size}
    small = {"fill": "#ffffff" if which == 0 else "none", "stroke": colour, "stroke_width": 1.2 * size}
    more = 3 * which
    made = {
        "region": lambda: svg.circle(x, y, size * (6 + more), **looks),
        "move": lambda: svg.diamond(x, y, size * (7 + more), **looks),
        "interior": lambda: svg.circle(x, y, size * (2.6 + more / 2), **small),
        "edge": lambda: svg.triangle(x, y, size * (4 + more / 2), **small),
    }[mark.sort]()
    return svg.tag("g", made, title=mark.title, class_=mark.sort)


def drawn(found: list, axis: Axis, scale: Scale, which: int, labels: svg.Labels) -> str:
    """Candidates first, so that regions and moves lie above them."""
    crowds = {}
    for mark in found:
        crowds.setdefault((mark.sort in ("region", "move"), mark.place // axis.each, mark.sort), []).append(mark)
    made, named = "", []
    for (_, column, sort), crowd in sorted(crowds.items()):
        x, heights = axis.middle(column * axis.each), [scale.y(mark.ms) for mark in crowd]
        if len(crowd) > CROWD:
            title = f"{len(crowd):,} of sort {sort}, {min(mark.ms for mark in crowd):,.1f} to {max(mark.ms for mark in crowd):,.1f} ms"
            wide = max(1.0, axis.column * (0.9 if sort in ("region", "move") else 0.5))
            made += svg.tag("g", svg.rect(x - wide / 2, min(heights) - 1, wide, max(heights) - min(heights) + 2, fill=CALL_INK[which]), title=title, class_=f"{sort} many")
            continue
        for mark, y in zip(crowd, heights):
            made += shape(mark, x, y, which, axis.size)
            labels.keep_clear(x, y, 6 * axis.size)
            if sort in ("region", "move"):
                named.append((x, y, f"{mark.ms:,.1f} ms"))
    return made + "".join(labels.place(x, [y - 5 - 6 * axis.size, y + 14 + 6 * axis.size], words, fill=INK, font_size=11, paint_order="stroke", stroke="#ffffff", stroke_width=3) for x, y, words in named)


def line(known: list, axis: Axis, scale: Scale, which: int) -> str:
    """The alignment as a line that goes level and then up or down. In a long call no column has more than four corners of it."""
    path, last, before = "", None, None
    for column, ms in corners(known, axis):
        x = axis.middle(column * axis.each)
        if ms is None:
            path += f"H{svg.number(x)}" if last is not None else ""
        elif last is None:
            path += f"M{svg.number(x)} {svg.number(scale.y(ms))}"
        else:
            path += (f"H{svg.number(x)}" if column != before else "") + f"V{svg.number(scale.y(ms))}"
        last, before = ms, column
    if last is not None:
        path += f"H{svg.number(axis.end)}"
    dashes = None if which == 0 else "5 3"
    return svg.tag("path", d=path, class_="alignment", fill="none", stroke=CALL_INK[which], stroke_width=1.6, stroke_dasharray=dashes, opacity=0.75) if path else ""


def corners(known: list, axis: Axis) -> Iterator[tuple]:
    grouped = {}
    for place, ms in known:
        grouped.setdefault(place // axis.each, []).append(ms)
    last = None
    for column, values in grouped.items():
        there = [ms for ms in values if ms is not None]
        few = values if len(values) <= 4 else [values[0], min(there), max(there), values[-1]] if there else values[-1:]
        for ms in few:
            if ms != last:
                yield column, ms
            last = ms
