"""The page that a picture stands on: its measures, colours and hatches, and the axis that all its strips share."""

from typing import NamedTuple

from .svg import rect, tag

WIDTH, LEFT, RIGHT = 1040, 96, 1016
MOST_COLUMNS = 230  # of a long call, several steps share a column
WIDEST = 58  # a column of a short call
INK, FAINT, GRID = "#222222", "#666666", "#dddddd"
CALL_INK = ("#005b96", "#c44e00")  # the first log, the second log

# Of each answer: its colour, its hatch and the letter that stands in a frame that is too narrow for the word.
LOOKS = {
    "uncovered": ("#c4c4c4", "rising", "u"),
    "ahead": ("#dddddd", "dots", "a"),
    "quiet": ("#f7f7f7", "", "q"),
    "flat": ("#ebebe4", "level", "f"),
    "banked": ("#a9cfe8", "", "b"),
    "weak": ("#ffe694", "upright", "w"),
    "ceiling": ("#f0a04b", "grid", "c"),
    "crowded": ("#d988bd", "falling", "x"),
    "region": ("#0b5345", "", "R"),
}
HATCHES = {
    "rising": "M0 6L6 0",
    "falling": "M0 0L6 6",
    "level": "M0 3H6",
    "upright": "M3 0V6",
    "grid": "M3 0V6M0 3H6",
    "dots": "M2 2H4V4H2Z",
}
GIVEN_UP = {"edge": ("#7b1e1e", "E"), "lost": ("#b03a2e", "L"), "jump": ("#d35400", "J"), "seam": ("#6c3483", "S")}


def patterns() -> str:
    """The fill of each answer: a colour, and lines over it that tell it from the others without colours."""
    made = ""
    for word, (colour, hatch, _) in LOOKS.items():
        lines = tag("path", d=HATCHES[hatch], stroke="#555555", stroke_width=0.9, fill="none") if hatch else ""
        made += tag("pattern", rect(0, 0, 6, 6, fill=colour) + lines, id=f"of-{word}", width=6, height=6, patternUnits="userSpaceOnUse")
    return tag("defs", made)


class Axis(NamedTuple):
    """Where each step of a call stands: one step after the other from left to right, as many to a column as fit the page."""

    steps: int

    @property
    def each(self) -> int:
        """The steps of a column."""
        return max(1, -(-self.steps // MOST_COLUMNS))

    @property
    def columns(self) -> int:
        return -(-self.steps // self.each)

    @property
    def column(self) -> float:
        """The width of a column."""
        return min(float(WIDEST), (RIGHT - LEFT) / max(1, self.columns))

    @property
    def size(self) -> float:
        """How large marks are, for the narrower the columns the smaller: 1 at most."""
        return max(0.5, min(1.0, self.column / 12))

    @property
    def end(self) -> float:
        return LEFT + self.column * self.columns

    def left(self, step: int) -> float:
        return LEFT + self.column * (step // self.each)

    def middle(self, step: int) -> float:
        return self.left(step) + self.column / 2

    def ticks(self, apart: float) -> list:
        """Steps at even distances, so many points apart at least."""
        least = max(1.0, apart / self.column) * self.each
        size = 1
        while size < least:
            size *= 2 if str(size)[0] != "2" else 2.5
        return list(range(0, self.steps, int(size)))
