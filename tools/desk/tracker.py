"""Why a cycle was judged as it was, from the cycle history alone: docs/WHY-IT-GAVE-UP.md and docs/SPECIFICATION.md, section 10.

`Tracker.cycle` answers the verdict that the rules give and the reason in the page's words, so that a log can be held to it."""

from typing import NamedTuple, Optional

from .numbers import delay, listed
from .recording import EDGE, UNCONFIDENT, Event


class Found(NamedTuple):
    """An interior candidate that is remembered: its delay, and the cycle that found it."""

    delay: int
    cycle: int


class Verdict(NamedTuple):
    word: str  # hold, move or the trigger
    reason: str
    target: Optional[int] = None  # of a move

    def text(self) -> str:
        """The verdict as a log has it."""
        return {"hold": "hold", "move": f"move {self.target}"}.get(self.word, f"reacquire {self.word}")


class Tracker:
    def __init__(self, rate: int):
        self.rate = rate
        self.late, self.early, self.agree, self.apart, self.lead = (max(1, ms * rate // 1000) for ms in (4, 48, 24, 100, 8))
        self.pending: Optional[Found] = None
        self.previous: Optional[Found] = None
        self.unsure, self.edges, self.against = [], [], []  # the cycles of each run
        self.cut_before: Optional[int] = None  # the first cycle after the discontinuity that made the lock suspect

    def discontinuity(self, next_cycle: int):
        self.pending = self.previous = None
        self.unsure, self.edges, self.against = [], [], []
        self.cut_before = next_cycle

    def cycle(self, number: int, event: Event) -> Verdict:
        if event.kind == UNCONFIDENT:
            return self.unconfident(number)
        self.unsure = []
        return self.edge(number) if event.kind == EDGE else self.interior(Found(event.number, number), event.count)

    def unconfident(self, number: int) -> Verdict:
        self.unsure.append(number)
        row = f"unconfident, {len(self.unsure):,} in a row ({span(self.unsure)})"
        if self.cut_before is None:
            return Verdict("lost" if len(self.unsure) >= 8 else "hold", f"{row}; suspicion is off, so eight give up")
        return Verdict("seam" if len(self.unsure) >= 4 else "hold", f"{row}; suspicion is on since the discontinuity before cycle {self.cut_before}, so four give up")

    def edge(self, number: int) -> Verdict:
        self.edges.append(number)
        self.pending = self.previous = None
        reason = f"edge candidate, {len(self.edges):,} since the last interior one or discontinuity ({among(self.edges)}); three give up"
        return Verdict("edge" if len(self.edges) >= 3 else "hold", reason)

    def interior(self, found: Found, alignment: int) -> Verdict:
        self.edges = []
        before, self.previous = self.previous, found
        outside = alignment - found.delay > self.late or found.delay - alignment > self.early
        place = f"interior candidate {delay(found.delay, self.rate)} is {'outside' if outside else 'inside'} the bands, {beside(found.delay, alignment)}"
        return self.outside(found, alignment, before, place) if outside else self.inside(found, before, place)

    def inside(self, found: Found, before: Optional[Found], place: str) -> Verdict:
        self.pending = self.cut_before = None
        return self.escalated(found, before, self.jumped(found, before), place)

    def outside(self, found: Found, alignment: int, before: Optional[Found], place: str) -> Verdict:
        waiting, self.pending = self.pending, found
        if waiting and abs(waiting.delay - found.delay) <= self.agree:
            self.pending = self.cut_before = None
            self.against = []
            return self.moved(found, alignment, f"{place}, and confirms the {waiting.delay:,} that was pending since cycle {waiting.cycle}")
        replaced = f"takes the place of the pending {waiting.delay:,}, which it does not confirm" if waiting else ""
        return self.escalated(found, before, self.jumped(found, before) or replaced, f"{place}, and is pending now")

    def moved(self, found: Found, alignment: int, reason: str) -> Verdict:
        if found.delay >= alignment:
            return Verdict("move", reason, found.delay)
        return Verdict("move", f"{reason}; the move goes 8 ms below it, to be safe", max(0, found.delay - self.lead))

    def jumped(self, found: Found, before: Optional[Found]) -> str:
        """How a candidate contradicts the one before it, or nothing."""
        far = before and abs(before.delay - found.delay) > self.apart
        return f"lies more than 100 ms from the {before.delay:,} of cycle {before.cycle}" if far else ""

    def escalated(self, found: Found, before: Optional[Found], contradiction: str, place: str) -> Verdict:
        if not contradiction:
            self.against = [] if before else self.against
            return Verdict("hold", place)
        self.against.append(found.cycle)
        count = f"contradiction {len(self.against)} in a row ({among(self.against)}); four give up"
        return Verdict("jump" if len(self.against) >= 4 else "hold", f"{place}; it {contradiction}: {count}")


def span(cycles: list) -> str:
    return f"cycle {cycles[0]}" if len(cycles) == 1 else f"cycles {cycles[0]} to {cycles[-1]}"


def among(cycles: list) -> str:
    return f"cycle {cycles[0]}" if len(cycles) == 1 else f"cycles {listed(cycles)}"


def beside(found: int, alignment: int) -> str:
    if found == alignment:
        return f"at the alignment {alignment:,} itself"
    return f"{abs(found - alignment):,} {'above' if found > alignment else 'below'} the alignment {alignment:,}"
