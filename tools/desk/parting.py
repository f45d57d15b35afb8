"""Where two logs part: the first differing line of each sort, and how many frames and cycles differ.

Frames and cycles are matched by their numbers; headers, refusals and closing lines in their order."""

from typing import NamedTuple, Optional

from .call import Call
from .story import Step

SORTS = ("header", "frame", "cycle", "refusal", "closing")


class Slot(NamedTuple):
    """A place on the common axis: the step of each call there, or none."""

    key: tuple
    steps: tuple

    @property
    def differs(self) -> bool:
        return len({step.line.text if step else None for step in self.steps}) > 1

    @property
    def place(self) -> str:
        return f"{'event' if self.key[0] == 'refusal' else self.key[0]} {self.any().line.number:,}"

    def any(self) -> Step:
        return next(step for step in self.steps if step)


class Difference(NamedTuple):
    sort: str
    texts: tuple  # of both logs; none where a log has no such line


def keyed(call: Call) -> dict:
    """The lines that stand on the axis, by sort and number; refusals by their order."""
    steps, refusals = {}, 0
    for step in call.steps:
        if step.line and step.line.sort in ("frame", "cycle"):
            steps[step.line.sort, step.line.number] = step
        elif step.line and step.line.sort == "refusal":
            steps["refusal", refusals] = step
            refusals += 1
    return steps


def slots(calls: list) -> list:
    """The steps of one call, or of two with what belongs together at one place."""
    tables = [keyed(call) for call in calls]
    if len(tables) == 1:
        return [Slot(key, (step,)) for key, step in tables[0].items()]
    return [Slot(key, tuple(table.get(key) for table in tables)) for key in merged(*tables)]


def merged(first: dict, second: dict) -> list:
    """The keys of both, each in its order where the two orders allow it."""
    order, done, waiting = [], set(), iter(second)
    for key in first:
        if key in second and key not in done:
            for other in waiting:
                if other not in done:
                    order.append(other)
                    done.add(other)
                if other == key:
                    break
        if key not in done:
            order.append(key)
            done.add(key)
    return order + [key for key in second if key not in done]


def first_difference(sort: str, calls: list, axis: list) -> Optional[Difference]:
    if sort in ("frame", "cycle"):
        apart = [slot for slot in axis if slot.key[0] == sort and slot.differs]
        if not apart:
            return None
        steps = min(apart, key=lambda slot: slot.key[1]).steps
        return Difference(sort, tuple(step.line.text if step else None for step in steps))
    lists = [[line.text for line in call.lines if line.sort == sort] for call in calls]
    for place in range(max(map(len, lists))):
        texts = tuple(texts[place] if place < len(texts) else None for texts in lists)
        if texts[0] != texts[1]:
            return Difference(sort, texts)
    return None


def differences(calls: list, axis: list) -> list:
    found = (first_difference(sort, calls, axis) for sort in SORTS)
    return [difference for difference in found if difference]


def count(sort: str, axis: list) -> int:
    return sum(slot.key[0] == sort and slot.differs for slot in axis)
