"""Lists the events of a recording for people."""

from typing import Iterator

from . import recording as rec
from .numbers import clock, plural
from .trouble import UNREADABLE, Trouble

FORMS = {None: "f32 samples", 1: "f32 samples (kind 1)", 2: "16-bit samples"}
# What an event that uses neither of its fields says.
PLAIN = {
    rec.REARM: "rearm: the scan begins anew",
    rec.DISCARD: "discard near: the frame under way is dropped",
    rec.UNCONFIDENT: "cycle: no confident candidate",
    rec.DISCONTINUITY: "discontinuity",
}
PLACES = {rec.INTERIOR: "interior", rec.EDGE: "edge"}


class Sides:
    """How many samples the events so far have used."""

    def __init__(self):
        self.far = self.near = 0

    def words(self, event: rec.Event) -> str:
        """What an event says; its samples are used behind it."""
        if event.kind == rec.FAR:
            first, self.far = self.far, self.far + event.count
            return f"far   {plural(event.count, 'sample')}, {first:,} to {self.far - 1:,}"
        if event.kind == rec.NEAR:
            self.near += event.count
            return f"near  {plural(event.count, 'sample')}, index {event.number:,} to {event.number + event.count - 1:,}"
        if event.kind in PLACES:
            return f"cycle: {PLACES[event.kind]} candidate {event.number:,}, alignment {event.count:,}"
        return PLAIN.get(event.kind, f"kind {event.kind}, count {event.count:,}, number {event.number:,}")


def heading(header: rec.Header) -> str:
    return (
        f"{FORMS[header.kind]} at {header.rate:,} Hz, ceiling {header.ceiling:,} ms; {plural(header.events, 'event')}, "
        f"{plural(header.far, 'far sample')} ({clock(header.far, header.rate)}), {plural(header.near, 'near sample')} ({clock(header.near, header.rate)})"
    )


def lines(recording: rec.Recording) -> Iterator[str]:
    """The header in words, then a line for each event: its number, the far and the near audio handed over before it, and what it says."""
    header = recording.header
    if header is None or not header.rate:
        raise Trouble(UNREADABLE, f"{recording.path}: the header is none of a recording")
    yield heading(header)
    yield f"{'event':>9}  {'far':<9}  {'near':<9}"
    sides, number = Sides(), 0
    for event in recording.events():
        times = f"{clock(sides.far, header.rate):<9}  {clock(sides.near, header.rate):<9}"
        if not event.good():
            yield f"{number:>9,}  {times}  bad: kind {event.kind}, count {event.count:,}, number {event.number:,}; a replay ends here"
            return
        yield f"{number:>9,}  {times}  {sides.words(event)}"
        number += 1
    if number < header.events:
        yield f"cut: the header announces {plural(header.events, 'event')}, and {number:,} are there"
    elif (sides.far, sides.near) != (header.far, header.near):
        yield f"the events use {sides.far:,} far and {sides.near:,} near samples, which is not what the header announces"
