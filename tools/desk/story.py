"""Lays a log over the recording it was made from: which line belongs to which event, at what time, and why.

Time in the call is the near audio that the recording has handed over by then. Where in an event a frame ends follows from the rules of docs/SPECIFICATION.md,
sections 6 to 8: a frame begins on a multiple of the bin, a finished scan ignores near samples, a rearm, a discard and a hole in the near numbering drop the frame under way."""

import math
from typing import Iterator, NamedTuple, Optional

from . import recording as rec
from .logs import Line, NotALog, quoted
from .tracker import Tracker

COUNTED = ("banked", "weak", "ceiling", "crowded", "region")  # the answers of frames that count
GIVES_UP = 64  # counted frames without a region
SILENT = {rec.REARM: "rearm", rec.DISCARD: "discard_near", rec.DISCONTINUITY: "discontinuity"}


class Step(NamedTuple):
    """A line of the log, or an event that has none, with what the recording says about it."""

    line: Optional[Line] = None
    silent: str = ""  # rearm, discard_near or discontinuity
    at: Optional[int] = None  # near samples handed over by then
    event: Optional[rec.Event] = None  # of a cycle, what it found
    why: str = ""


class Story:
    """Walks through the events with the log in hand."""

    def __init__(self, lines: list, recording: rec.Recording):
        self.lines, self.place = lines, 0
        self.recording, self.header = recording, recording.header
        self.tracker = Tracker(self.header.rate)
        self.far = self.near = 0  # samples handed over
        self.under_way = 0  # samples of the frame under way
        self.last = 0  # the index of the last of them
        self.counted, self.finished = 0, False
        self.cycles = 0  # the number of the next cycle
        self.known = True  # whether it is known how far the frame under way is
        self.ahead = 0  # if not: the place of the next line that is no frame

    def next(self) -> Optional[Line]:
        return self.lines[self.place] if self.place < len(self.lines) else None

    def take(self, **what) -> Step:
        self.place += 1
        return Step(self.lines[self.place - 1], **what)

    def wrong(self, due: str) -> NotALog:
        line = self.next()
        return NotALog(line.place, f"{quoted(line.text)} stands where {due} is due by {self.recording.path}")

    def steps(self) -> Iterator[Step]:
        yield self.take(at=0)
        number = 0
        for event in self.recording.events():
            if self.next() is None or self.ended(number):
                break
            if not event.good():
                raise self.wrong(f"'bad event {number}'")
            yield from self.played(number, event)
            number += 1
        yield from self.unplaced()
        yield from self.closing(number)

    def ended(self, number: int) -> bool:
        """Whether the log ends before an event because it is bad. Frames whose place is not known may stand before that line."""
        line = self.lines[-1]
        return line.word == "bad event" and line.number == number and (not self.known or self.next() is line)

    def played(self, number: int, event: rec.Event) -> Iterator[Step]:
        if event.kind == rec.FAR:
            self.far += event.count
            yield from self.refusal(number)
        elif event.kind == rec.NEAR:
            yield from self.heard(number, event)
            self.near += event.count
        elif event.kind in SILENT:
            yield from self.silent(event)
        else:
            yield from self.judged(number, event)

    def refusal(self, number: int) -> Iterator[Step]:
        line = self.next()
        if line and line.sort == "refusal" and line.number == number:
            yield self.take(at=self.near)

    def silent(self, event: rec.Event) -> Iterator[Step]:
        if event.kind == rec.DISCONTINUITY:
            yield from self.unplaced()
            self.tracker.discontinuity(self.cycles)
        else:
            self.under_way = 0
        if event.kind == rec.REARM:
            self.counted, self.finished = 0, False
        yield Step(silent=SILENT[event.kind], at=self.near)

    # ---- cycles

    def judged(self, number: int, event: rec.Event) -> Iterator[Step]:
        yield from self.unplaced()
        line = self.next()
        if line is None:
            return
        if event.number >= rec.LIMIT:
            if line.text != f"event {number} refused 5":
                raise self.wrong(f"'event {number} refused 5'")
            yield self.take(at=self.near)
            return
        if line.sort != "cycle":
            raise self.wrong("a cycle")
        verdict = self.tracker.cycle(line.number, event)
        if line.text != f"cycle {line.number} {verdict.text()}":
            raise self.wrong(f"'cycle {line.number} {verdict.text()}'")
        self.cycles += 1
        yield self.take(at=self.near, event=event, why=verdict.reason)

    # ---- near samples

    def heard(self, number: int, event: rec.Event) -> Iterator[Step]:
        if not self.known:
            yield from self.perhaps_refused(number)
            return
        heard = 0  # of this event
        kept = None  # the frame under way, where the event's first sample meets a hole
        if self.under_way and event.number != self.last + 1:
            kept, self.under_way = self.under_way, 0
        while not self.finished and heard < event.count:
            if self.under_way == 0:
                heard += -(event.number + heard) % self.header.bin
            missing = self.header.frame - self.under_way
            line = self.next()
            if heard + missing > event.count or (line and line.sort == "refusal" and line.number == number):
                break
            heard, self.under_way = heard + missing, 0
            if line is None:
                return
            if line.sort != "frame":
                raise self.wrong("a frame")
            yield self.take(at=self.near + heard)
            self.count(line)
        line = self.next()
        if line and line.sort == "refusal" and line.number == number and not self.finished:
            self.cut_short(event, heard, line, kept)
            yield self.take(at=self.near + min(heard, event.count))
        elif not self.finished:
            self.under_way += max(0, event.count - heard)
            self.last = event.number + event.count - 1

    def count(self, line: Line):
        self.counted += line.word in COUNTED
        self.finished = line.word == "region" or (line.word in COUNTED and self.counted >= GIVES_UP)

    def cut_short(self, event: rec.Event, heard: int, line: Line, kept: Optional[int]):
        """A refusal drops the rest of the event: how many samples went into the frame under way before it? A refused sample drops no frame, so where it is the event's first one a hole changes nothing."""
        if line.numbers[1] == 5:
            taken, first = max(0, rec.LIMIT - event.number - heard), event.number >= rec.LIMIT
        elif self.recording.near is None:
            self.known = False
            return
        else:
            samples = self.recording.samples(self.near + heard, event.count - heard)
            taken = next((k for k, sample in enumerate(samples) if not math.isfinite(sample)), len(samples))
            first = heard == taken == 0
        if kept is not None and first:
            self.under_way = kept
        elif not first:
            self.under_way += taken
            self.last = event.number + heard + taken - 1

    # ---- where it is not known how far the frame under way is, frames have no time

    def perhaps_refused(self, number: int) -> Iterator[Step]:
        self.ahead = max(self.ahead, self.place)
        while self.ahead < len(self.lines) and self.lines[self.ahead].sort == "frame":
            self.ahead += 1
        line = self.lines[self.ahead] if self.ahead < len(self.lines) else None
        if line and line.sort == "refusal" and line.number == number:
            yield from self.unplaced()
            yield self.take(at=self.near)

    def unplaced(self) -> Iterator[Step]:
        while not self.known and self.next() and self.next().sort == "frame":
            yield self.take()

    def closing(self, number: int) -> Iterator[Step]:
        line = self.next()
        if line is None:
            return
        whole = number == self.header.events
        if not whole and line.text != f"bad event {number}":
            raise self.wrong(f"'bad event {number}'")
        used = (self.far, self.near) == (self.header.far, self.header.near)
        if whole and line.word != ("end" if used else "bad totals"):
            raise self.wrong("the end line" if used else "'bad totals'")
        yield self.take(at=self.near)


def told(lines: list, recording: Optional[rec.Recording]) -> list:
    """The steps of a call. Without a recording they are the lines alone."""
    if recording is None:
        return [Step(line) for line in lines]
    if lines[0].word == "bad header":
        return [Step(lines[0], at=0)]
    if recording.header is None or lines[0].numbers != recording.header[:2]:
        raise NotALog(1, f"{quoted(lines[0].text)} is not what the header of {recording.path} gives")
    return list(Story(lines, recording).steps())
