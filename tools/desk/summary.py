"""The end of what `./show` prints: a call in a few lines."""

from collections import Counter
from itertools import groupby
from typing import Iterator

from . import words
from .call import Call
from .numbers import clock, delay, double, fit, listed, plural
from .story import Step

MOST = 20  # moves or series of reacquires that are listed one by one


def summary(call: Call) -> Iterator[str]:
    yield "Summary"
    frames, cycles = call.of("frame"), call.of("cycle")
    yield f"  {plural(len(frames), 'frame')}{answers(frames)}"
    yield from first_region(call, frames)
    moves = [step for step in cycles if step.line.word == "move"]
    given_up = [step for step in cycles if step.line.reacquires]
    yield f"  {plural(len(cycles), 'cycle')}: {len(cycles) - len(moves) - len(given_up):,} hold, {len(moves):,} move, {len(given_up):,} reacquire"
    yield from short([f"  move: {where(call, step)} to {delay(step.line.numbers[1], call.rate)}" for step in moves], "moves")
    yield from short([reacquired(call, series) for series in serieses(cycles)], "series of reacquires")
    yield from refusals(call)
    yield f"  closing: {call.closing.text}: {words.CLOSINGS[call.closing.word]}" if call.closing else f"  closing: none; {words.CUT_OFF}"


def answers(frames: list) -> str:
    count = Counter(step.line.word for step in frames)
    return ": " + ", ".join(f"{count[word]:,} {word}" for word in words.ANSWERS if word in count) if frames else ""


def where(call: Call, step: Step) -> str:
    time = f" at {clock(step.at, call.rate)}" if step.at is not None else ""
    return f"{step.line.sort} {step.line.number:,}{time}"


def first_region(call: Call, frames: list) -> Iterator[str]:
    regions = [step for step in frames if step.line.word == "region"]
    if regions:
        _, samples, correlation = regions[0].line.numbers
        yield f"  first region: {where(call, regions[0])}: delay {delay(samples, call.rate)}, correlation {fit(double(correlation))}"
    elif frames:
        yield "  first region: none was found"


def serieses(cycles: list) -> list:
    """Reacquires that follow each other with the same trigger: only the first needs a reason, since a reacquire clears nothing."""
    return [list(series) for word, series in groupby(cycles, lambda step: step.line.word if step.line.reacquires else "") if word]


def reacquired(call: Call, series: list) -> str:
    first = series[0]
    more = "" if len(series) == 1 else " and again in the next cycle" if len(series) == 2 else f" and again in the next {len(series) - 1:,} cycles"
    return f"  reacquire {first.line.word}: {where(call, first)}{more}: {first.why or words.TRIGGERS[first.line.word]}"


def short(lines: list, things: str) -> Iterator[str]:
    yield from lines[:MOST]
    if len(lines) > MOST:
        yield f"  and {len(lines) - MOST:,} more {things}"


def refusals(call: Call) -> Iterator[str]:
    for number, group in groupby(sorted(call.of("refusal"), key=lambda step: step.line.numbers[::-1]), lambda step: step.line.numbers[1]):
        events = [step.line.number for step in group]
        yield f"  refused with {number} ({words.REFUSALS[number]}): event {listed(events)}"
