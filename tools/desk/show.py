"""A log in words: one line for each of its lines, what the words mean, and a summary."""

from typing import Iterator

from . import words
from .call import Call
from .numbers import clock, delay, double, fit, milliseconds, plural, single
from .recording import Header
from .story import Step
from .summary import summary


def text(call: Call, only_summary: bool = False) -> Iterator[str]:
    yield from opening(call)
    if not only_summary:
        yield ""
        yield from table(call)
        yield ""
        yield from meanings(call)
    yield ""
    yield from summary(call)


def opening(call: Call) -> Iterator[str]:
    yield call.name
    if call.rate:
        frame = Header(call.rate, call.ceiling, 0, 0, 0).frame
        yield f"rate {call.rate:,} Hz; delays up to {call.ceiling:,} ms are searched; a frame is {milliseconds(frame, call.rate)} ms of near audio"
        yield "delays are in samples (and ms); time is the near audio handed over so far" if call.timed else "delays are in samples (and ms); times are not known without the recording"


def table(call: Call) -> Iterator[str]:
    rows = [row(call, step) for step in call.steps if not (step.line and step.line.sort == "header")]
    if not call.closing:
        rows.append(("", "", "", words.CUT_OFF))
    rows.insert(0, ("line", "time", "what", "in words"))
    if not call.timed:
        rows = [(place, *rest) for place, _, *rest in rows]
    widths = [max(len(cells[k]) for cells in rows) for k in range(len(rows[0]) - 1)]
    for first, *cells, last in rows:
        yield "  ".join([first.rjust(widths[0]), *(cell.ljust(width) for cell, width in zip(cells, widths[1:])), last]).rstrip()


def row(call: Call, step: Step) -> tuple:
    """Line number, time, what it is about, and what it says."""
    time = "" if not call.timed else "?" if step.at is None else clock(step.at, call.rate)
    if step.line is None:
        return "", time, step.silent, "no line in the log"
    return str(step.line.place), time, subject(step), said(call, step)


def subject(step: Step) -> str:
    line = step.line
    if line.sort in ("frame", "cycle"):
        return f"{line.sort} {line.number:,}"
    return f"event {line.number:,}" if line.sort == "refusal" or line.word == "bad event" else line.word


def said(call: Call, step: Step) -> str:
    line, rate = step.line, call.rate
    if line.word == "banked":
        return f"banked: peak {fit(single(line.numbers[1]))}"
    if line.word == "region":
        return f"region: delay {delay(line.numbers[1], rate)}, correlation {fit(double(line.numbers[2]))}"
    if line.sort == "cycle":
        return judged(call, step)
    if line.word == "refused":
        return f"refused with {line.numbers[1]}: {words.REFUSALS[line.numbers[1]]}"
    if line.word == "end":
        return f"{plural(line.numbers[0], 'frame')} and {plural(line.numbers[1], 'cycle')}: {words.CLOSINGS['end']}"
    return words.CLOSINGS[line.word] if line.sort == "closing" else line.word


def judged(call: Call, step: Step) -> str:
    line = step.line
    verdict = f"move to {delay(line.numbers[1], call.rate)}" if line.word == "move" else f"reacquire {line.word}" if line.reacquires else "hold"
    return f"{verdict}: {step.why}" if step.why else verdict


def meanings(call: Call) -> Iterator[str]:
    """The words that this log has, once."""
    there = {step.line.word if step.line else step.silent for step in call.steps}
    yield "What the words mean"
    for word, meaning in words.MEANINGS.items():
        if word in there:
            yield f"  {word.ljust(14)}  {meaning}"
    for word, meaning in words.REASONS.items():
        if any(word in step.why for step in call.steps):
            yield f"  {word.ljust(14)}  {meaning}"
