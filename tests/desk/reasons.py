"""Whether the reasons of tools/desk follow the tracker: its verdict and what it keeps count of, beside the stored answers of the Rust original (tests/tracker)."""

import pathlib
import struct
from typing import Iterator

import stored
import why

from desk import call
from desk.recording import DISCONTINUITY, Event
from desk.tracker import Tracker

RECORD = struct.Struct("<4BI5Q4I")
VERDICTS = ["", "hold", "move", "reacquire"]
TRIGGERS = ["", "edge", "lost", "jump", "seam"]
MADE, SET = 1, 2
# What the last line of each worked example of docs/WHY-IT-GAVE-UP.md must give as its reason, from the page's third column.
REASONS = {
    "lost": ["8 in a row (cycles 2 to 9)", "suspicion is off"],
    "seam": ["4 in a row (cycles 2 to 5)", "suspicion is on since the discontinuity before cycle 1"],
    "edge": ["edge candidate, 3 since", "(cycles 1, 3 and 4)"],
    "jump": ["outside the bands, 900 below the alignment 4,800", "from the 9,000 of cycle 4", "contradiction 4 in a row (cycles 1, 2, 4 and 5)"],
    "move": ["outside the bands, 320 below the alignment 4,800", "confirms the 4,500 that was pending since cycle 1", "8 ms below"],
}


def vectors(folder: pathlib.Path) -> Iterator[str]:
    """Each tracker from its making on. Where the stored calls put a made-up state in its place, no history leads there, and the rest is passed over."""
    tracker, tried = None, 0
    for number, record in enumerate(RECORD.iter_unpack((stored.ROOT / "crates/tracker_suite/data/cycles").read_bytes())):
        kind, verdict, trigger, flags, rate, alignment, delay, target, *kept, _ = record
        if kind in (MADE, SET):
            tracker = Tracker(rate) if kind == MADE else None
            continue
        if tracker is None:
            continue
        said = ""
        if kind == DISCONTINUITY:
            tracker.discontinuity(number)
        else:
            said = tracker.cycle(number, Event(kind, alignment, delay)).text()
        due = " ".join([VERDICTS[verdict], TRIGGERS[trigger]] if trigger else [VERDICTS[verdict], str(target)] if verdict == 2 else [VERDICTS[verdict]])
        delays = [found.delay if found else 0 for found in (tracker.pending, tracker.previous)]
        runs = [len(run) for run in (tracker.edges, tracker.against, tracker.unsure)]
        if said != due or delays + runs != kept or (tracker.cut_before is not None) != bool(flags & 4):
            yield f"stored tracker call {number}: '{said}' and not '{due}', and {delays + runs} is kept and not {kept}"
            tracker = None
        tried += 1
    if tried < 10000:
        yield f"only {tried} stored tracker calls were tried"


def examples(folder: pathlib.Path) -> Iterator[str]:
    for name, table in why.examples(why.PAGE.read_text()):
        (folder / "events").write_bytes(why.recorded(table))
        cycles = [log for _, log in table if log]
        (folder / "log").write_text("\n".join([f"replay rate {why.RATE} ceiling {why.CEILING}", *cycles, f"end frames 0 cycles {len(cycles)}"]) + "\n")
        told = [step for step in call.load(str(folder)).of("cycle") if name in step.line.text.split()]
        if not told or any(part not in told[0].why for part in REASONS[name]):
            yield f"{name}: the reason is '{told[0].why if told else None}'"
