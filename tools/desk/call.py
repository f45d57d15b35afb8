"""A call as a command line names it: a log, alone or with its recording."""

import pathlib
import sys
from typing import NamedTuple, Optional

from . import logs, recording, story
from .numbers import plain
from .trouble import NO_LOG, UNREADABLE, Trouble


class Call(NamedTuple):
    name: str  # as it was given; what comes from standard input has its recording's
    lines: list
    steps: list
    timed: bool  # whether its recording is at hand

    @property
    def rate(self) -> Optional[int]:
        return self.lines[0].numbers[0] if self.lines[0].sort == "header" else None

    @property
    def ceiling(self) -> Optional[int]:
        return self.lines[0].numbers[1] if self.lines[0].sort == "header" else None

    @property
    def closing(self) -> Optional[logs.Line]:
        return self.lines[-1] if self.lines[-1].sort == "closing" else None

    def of(self, sort: str) -> list:
        """The steps of one sort of lines."""
        return [step for step in self.steps if step.line and step.line.sort == sort]


def read_log(name: str) -> list:
    if name == "-":
        return logs.read(sys.stdin.buffer)
    with open(name, "rb") as file:
        return logs.read(file)


def recorded(name: str) -> recording.Recording:
    """A recording: a folder stands for the files in it, and then the near samples are at hand."""
    path = pathlib.Path(name)
    if not path.is_dir():
        return recording.read(path)
    near = path / "near"
    return recording.read(path / "events", near if near.exists() else None)


def load(name: str, events: Optional[str] = None) -> Call:
    """Reads a call: LOG, LOG with its EVENTS, or a FOLDER that has both."""
    folder = name != "-" and pathlib.Path(name).is_dir()
    log = str(pathlib.Path(name) / "log") if folder else name
    shown = "standard input" if log == "-" else plain(log)
    try:
        lines = read_log(log)
        where = events or (name if folder else None)
        heading = f"the log of {plain(events)}" if log == "-" and events else shown
        return Call(heading, lines, story.told(lines, recorded(where) if where else None), bool(where) and lines[0].sort == "header")
    except OSError as error:
        raise Trouble(UNREADABLE, f"{error.filename or shown}: {error.strerror}") from error
    except logs.NotALog as wrong:
        raise Trouble(NO_LOG, f"{shown}: line {wrong.place}: {wrong}") from wrong
