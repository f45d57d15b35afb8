"""Reads and writes the events of a recording: docs/SPECIFICATION.md, section 12 (header, events)."""

import pathlib
import struct
from typing import Iterator, NamedTuple, Optional

FAR, NEAR, REARM, DISCARD, UNCONFIDENT, INTERIOR, EDGE, DISCONTINUITY = range(1, 9)
HEADER, ENTRY = struct.Struct("<6I"), struct.Struct("<IIQ")
MOST_SAMPLES = 4096  # in one event
LIMIT = 2**62  # indices, delays and alignments are below it


class Event(NamedTuple):
    kind: int
    count: int = 0  # of samples; of a candidate the alignment
    number: int = 0  # of near samples the first one's index; of a candidate its delay

    def packed(self) -> bytes:
        return ENTRY.pack(*self)

    def good(self) -> bool:
        """Whether the entry itself is none that `bad event` names; whether its samples are there is not asked here."""
        if self.kind in (FAR, NEAR):
            return 1 <= self.count <= MOST_SAMPLES and (self.kind == NEAR or self.number == 0)
        return self.kind in (INTERIOR, EDGE) or (REARM <= self.kind <= DISCONTINUITY and self.count == self.number == 0)


KIND = struct.Struct("<I")  # the sample kind, behind the six numbers of a sibling's header
SAMPLES = {1: ("f", 1), 2: ("h", 32768)}  # by sample kind: how one is stored, and what its number is divided by


class Header(NamedTuple):
    rate: int
    ceiling: int
    events: int
    far: int
    near: int
    kind: Optional[int] = None  # the form of the scope paper has none

    def packed(self) -> bytes:
        return HEADER.pack(self.rate, self.ceiling, self.events, self.offset, self.far, self.near) + (KIND.pack(self.kind) if self.kind else b"")

    @property
    def offset(self) -> int:
        """Where the events begin."""
        return HEADER.size + KIND.size if self.kind else HEADER.size

    @property
    def bin(self) -> int:
        """The samples of a bin: section 6, geometry."""
        return (self.rate + 500) // 1000

    @property
    def frame(self) -> int:
        """The samples of a frame."""
        return max(1, 256 * (self.rate // self.bin) // 1000) * self.bin


class Recording(NamedTuple):
    path: pathlib.Path
    header: Optional[Header]  # none where it is short, or has none of the three forms
    near: Optional[pathlib.Path]  # the near samples, where they are at hand

    def events(self) -> Iterator[Event]:
        """As many events as the header announces and the file has whole."""
        with self.path.open("rb") as file:
            file.seek(self.header.offset)
            left = self.header.events
            while left:
                data = file.read(min(left, MOST_SAMPLES) * ENTRY.size)
                whole = len(data) // ENTRY.size
                yield from map(Event._make, ENTRY.iter_unpack(data[: whole * ENTRY.size]))
                left = left - whole if whole == min(left, MOST_SAMPLES) else 0

    def samples(self, first: int, count: int) -> tuple:
        """Near samples; the first one is counted from the beginning of the near input."""
        letter, divisor = SAMPLES[self.header.kind or 1]
        width = struct.calcsize("<" + letter)
        with self.near.open("rb") as file:
            file.seek(width * first)
            data = file.read(width * count)
        whole = len(data) // width
        return tuple(number / divisor for number in struct.unpack(f"<{whole}{letter}", data[: whole * width]))


def read(path: pathlib.Path, near: Optional[pathlib.Path] = None) -> Recording:
    with path.open("rb") as file:
        data = file.read(HEADER.size + KIND.size)
    return Recording(path, header(data), near)


def header(data: bytes) -> Optional[Header]:
    """The header of any of the three forms, or none. Rate and ceiling are not judged."""
    if len(data) < HEADER.size:
        return None
    rate, ceiling, events, offset, far, near = HEADER.unpack(data[: HEADER.size])
    if offset == HEADER.size:
        return Header(rate, ceiling, events, far, near)
    if offset != HEADER.size + KIND.size or len(data) < offset:
        return None
    (kind,) = KIND.unpack(data[HEADER.size : offset])
    return Header(rate, ceiling, events, far, near, kind) if kind in SAMPLES else None
