"""The stored recordings and their logs, which the Rust original wrote, and a reading of both that shares nothing with tools/desk."""

import math
import pathlib
import struct
import subprocess
import sys
from fractions import Fraction
from typing import Iterator, NamedTuple

ROOT = pathlib.Path(__file__).resolve().parent.parent.parent
DATA = ROOT / "crates/replay_suite/data"


class Stored(NamedTuple):
    name: str
    events: bytes
    near: bytes
    log: str

    def folder(self, place: pathlib.Path) -> pathlib.Path:
        """The recording and its log as files."""
        place.mkdir(exist_ok=True)
        (place / "events").write_bytes(self.events)
        (place / "near").write_bytes(self.near)
        (place / "log").write_text(self.log)
        return place


def every() -> Iterator[Stored]:
    names = (DATA / "names").read_text().splitlines()
    files = [(DATA / name).read_bytes() for name in ("events", "far", "near", "logs")]
    begins = [0, 0, 0, 0]
    for name, lengths in zip(names, struct.iter_unpack("<4I", (DATA / "index").read_bytes())):
        events, _, near, log = (file[begin : begin + length] for file, begin, length in zip(files, begins, lengths))
        begins = [begin + length for begin, length in zip(begins, lengths)]
        yield Stored(name.split(" ", 1)[1], events, near, log.decode())


def run(command: str, *arguments, given: str = "") -> subprocess.CompletedProcess:
    return subprocess.run([sys.executable, str(ROOT / command), *map(str, arguments)], input=given, capture_output=True, text=True, cwd=ROOT)


def value(pattern: int, fraction_bits: int, exponent_bits: int) -> Fraction:
    """What an IEEE 754 pattern stands for, by the standard's own formula."""
    fraction = pattern % 2**fraction_bits
    exponent = pattern >> fraction_bits & 2**exponent_bits - 1
    least = 2 - 2 ** (exponent_bits - 1)
    size = Fraction(fraction, 2**fraction_bits) + (exponent > 0)
    return (-1) ** (pattern >> fraction_bits + exponent_bits) * size * Fraction(2) ** (max(exponent, 1) - 1 + least)


def frame_times(stored: Stored) -> list:
    """After how many near samples each frame of a log was full, sample by sample: docs/SPECIFICATION.md, sections 6 to 8."""
    lines = stored.log.splitlines()
    answers = [line.split()[2] for line in lines if line.startswith("frame ")]
    rate, _, count, offset, _, _ = struct.unpack_from("<6I", stored.events)
    shorts = offset == 28 and struct.unpack_from("<I", stored.events, 24) == (2,)
    letter, width = ("h", 2) if shorts else ("f", 4)
    block = (rate + 500) // 1000
    whole = 256 * (rate // block) // 1000 * block
    bad = int(lines[-1].split()[2]) if lines[-1].startswith("bad event") else count
    times, heard, taken, last, counted, finished = [], 0, 0, 0, 0, False
    for event in range(bad):
        kind, size, index = struct.unpack_from("<IIQ", stored.events, offset + 16 * event)
        if kind in (3, 4):
            taken = 0
        if kind == 3:
            counted, finished = 0, False
        samples = struct.unpack_from(f"<{size}{letter}", stored.near, width * heard) if kind == 2 else ()
        for k, sample in enumerate(samples):
            if finished or index + k >= 2**62:
                break
            goes_on = taken > 0 and index + k == last + 1
            if not goes_on and (index + k) % block:
                taken = 0
                continue
            if not math.isfinite(sample):
                break
            taken, last = (taken if goes_on else 0) + 1, index + k
            if taken == whole:
                times.append(heard + k + 1)
                answer, taken = answers[len(times) - 1], 0
                counted += answer in ("banked", "weak", "ceiling", "crowded", "region")
                finished = answer == "region" or (counted >= 64 and answer in ("banked", "weak", "ceiling", "crowded"))
        heard += len(samples)
    return times
