"""Whether the desk's own rule of where two logs part says what `./parts` prints, whose text is proved: on the demo and on the stored pairs."""

import io
import pathlib
import re
import struct
from typing import Iterator

import stored
from desk import call, logs, parting, story

SUITE = stored.ROOT / "crates/parts_suite"


def told(pair: list) -> bytes:
    """What `./parts` should print of two logs, from the desk's parting."""
    calls = [call.Call("", lines, story.told(lines, None), False) for lines in pair]
    axis = parting.slots(calls)
    first, second = ([line.text for line in lines] for lines in pair)
    if first == second:
        return b"same\n"
    found = "".join(f"{sort}\n< {x or 'nothing'}\n> {y or 'nothing'}\n" for sort, (x, y) in parting.differences(calls, axis))
    place = 1 + next((k for k, (x, y) in enumerate(zip(first, second)) if x != y), min(len(first), len(second)))
    return (found or f"order: line {place}\n").encode() + f"differing frames {parting.count('frame', axis)} cycles {parting.count('cycle', axis)}\n".encode()


def reports() -> Iterator[bytes]:
    """What parts_suite prints, pair by pair: each report ends in its own sort of line."""
    report = b""
    for line in re.findall(rb"[^\n]*\n", (SUITE / "stdout").read_bytes()):
        report += line
        if line == b"same\n" or line.startswith((b"differing frames ", b"refused 8: ")):
            yield report
            report = b""


def pairs() -> Iterator[list]:
    files, begins = [(SUITE / "data" / name).read_bytes() for name in ("first", "second")], [0, 0]
    for lengths in struct.iter_unpack("<2I", (SUITE / "data/index").read_bytes()):
        yield [file[begin : begin + length] for file, begin, length in zip(files, begins, lengths)]
        begins = [begin + length for begin, length in zip(begins, lengths)]


def demo(_: pathlib.Path) -> Iterator[str]:
    pair = [logs.read(io.BytesIO((stored.ROOT / name).read_bytes())) for name in ("demo/log", "demo/second/log")]
    if told(pair) != (stored.ROOT / "crates/parts_main/stdout").read_bytes():
        yield "the demo's two logs: the desk and ./parts say different things"


def suite(_: pathlib.Path) -> Iterator[str]:
    """The stored pairs of which the desk takes both: it asks more of a log than that each line is one."""
    taken = 0
    for number, (pair, report) in enumerate(zip(pairs(), reports(), strict=True)):
        try:
            lines = [logs.read(io.BytesIO(text)) for text in pair]
        except logs.NotALog:
            continue
        taken += 1
        if told(lines) != report:
            yield f"pair {number} of parts_suite: the desk and ./parts say different things"
    if taken < 50:
        yield f"only {taken} pairs of parts_suite are logs to the desk"
