"""Whether `./show` says what the logs say."""

import pathlib
import re
import struct
from collections import Counter
from decimal import ROUND_HALF_UP, Decimal
from typing import Iterator

import stored

from desk import call, show

WORDS = stored.ROOT / "tests/desk/demo.txt"
NAMED = ["the document's own", "header with rate 7999", "uncovered, ahead, quiet, flat", "ceiling, then region", "64 frames, mid-four", "small at random 3", "at random 15"]


def ms(samples: int, rate: int) -> str:
    exact = (Decimal(samples) * 1000 / Decimal(rate)).quantize(Decimal("0.001"), ROUND_HALF_UP)
    return f"{exact.normalize():,f} ms"


def due(line: str, rate: int) -> list:
    """What must stand in the row of a log line, by its own text."""
    words = line.split()
    if words[0] == "frame" and words[2] == "banked":
        return [f"frame {int(words[1]):,} ", f"banked: peak {float(stored.value(int(words[3]), 23, 8)):.4f}"]
    if words[0] == "frame" and words[2] == "region":
        return [f"frame {int(words[1]):,} ", f"delay {int(words[3]):,} ({ms(int(words[3]), rate)})", f"correlation {float(stored.value(int(words[4]), 52, 11)):.4f}"]
    if words[0] == "cycle" and words[2] == "move":
        return [f"cycle {int(words[1]):,} ", f"move to {int(words[3]):,} ({ms(int(words[3]), rate)})"]
    if words[0] in ("frame", "cycle"):
        return [f"{words[0]} {int(words[1]):,} ", " ".join(words[2:])]
    return [f"event {int(words[1]):,} ", f"refused with {words[3]}:"] if words[0] == "event" else []


def rows(text: list) -> dict:
    """The rows of the table, by the line of the log."""
    table = text[: text.index("What the words mean")] if "What the words mean" in text else []
    return {int(found[1]): row for row in table if (found := re.match(r" *(\d+)  ", row))}


def wrong_words(recording: stored.Stored, text: list) -> Iterator[str]:
    lines, table = recording.log.splitlines(), rows(text)
    rate = int(lines[0].split()[2]) if lines[0].startswith("replay") else 0
    for place, line in enumerate(lines, 1):
        missing = [part for part in due(line, rate) if part not in table.get(place, "") + " "]
        if missing or (place not in table and not line.startswith("replay")):
            yield f"{recording.name}: the row of '{line}' is '{table.get(place)}'"
    yield from wrong_summary(recording, lines, text)


def wrong_summary(recording: stored.Stored, lines: list, text: list) -> Iterator[str]:
    frames = Counter(line.split()[2] for line in lines if line.startswith("frame "))
    verdicts = Counter(line.split()[2] for line in lines if line.startswith("cycle "))
    summary = "\n".join(text[text.index("Summary") :])
    said = dict((word, int(number.replace(",", ""))) for number, word in re.findall(r"(\d[\d,]*) (\w+)", summary.splitlines()[1].split(":", 1)[-1])) if frames else {}
    if said != frames:
        yield f"{recording.name}: the summary counts the frames {said}"
    if f": {verdicts['hold']:,} hold, {verdicts['move']:,} move, {verdicts['reacquire']:,} reacquire\n" not in summary:
        yield f"{recording.name}: the summary counts other verdicts"
    if f"closing: {lines[-1]}:" not in summary:
        yield f"{recording.name}: the summary ends otherwise than '{lines[-1]}'"


def wrong_times(recording: stored.Stored, shown: call.Call) -> Iterator[str]:
    times = [step.at for step in shown.of("frame")]
    if shown.rate and times != stored.frame_times(recording):
        yield f"{recording.name}: the frames are at {times}"


def all_stored(folder: pathlib.Path) -> Iterator[str]:
    """Every stored log, laid over its recording. That its verdicts are those that the reasons lead to is asked by `load` itself."""
    for recording in stored.every():
        shown = call.load(str(recording.folder(folder / "stored")))
        yield from wrong_words(recording, list(show.text(shown)))
        yield from wrong_times(recording, shown)
        alone = call.load(str(folder / "stored/log"))
        yield from wrong_words(recording, list(show.text(alone)))


def commands(folder: pathlib.Path) -> Iterator[str]:
    """The command itself, on some of them: a folder, a log alone, standard input."""
    for recording in stored.every():
        if recording.name in NAMED:
            place = recording.folder(folder / "named")
            for answer in (stored.run("show", place), stored.run("show", place / "log", place / "events"), stored.run("show", "-", given=recording.log)):
                yield from wrong_words(recording, answer.stdout.splitlines())
                if answer.returncode or answer.stderr:
                    yield f"{recording.name}: status {answer.returncode}, {answer.stderr}"


def many_events(folder: pathlib.Path) -> Iterator[str]:
    """A recording of more events than are read at once: 10,000 candidates that all stand at the alignment."""
    (folder / "events").write_bytes(struct.pack("<6I", 48000, 500, 10000, 24, 0, 0) + struct.pack("<IIQ", 6, 4800, 4800) * 10000)
    (folder / "log").write_text("replay rate 48000 ceiling 500\n" + "".join(f"cycle {k} hold\n" for k in range(10000)) + "end frames 0 cycles 10000\n")
    if any("at the alignment 4,800 itself" not in step.why for step in call.load(str(folder)).of("cycle")):
        yield "many events: a cycle has another reason"


def demo(folder: pathlib.Path) -> Iterator[str]:
    if stored.run("show", "demo").stdout != WORDS.read_text():
        yield "demo: ./show says something else than tests/desk/demo.txt"


def write():
    WORDS.write_text(stored.run("show", "demo").stdout)
