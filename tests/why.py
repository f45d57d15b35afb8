"""Holds docs/WHY-IT-GAVE-UP.md to the Rust original: `why.py REPLAY`, where `REPLAY EVENTS FAR NEAR` prints the log of a recording.

Each worked example is made into a recording of its first column. The page's own command must list that recording as the first column does, and the log must have the
lines of the second."""

import pathlib
import re
import subprocess
import sys
import tempfile

sys.dont_write_bytecode = True
sys.path.insert(0, str(pathlib.Path(__file__).resolve().parent.parent / "tools"))

from desk.recording import DISCONTINUITY, EDGE, INTERIOR, UNCONFIDENT, Event, Header  # noqa: E402

PAGE = pathlib.Path(__file__).resolve().parent.parent / "docs/WHY-IT-GAVE-UP.md"
RATE, CEILING = 48000, 500
EXAMPLES = ["lost", "seam", "edge", "jump", "move"]


def examples(text):
    """The worked examples: for each its name, and its rows as (recording, log line)."""
    for part in text.split("\n### ")[1:]:
        name = "move" if part.startswith("A move") else re.match(r"`(\w+)`", part)[1]
        rows = [[cell.strip() for cell in line.strip("|").split("|")] for line in part.splitlines() if line.startswith("|")]
        yield name, [(recording, log.strip("`")) for recording, log, _ in rows[2:]]


def event(recording):
    """The event that a line of the list stands for. An edge candidate's numbers are not listed, since no rule uses them."""
    if recording == "discontinuity":
        return Event(DISCONTINUITY)
    found = recording.split(": ", 1)[1]
    if found == "unconfident":
        return Event(UNCONFIDENT)
    if found == "edge candidate":
        return Event(EDGE, 4800, 9600)
    delay, alignment = re.fullmatch(r"interior candidate (\d+), alignment (\d+)", found).groups()
    return Event(INTERIOR, int(alignment), int(delay))


def recorded(rows):
    """The events file of an example."""
    return Header(RATE, CEILING, len(rows), 0, 0).packed() + b"".join(event(recording).packed() for recording, _ in rows)


def printed(command, **how):
    return subprocess.run(command, check=True, stdout=subprocess.PIPE, text=True, **how).stdout.splitlines()


def wrong_rows(name, rows, command, replay, folder):
    """What is wrong with an example."""
    path = pathlib.Path(folder) / name
    path.write_bytes(recorded(rows))
    listed = printed(["sh", "-c", command.replace("EVENTS", str(path))])
    cycles = [log for _, log in rows if log]
    log = printed([*replay, str(path), "/dev/null", "/dev/null"])
    if listed != [recording for recording, _ in rows]:
        yield f"{name}: the page's command lists {listed}"
    if log != [f"replay rate {RATE} ceiling {CEILING}", *cycles, f"end frames 0 cycles {len(cycles)}"]:
        yield f"{name}: the log is {log}"
    if not re.search(rf"\b{name}\b", " ".join(cycles)):
        yield f"{name}: no line of it says so"


def main():
    text = PAGE.read_text()
    command = re.search(r"```sh\n(.*?)```", text, re.S)[1]
    found = list(examples(text))
    wrong = [] if [name for name, _ in found] == EXAMPLES else [f"the examples are {[name for name, _ in found]}"]
    with tempfile.TemporaryDirectory() as folder:
        for name, rows in found:
            wrong += wrong_rows(name, rows, command, sys.argv[1:], folder)
    for line in wrong:
        print(f"why: {line}")
    print(f"why: {len(found)} worked examples, {len(wrong)} things wrong")
    sys.exit(1 if wrong else 0)


if __name__ == "__main__":
    main()
