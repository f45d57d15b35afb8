"""Whether what is no log is refused, with its line and the reason, and never by a crash."""

import pathlib
import random
from typing import Iterator

import stored

from desk import call, trouble

DEMO = (stored.ROOT / "demo/log").read_text()
# What is done to the demo's log, the line that is named, and what is said of it.
DAMAGE = [
    (lambda log: "", 1, "the file is empty"),
    (lambda log: log.replace("replay rate 8000", "replay rate 7999"), 1, "a number is larger or smaller"),
    (lambda log: log.replace("ceiling 250", "ceiling 4001"), 1, "a number is larger or smaller"),
    (lambda log: log.split("\n", 1)[1], 1, "a log does not begin with 'frame 0 banked 1064797111'"),
    (lambda log: log + "cycle 11 hold\n", 24, "nothing follows 'end frames 10 cycles 11'"),
    (lambda log: log.replace("frame 3 ", "frame 4 "), 5, "frame 4 stands where frame 3 is due"),
    (lambda log: log.replace("frame 3 ", "frame 03 "), 5, "no log line"),
    (lambda log: log.replace("cycle 2 move 641", "cycle 2 move 4611686018427387904"), 14, "a number is larger or smaller"),
    (lambda log: log.replace("cycle 2 move 641", "cycle 2 move"), 14, "no log line: 'cycle 2 move'"),
    (lambda log: log.replace("seam", "seem"), 22, "no log line: 'cycle 10 reacquire seem'"),
    (lambda log: log.replace("frame 1 banked", "frame 1 Banked"), 3, "no log line"),
    (lambda log: log.replace("\n", "\r\n"), 1, "no log line: 'replay rate 8000 ceiling 250?'"),
    (lambda log: log.replace("cycle 0 hold\n", "cycle 0 hold\n\n"), 13, "it is empty"),
    (lambda log: log.replace("cycle 0 hold", "event 4 refused 8"), 12, "a number is larger or smaller"),
    (lambda log: log.replace("frames 10 cycles", "frames 9 cycles"), 23, "its end line counts 9 and 11"),
    (lambda log: log.replace("end frames", "x" * 70000), 23, "no log line: 'xxx"),
    (lambda log: log.replace("cycle 0 hold\n", "replay rate 8000 ceiling 250\n"), 12, "a log begins with"),
]


def refusal(*names) -> tuple:
    """The status with which a call is refused and what is said; 0 where it is not."""
    try:
        call.load(*map(str, names))
        return 0, ""
    except trouble.Trouble as refused:
        return refused.status, str(refused)


def damaged(folder: pathlib.Path) -> Iterator[str]:
    log = folder / "damaged"
    for number, (harm, line, reason) in enumerate(DAMAGE):
        log.write_text(harm(DEMO), newline="")
        status, said = refusal(log)
        if status != 8 or not said.startswith(f"{log}: line {line}: ") or reason not in said or "\n" in said or len(said) > 300:
            yield f"damage {number} ends with {status}: {said}"


def at_random(folder: pathlib.Path) -> Iterator[str]:
    """One byte changed, taken out or put in: the log is refused at that line, or where a line was cut or joined at the next, or it is still a log."""
    chance, log = random.Random(36), folder / "changed"
    logs = [recording.log for recording in stored.every()]
    for number in range(2000):
        text = bytearray(chance.choice(logs).encode())
        place = chance.randrange(len(text))
        line = text[:place].count(b"\n") + 1
        new = bytes([chance.choice(b"0123456789 \n\r\0abcdehorst\xff")]) if chance.random() < 0.8 else b""
        text[place : place + chance.randrange(2)] = new
        log.write_bytes(text)
        status, said = refusal(log)
        if status not in (0, 8) or (status == 8 and f": line {line}: " not in said and f": line {line + 1}: " not in said):
            yield f"change {number} in line {line} ends with {status}: {said}"


def other_recordings(folder: pathlib.Path) -> Iterator[str]:
    """A log with one verdict changed is not the log of its recording any more, and neither is it that of another one."""
    for recording in stored.every():
        cycles = [place for place, line in enumerate(recording.log.splitlines()) if line.startswith("cycle")]
        if not recording.name.startswith("cycles") or not cycles:
            continue
        place = recording.folder(folder / "other")
        lines = recording.log.splitlines()
        changed = cycles[len(cycles) // 2]
        words = lines[changed].split()
        lines[changed] = f"cycle {words[1]} " + ("reacquire jump" if words[2] == "hold" else "hold")
        (place / "log").write_text("\n".join(lines) + "\n")
        status, said = refusal(place)
        if status != 8 or f": line {changed + 1}: '{lines[changed]}' stands where" not in said:
            yield f"{recording.name}: a changed verdict ends with {status}: {said}"
    status, said = refusal(stored.ROOT / "demo/log", stored.ROOT / "demo/second/events")
    if status != 8 or ": line 11: 'frame 9 region" not in said:
        yield f"the log of another recording ends with {status}: {said}"


def statuses(folder: pathlib.Path) -> Iterator[str]:
    """The commands' own statuses: one line on standard error, and nothing on standard output."""
    (folder / "empty").mkdir(exist_ok=True)
    asked = [
        (1, "show", [folder / "none"]),
        (1, "show", [folder / "empty"]),
        (1, "show", ["demo/log", folder / "none"]),
        (2, "show", []),
        (2, "show", ["a", "b", "c"]),
        (2, "show", ["--colour", "demo"]),
        (8, "show", ["README.md"]),
        (8, "show", ["-"]),
        (1, "draw", [folder / "none", folder / "a.svg"]),
        (1, "draw", ["demo", folder / "none/a.svg"]),
        (1, "draw", ["demo", folder]),
        (2, "draw", ["demo"]),
        (2, "draw", ["demo", "-"]),
        (8, "draw", ["README.md", folder / "a.svg"]),
    ]
    for status, command, arguments in asked:
        answer = stored.run(command, *arguments)
        if answer.returncode != status or answer.stdout or len(answer.stderr.splitlines()) != 1 or not answer.stderr.startswith(f"{command}: "):
            yield f"./{command} {arguments} ends with {answer.returncode} and says {answer.stdout[:80]!r}, {answer.stderr!r}"
    for command in ("show", "draw"):
        answer = stored.run(command, "--help")
        if answer.returncode or not all(part in answer.stdout for part in ("Status: 0", "Example:", f"./{command} LOG")):
            yield f"./{command} --help is not whole"
