"""Whether the pictures of `./draw` are whole, and hold as many marks as the logs have lines for them."""

import pathlib
import re
from collections import Counter
from typing import Iterator
from xml.etree import ElementTree

import stored

PICTURES = stored.ROOT / "docs/pictures"
MADE = {"demo.svg": ["demo"], "two.svg": ["demo", "demo/second"]}
WORDS = ("uncovered", "ahead", "quiet", "flat", "banked", "weak", "ceiling", "crowded", "region")


def drawn(folder: pathlib.Path, *names) -> tuple:
    """What `./draw` says of some logs, and its picture."""
    out = folder / "picture.svg"
    out.unlink(missing_ok=True)
    answer = stored.run("draw", *names, out)
    return answer, out.read_text() if out.exists() else ""


def marks(picture: str) -> Counter:
    """How many groups of each class a picture has. What stands inside a group, as the legend's samples do, is not counted."""
    return Counter(group.get("class") for group in ElementTree.fromstring(picture).findall("{http://www.w3.org/2000/svg}g") if group.get("class") != "legend")


def texts(picture: str) -> list:
    return [text.text or "" for text in ElementTree.fromstring(picture).iter("{http://www.w3.org/2000/svg}text")]


def due(log: str, events: bytes = b"") -> Counter:
    """The marks that a log asks for where each line has a column of its own: by its text, and by the kinds of its recording's events."""
    count = Counter()
    for words in map(str.split, log.splitlines()):
        if words[0] == "frame":
            count["frame"] += 1
            count["region"] += words[2] == "region"
        if words[0] == "cycle":
            count[f"cycle {words[-1] if words[2] == 'reacquire' else words[2]}"] += 1
            count["move"] += words[2] == "move"
        count["refused"] += words[0] == "event"
    for place in range(24, len(events), 16):
        kind = {3: "rearm", 4: "discard_near", 6: "interior", 7: "edge", 8: "discontinuity"}.get(events[place])
        count[kind] += kind is not None
    return +count


def short_calls(folder: pathlib.Path) -> Iterator[str]:
    """The demo with and without its recording, two logs, and one stored log of each sort."""
    demo, second = (stored.ROOT / "demo/log").read_text(), (stored.ROOT / "demo/second/log").read_text()
    events, other = (stored.ROOT / "demo/events").read_bytes(), (stored.ROOT / "demo/second/events").read_bytes()
    parts = Counter({"differs": 5})  # frame 9 and the cycles 5, 8, 10 and 11
    asked = [(["demo/log"], due(demo)), (["demo"], due(demo, events)), (["demo", "demo/second"], due(demo, events) + due(second, other) + parts)]
    for name in ("uncovered, ahead, quiet, flat", "ceiling, then region", "64 frames, mid-four", "at random 15"):
        log = next(recording.log for recording in stored.every() if recording.name == name)
        (folder / name).write_text(log)
        asked.append(([folder / name], due(log)))
    for names, wanted in asked:
        answer, picture = drawn(folder, *names)
        if answer.returncode or marks(picture) != wanted:
            yield f"{names}: {answer.stderr} {dict(marks(picture)) if picture else None} and not {dict(wanted)}"


def parted(folder: pathlib.Path) -> Iterator[str]:
    """In words where two logs part, written here from the two logs by hand; and two equal logs."""
    _, picture = drawn(folder, "demo", "demo/second")
    wanted = ["Where they part: 1 frame and 4 cycles differ. The first line of each sort that does:", "A: frame 9 region 960 4606893803156706265", "B: nothing"]
    wanted += ["A: cycle 5 move 1095", "B: cycle 5 hold", "A: end frames 10 cycles 11", "B: end frames 9 cycles 12"]
    if any(text not in texts(picture) for text in wanted):
        yield "two logs: where they part is not told"
    _, picture = drawn(folder, "demo/log", "demo/log")
    if "The two logs are the same." not in texts(picture) or marks(picture)["differs"]:
        yield "two equal logs are not told to be the same"


def one_line(folder: pathlib.Path) -> Iterator[str]:
    """A log of one line, in a file whose name has letters that XML keeps for itself."""
    name = folder / "one <line> & \"no\" more"
    for line, told in [("bad header", "bad header: the recording's header cannot be used; nothing was replayed"), ("replay rate 8000 ceiling 1", "the log stops here, without a closing line")]:
        name.write_text(line + "\n")
        answer, picture = drawn(folder, name)
        if answer.returncode or told not in texts(picture) or str(name) not in texts(picture):
            yield f"'{line}' alone: {answer.stderr} {texts(picture) if picture else None}"


def long_log() -> str:
    """A call of 100,000 frames and 50,000 cycles with every answer and verdict, and a refusal now and then."""
    lines, cycles = ["replay rate 48000 ceiling 500"], 0
    for frame in range(100000):
        word = WORDS[frame * frame % 89 % 9]
        lines.append(f"frame {frame} {word}" + {"banked": " 1064797111", "region": f" {frame % 500 * 48} 4606893300438233702"}.get(word, ""))
        if frame % 2:
            lines.append(f"cycle {cycles} " + ["hold", f"move {4800 + frame % 9000}", "reacquire edge", "reacquire lost", "reacquire jump", "reacquire seam"][cycles // 7 % 11 % 6])
            cycles += 1
        if frame % 1000 == 999:
            lines.append(f"event {frame} refused {4 + frame // 1000 % 2}")
    return "\n".join([*lines, f"end frames 100000 cycles {cycles}"]) + "\n"


def long_call(folder: pathlib.Path) -> Iterator[str]:
    """A long call stays below 1 MB, and its legend has the counts."""
    log = long_log()
    (folder / "long").write_text(log)
    answer, picture = drawn(folder, folder / "long")
    if answer.returncode or not 10000 < len(picture.encode()) < 1000000:
        yield f"a long call: {answer.stderr} {len(picture)} letters"
        return
    found = {words.split(":")[0].split()[-1]: words for words in texts(picture) if re.search(r"\([\d,]+\)$", words)}
    for word, number in Counter(line.split()[3] if "reacquire" in line or "refused" in line else line.split()[2] for line in log.splitlines()[1:-1]).items():
        if not found.get(word, "").endswith(f"({number:,})"):
            yield f"a long call: the legend says '{found.get(word)}' of {number} {word}"


def overwriting(folder: pathlib.Path) -> Iterator[str]:
    """Nothing is written over but a picture of ours, and never what is drawn."""
    other, log = folder / "other.svg", folder / "own"
    other.write_text("<svg/>")
    log.write_text((stored.ROOT / "demo/log").read_text())
    before = log.read_text()
    steps = [(1, ["demo", other], "<svg/>"), (0, ["--force", "demo", other], None), (0, ["demo/log", other], None), (2, [log, log], None), (2, ["--force", log, log], None)]
    for number, (status, arguments, left) in enumerate(steps):
        answer = stored.run("draw", *arguments)
        if answer.returncode != status or (left and other.read_text() != left) or log.read_text() != before:
            yield f"overwriting, step {number}: ends with {answer.returncode}: {answer.stderr}"
    if sorted(path.name for path in folder.glob(".*")):
        yield "overwriting: a part of a picture is left behind"


def pictures(folder: pathlib.Path) -> Iterator[str]:
    for name, names in MADE.items():
        if drawn(folder, *names)[1] != (PICTURES / name).read_text():
            yield f"docs/pictures/{name} is not what ./draw {' '.join(names)} makes"


def write():
    for name, names in MADE.items():
        stored.run("draw", *names, PICTURES / name)
