"""table.py MEASURED OUT: what measure.py has written, as tables: all of it into OUT, and the few lines that a buyer reads into README.md, between its marks."""
import json
import statistics
import sys

import truth
from contenders import MARGIN

MS = truth.RATE // 1000
OURS = ("careful", "original", "rust")
COLUMNS = {"careful": "careful", "original": "original", "estimator": "WebRTC's estimator", "canceller": "WebRTC's canceller", "gcc_phat": "GCC-PHAT"}
MARKS = ("<!-- rooms: written by compare/rooms/table.py -->", "<!-- rooms: end -->")


def delay_at(one, seconds):
    names = ("family", "number", "sound", "delay", "later", "skew", "gain", "noise", "talk", "direct", "tail")
    return truth.Room(**{name: one[name] for name in names}).truth(int(seconds * truth.RATE))


def off(one, who, moment, delay):
    """By how many samples what was told is off."""
    at = delay_at(one, moment)
    return abs(delay - (max(at - MARGIN, 0) if who in OURS else at))


def serves(one, moment, delay):
    """Whether a canceller can live with it: the echo comes at most 4 ms earlier and 48 ms and the margin later."""
    return -4 * MS <= delay_at(one, moment) - delay <= 48 * MS + MARGIN


def told(one, who):
    return [(moment, delay) for moment, delay in one["by"][who]["told"] if delay is not None]


def within(rooms, who, most):
    """Of these rooms, those whose first answer is off by no more than that."""
    return sum(1 for one in rooms if told(one, who) and off(one, who, *told(one, who)[0]) <= most)


def time_to_find(one, who):
    """When it first told a delay within 5 ms; none counts as the room's whole length."""
    return next((moment for moment, delay in told(one, who) if off(one, who, moment, delay) <= 5 * MS), float(truth.SECONDS))


def time_to_follow(one, who):
    jump = truth.JUMP_AT / truth.RATE
    return next((moment - jump for moment, delay in told(one, who) if moment > jump and serves(one, moment, delay)), None)


def share(count, of):
    return f"{100 * count / of:.1f} %" if of else "-"


def seconds(values):
    return f"{statistics.median(values):.2f} s" if values else "-"


def rows(rooms, who):
    """The cells of one contender over the rooms that it heard, by the name of the row."""
    rooms = [one for one in rooms if who in one["by"]]
    echo = [one for one in rooms if one["delay"] >= 0]
    silent = [one for one in rooms if one["delay"] < 0]
    jumps = [time_to_follow(one, who) for one in rooms if one["family"] == "jump"]
    times = sorted(time_to_find(one, who) for one in echo)
    followed = [time for time in jumps if time is not None]
    own = [one["by"][who] for one in rooms]
    return {
        "rooms heard": str(len(rooms)),
        "echo found, first answer exact to a sample": share(within(echo, who, 1), len(echo)),
        "within 1 ms": share(within(echo, who, MS), len(echo)),
        "within 5 ms": share(within(echo, who, 5 * MS), len(echo)),
        "time until it was within 5 ms, median": seconds(times),
        "in 95 of 100 rooms at most": f"{times[len(times) * 95 // 100]:.2f} s",
        "rooms without an echo where it told one": share(sum(1 for one in silent if told(one, who)), len(silent)),
        "a jump of the delay: followed": share(len(followed), len(jumps)),
        "after, median": seconds(followed),
        "at rest at the end, of echo rooms": share(sum(1 for one in echo if one["by"][who]["rest"]), len(echo)) if who in ("careful", "original") else "-",
        "processor time for a second of sound, median": f"{statistics.median(one['seconds'] for one in own) / truth.SECONDS * 1e3:.2f} ms",
    }


def table(rooms, names):
    cells = {who: rows(rooms, who) for who in names}
    lines = ["| | " + " | ".join(COLUMNS[who] for who in names) + " |", "|---" * (len(names) + 1) + "|"]
    return "\n".join(lines + [f"| {row} | " + " | ".join(cells[who][row] for who in names) + " |" for row in cells[names[0]]])


def good(rooms, who, family):
    count = sum(1 for one in rooms if not told(one, who)) if family == "silent" else within(rooms, who, 1)
    return f"{count} of {len(rooms)}"


def by_family(rooms, names):
    lines = ["| Rooms | how many | " + " | ".join(COLUMNS[who] for who in names) + " |", "|---" * (len(names) + 2) + "|"]
    for family in truth.FAMILIES:
        some = [one for one in rooms if one["family"] == family]
        if some:
            lines.append(f"| {family} | {len(some)} | " + " | ".join(good([one for one in some if who in one["by"]], who, family) for who in names) + " |")
    return "\n".join(lines)


def beside_the_rust(rooms):
    both = [one for one in rooms if "rust" in one["by"]]
    first = sum(1 for one in both if one["by"]["rust"]["told"][:1] == one["by"]["original"]["told"][:1])
    every = sum(1 for one in both if one["by"]["rust"]["told"] == one["by"]["original"]["told"])
    return f"The policy `original` beside the unchanged Rust acquirer: the same first lock in {first} of {len(both)} rooms, to the sample and the frame; the same locks and moves to the end in {every}."


def replace(path, text):
    with open(path) as file:
        paper = file.read()
    begin, end = paper.index(MARKS[0]) + len(MARKS[0]), paper.index(MARKS[1])
    with open(path, "w") as file:
        file.write(f"{paper[:begin]}\n{text}\n{paper[end:]}")


def merged(path):
    """The rooms, each with all that was measured in it."""
    rooms = {}
    with open(path) as file:
        for line in file:
            one = json.loads(line)
            rooms.setdefault((one["family"], one["number"]), one)["by"].update(one["by"])
    return list(rooms.values())


def main():
    rooms = merged(sys.argv[1])
    names = [who for who in COLUMNS if any(who in one["by"] for one in rooms)]
    replace(sys.argv[2], "\n".join([f"{len(rooms)} rooms.\n", table(rooms, names), "", "Exact to a sample by family; of the silent ones, those where nothing was told:", "", by_family(rooms, names), "", beside_the_rust(rooms)]))
    replace("README.md", table(rooms, [who for who in names if who != "canceller"]))


main()
