"""measure.py SEED COUNT SILENT OUT CONTENDER ..: lets these contenders hear COUNT rooms of each family by this seed, and SILENT without an echo. Appends a line of JSON to OUT for each room; what stands there already is
not measured again, so that a run can be ended at any time and gone on with."""
import dataclasses
import json
import os
import sys
import tempfile

import contenders
import room
import sounds
import truth


def known(path):
    """Which contender has heard which room."""
    if not os.path.exists(path):
        return set()
    with open(path) as file:
        lines = [json.loads(line) for line in file]
    return {(line["family"], line["number"], who) for line in lines for who in line["by"]}


def rooms(count, silent):
    """Families in turn, so that a run that is ended early has some of each."""
    for number in range(max(count, silent)):
        for family in truth.FAMILIES:
            if number < (silent if family == "silent" else count):
                yield family, number


def measured(folder, made, names):
    one, played, heard = made
    paths = [os.path.join(folder, name) for name in ("played.wav", "heard.wav")]
    room.write(paths[0], played)
    room.write(paths[1], heard)
    return dataclasses.asdict(one) | {"by": {name: contenders.judged(name, *paths) for name in names}}


def main():
    seed, count, silent = (int(word) for word in sys.argv[1:4])
    there = [name for name in sys.argv[5:] if os.path.exists(contenders.CONTENDERS[name][0][0])]
    before = known(sys.argv[4])
    voices = sounds.Voices("target/rooms/voices", truth.RATE)
    with open(sys.argv[4], "a") as out, tempfile.TemporaryDirectory() as folder:
        for family, number in rooms(count, silent):
            names = [name for name in there if (family, number, name) not in before]
            if names:
                print(json.dumps(measured(folder, room.made(seed, family, number, voices), names)), file=out, flush=True)


main()
