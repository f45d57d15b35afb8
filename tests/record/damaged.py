"""Damages sound files by a seed and has record_main read them: `damaged.py COUNT COMMAND..`. It must refuse each with the referee's reason and make nothing, or make the referee's recording."""

import pathlib
import random
import struct
import subprocess
import sys
import tempfile

sys.dont_write_bytecode = True
sys.path.insert(0, str(pathlib.Path(__file__).resolve().parent))

import referee  # noqa: E402

SOUNDS = sorted((pathlib.Path(__file__).resolve().parent / "sounds").glob("*.wav"))
SEED = 3636


def chunk(dice: random.Random) -> bytes:
    """A chunk that nobody knows, now and then with a size that lies."""
    name = dice.choice([b"LIST", b"bext", b"fact", b"junk", b"fmt ", b"data"])
    body = dice.randbytes(dice.choice([0, 1, 2, 15, 16, 17, 40, 300]))
    size = len(body) if dice.random() < 0.8 else dice.choice([0, 1, 2**31, 2**32 - 1, len(body) + 1])
    return name + struct.pack("<I", size) + body + b"\0" * (len(body) % 2)


def damaged(data: bytes, dice: random.Random) -> bytes:
    data = bytearray(data)
    for _ in range(dice.choice([1, 1, 1, 2, 3])):
        sort = dice.randrange(6)
        if sort == 0:
            data[dice.randrange(min(80, len(data)))] = dice.choice([0, 1, 2, 3, 16, 255, dice.randrange(256)])
        elif sort == 1:
            del data[dice.randrange(len(data)) :]
        elif sort == 2:
            data[12:12] = chunk(dice)
        elif sort == 3:
            at = dice.choice([4, 16, 20, 22, 24, 32, 34, 40])
            data[at : at + 2] = dice.choice([b"\0\0", b"\xff\xff", b"\xfe\xff", b"\x01\0", b"\x03\0", b"\x10\0", b"\x20\0"])
        elif sort == 4:
            at = data.find(b"data")
            data[at + 4 : at + 8] = struct.pack("<I", dice.choice([0, 1, 2, 3, 4, 8, 12, len(data), 2**32 - 1]))
        elif sort == 5:
            data[12:12] = b"junk" + struct.pack("<I", 65500 + dice.randrange(40)) + bytes(65540)
        if not data:
            return b""
    return bytes(data)


def due(sound: referee.Sound, channel: int) -> tuple:
    """The three files of the recording of this sound twice."""
    samples = sound.channel(channel)
    width = struct.calcsize("<" + sound.letter)
    count, piece = len(samples) // width, sound.rate // 100
    entries = b"".join(struct.pack("<IIQ", kind, min(piece, count - k), number) for k in range(0, count, piece) for kind, number in ((1, 0), (2, k)))
    kind = b"" if sound.letter == "f" else struct.pack("<I", 2)
    return struct.pack("<6I", sound.rate, 500, len(entries) // 16, 24 + len(kind), count, count) + kind + entries, samples, samples


def wrong(data: bytes, room: pathlib.Path, command: list, dice: random.Random) -> str:
    file, folder = room / "damaged.wav", room / "made"
    file.write_bytes(data)
    answer = referee.read(data)
    asked = dice.choice([1, 1, 2])
    if not isinstance(answer, str) and asked > answer.channels:
        answer = f"{answer.channels} channels, and no channel {asked}"
    names = [file, file, asked, asked, 500, 0, folder, folder / "far", folder / "near", folder / "events"]
    run = subprocess.run([*command, *map(str, names)], capture_output=True)
    if run.returncode != (1 if isinstance(answer, str) else 0) or run.stdout:
        return f"it ended with {run.returncode}"
    if isinstance(answer, str):
        said = run.stderr.decode(errors="replace")
        return "" if said == f"record: {file}: {answer}\n" and not folder.exists() else f"it said {said!r}, not {answer!r}"
    if run.stderr:
        return f"it said {run.stderr!r}"
    found = tuple((folder / name).read_bytes() for name in ("events", "far", "near"))
    for name in ("events", "far", "near"):
        (folder / name).unlink()
    folder.rmdir()
    return "" if found == due(answer, asked - 1) else "the recording is another"


def main():
    count, command = int(sys.argv[1]), sys.argv[2:]
    dice, refused, bad = random.Random(SEED), 0, 0
    with tempfile.TemporaryDirectory() as folder:
        for k in range(count):
            data = damaged(dice.choice(SOUNDS).read_bytes(), dice)
            refused += isinstance(referee.read(data), str)
            what = wrong(data, pathlib.Path(folder), command, dice)
            if what:
                bad += 1
                print(f"  damaged file {k} of seed {SEED}: {what}")
    print(f"record: {count} damaged sound files, {refused} of them none to the referee, {bad} read otherwise than by it")
    sys.exit(1 if bad else 0)


main()
