"""Makes the two sounds of demo/call: `make_call.py FOLDER` writes far.wav and near.wav. A voice-like noise is played, and heard 61.25 ms later, softer, over a little noise of the room."""

import math
import pathlib
import random
import struct
import sys

RATE, SAMPLES, DELAY = 8000, 20800, 490


def wave(samples: list) -> bytes:
    """As floats."""
    data = struct.pack(f"<{len(samples)}f", *(x / 32768 for x in samples))
    parts = {b"fmt ": struct.pack("<HHIIHHH", 3, 1, RATE, 4 * RATE, 4, 32, 0), b"fact": struct.pack("<I", len(samples)), b"data": data}
    chunks = b"WAVE" + b"".join(name + struct.pack("<I", len(part)) + part for name, part in parts.items())
    return b"RIFF" + struct.pack("<I", len(chunks)) + chunks


def played(dice: random.Random) -> list:
    """Noise in syllables: its strength rises and falls some times a second."""
    strengths = [dice.choice((0.05, 0.3, 0.6, 1.0)) for _ in range(SAMPLES * 9 // RATE + 2)]
    samples = []
    for k in range(SAMPLES):
        at, rest = divmod(k * 9, RATE)
        turn = (1 - math.cos(math.pi * rest / RATE)) / 2
        samples.append(round(9000 * (strengths[at] * (1 - turn) + strengths[at + 1] * turn) * dice.uniform(-1, 1)))
    return samples


def heard(far: list, dice: random.Random) -> list:
    echo = [0] * DELAY + far[: len(far) - DELAY]
    return [round(0.4 * x + dice.uniform(-12, 12)) for x in echo]


def main():
    folder = pathlib.Path(sys.argv[1])
    dice = random.Random(36)
    far = played(dice)
    (folder / "far.wav").write_bytes(wave(far))
    (folder / "near.wav").write_bytes(wave(heard(far, dice)))


main()
