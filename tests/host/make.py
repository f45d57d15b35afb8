"""make.py FOLDER: the sound files of tests/built/host.sh, by the standard library alone. Noise whose loudness changes as that of speech does is played, and comes back later under other noise."""
import array
import functools
import math
import os
import random
import struct
import sys
import wave

RATE = 16000


@functools.lru_cache(None)
def noise(seed, seconds):
    draw = random.Random(seed).random
    out = []
    for _ in range(seconds * RATE // 80):
        loud = draw()
        out += [(2 * draw() - 1) * loud for _ in range(80)]
    return out


def bells(seconds):
    """A ring tone: notes of four partials that die away, one loop of 2.4 s after the other."""
    loop = [0.0] * (24 * RATE // 10)
    for at, pitch in ((0, 880), (0.18, 1108.7), (0.42, 1318.5), (0.55, 880), (0.9, 1760), (1.05, 1318.5), (1.4, 1108.7)):
        for i in range(int(0.9 * RATE)):
            time = i / RATE
            loud = min(1, time / 0.004) * math.exp(-time / 0.16)
            loop[int(at * RATE) + i] += loud * sum(weight * math.sin(2 * math.pi * pitch * ratio * time) for ratio, weight in ((1, 1), (2.76, 0.5), (5.4, 0.25), (8.9, 0.1)) if pitch * ratio < 7200) / 3
    return [loop[i % len(loop)] for i in range(seconds * RATE)]


def heard(played, early, late, loud=0.1):
    """An echo that comes `early` samples later in the first half and `late` samples later in the second; None for no echo."""
    other = noise(2, len(played) // RATE)
    delays = [early if i < len(played) // 2 else late for i in range(len(played))]
    return [loud * other[i] + (0.5 * played[i - delay] if delay is not None and i >= delay else 0) for i, delay in enumerate(delays)]


def write(path, *channels, rate=RATE):
    with wave.open(path, "wb") as file:
        file.setnchannels(len(channels))
        file.setsampwidth(2)
        file.setframerate(rate)
        file.writeframes(array.array("h", (int(30000 * sample) for frame in zip(*channels) for sample in frame)).tobytes())


def write_floats(path, samples):
    """A WAV file of floats, which can hold what is no number."""
    body = struct.pack(f"<{len(samples)}f", *samples)
    head = struct.pack("<4sI4s4sIHHIIHH4sI", b"RIFF", 36 + len(body), b"WAVE", b"fmt ", 16, 3, 1, RATE, 4 * RATE, 4, 32, b"data", len(body))
    with open(path, "wb") as file:
        file.write(head + body)


def main():
    os.makedirs(sys.argv[1], exist_ok=True)
    os.chdir(sys.argv[1])
    played = noise(1, 12)
    write("played.wav", played)
    for name, early, late in (("230", 3680, 3680), ("0", 0, 0), ("jump", 1600, 6400), ("drift", 3680, 4480), ("silent", None, None)):
        write(f"{name}.wav", heard(played, early, late))
    rung = bells(12)
    write("bells.wav", rung)
    write("bells-200.wav", heard(rung, 3200, 3200, loud=0.02))
    write("stereo.wav", heard(played, None, None), heard(played, 3680, 3680))
    write("slow.wav", played, rate=8000)
    write("odd.wav", played, rate=4000)
    write("short.wav", played[: RATE])
    write("empty.wav", [])
    write_floats("nan.wav", [float("nan") if i in (5, 70000) else sample for i, sample in enumerate(heard(played, 3680, 3680))])
    with open("text.wav", "w") as file:
        file.write("no sound at all\n")


main()
