"""A made room: what is played comes back later, weaker and with a tail, under noise and under another's speech. Where the echo is at each moment is known."""
import wave

import numpy

import sounds
from truth import CEILING, FAMILIES, JUMP_AT, LENGTH, RATE, Room


def jumped(random, delay):
    """Another delay at least 60 ms away."""
    while True:
        other = int(random.integers(0, CEILING))
        if abs(other - delay) >= 60 * RATE // 1000:
            return other


def drawn(random, family, number):
    """A room of this family. What all have in common is drawn first and in one order."""
    delay, gain, noise, talk, direct, tail = int(random.integers(0, CEILING)), -random.uniform(6, 30), random.uniform(10, 30), random.uniform(-3, 6), random.uniform(0, 6), random.uniform(0.1, 0.3)
    sound = family if family in ("music", "chime") else "speech"
    if family == "silent":
        sound = ["speech", "speech", "music", "speech", "chime"][number % 5]
        delay, gain, talk = -1, -12, 0 if number % 4 else float("nan")
    if family == "short":
        delay = number % 2 * int(random.integers(0, 8 * RATE // 1000))
    if family not in ("talk", "silent"):
        talk = float("nan")
    later = jumped(random, delay) if family == "jump" else delay
    skew = random.uniform(20, 100) * (1 if number % 2 else -1) if family == "skew" else 0
    return Room(family, number, sound, delay, later, skew, gain, noise, talk, direct, tail)


def convolved(samples, response):
    count = 1 << (len(samples) + len(response) - 1).bit_length()
    return numpy.fft.irfft(numpy.fft.rfft(samples, count) * numpy.fft.rfft(response, count), count)[: len(samples)]


def response(random, direct, tail):
    """The direct sound first, from 2 ms on a tail of noise; of energy 1."""
    time = numpy.arange(int(tail * RATE)) / RATE
    out = random.standard_normal(len(time)) * 10 ** (-3 * time / tail)
    out[: 2 * RATE // 1000] = 0
    out *= 10 ** (-direct / 20) / numpy.sqrt(numpy.sum(out**2))
    out[0] = 1
    return out / numpy.sqrt(numpy.sum(out**2))


def skewed(samples, skew, taps=16):
    """Sample i is what stood at i * (1 - skew / 1e6), by a windowed sinc."""
    place = numpy.arange(len(samples)) * (1 - skew * 1e-6)
    whole = numpy.floor(place).astype(int)
    part = place - whole
    padded = numpy.pad(samples, (taps, taps + 1 + int(len(samples) * abs(skew) * 1e-6)))
    out = numpy.zeros(len(samples))
    for tap in range(-taps // 2 + 1, taps // 2 + 1):
        away = part - tap
        out += padded[whole + tap + taps] * numpy.sinc(away) * numpy.cos(numpy.pi * away / taps) ** 2
    return out


def shifted(samples, delay):
    return numpy.concatenate([numpy.zeros(delay), samples])[: len(samples)]


def echo(room, random, played):
    if room.delay < 0:
        return numpy.zeros(LENGTH)
    wet = convolved(skewed(played, room.skew) if room.skew else played, response(random, room.direct, room.tail)) * 10 ** (room.gain / 20)
    return numpy.where(numpy.arange(LENGTH) < JUMP_AT, shifted(wet, room.delay), shifted(wet, room.later))


def made(seed, family, number, voices):
    """A room by its seed, with what is played in it and what is heard."""
    random = numpy.random.default_rng([seed, FAMILIES.index(family), number])
    room = drawn(random, family, number)
    speakers = list(random.permutation(len(sounds.SENTENCES)))
    if room.sound == "speech":
        played = voices.speech(random, LENGTH, speakers[:3])
    else:
        played = (sounds.music if room.sound == "music" else sounds.chime)(random, RATE, LENGTH)
    heard = echo(room, random, played)
    level = sounds.LOUDNESS * 10 ** (room.gain / 20)
    if not numpy.isnan(room.talk):
        talk = convolved(voices.speech(random, LENGTH, speakers[3:5]), response(random, 6, 0.2))
        heard += sounds.scaled(talk) / sounds.LOUDNESS * level * 10 ** (room.talk / 20)
    heard += random.standard_normal(LENGTH) * level * 10 ** (-room.noise / 20)
    return room, played, heard


def write(path, samples):
    """A WAV file of 16 bits."""
    with wave.open(path, "wb") as file:
        file.setnchannels(1)
        file.setsampwidth(2)
        file.setframerate(RATE)
        file.writeframes((numpy.clip(samples, -1, 1) * 32767).round().astype("<i2").tobytes())
