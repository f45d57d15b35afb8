"""What is played in a made room: speech, music, a chime. All of it follows from the generator of random numbers that is handed in."""
import os
import subprocess
import wave

import numpy

LOUDNESS = 0.08  # of what is played, as a root mean square

SENTENCES = [
    ("en-us", "Good morning everybody, thanks for joining. Let me share my screen, one moment please. Right, the first slide shows the numbers of last quarter, and as you can see they went up by twelve percent."),
    ("en-gb", "Sorry, I was on mute. What I wanted to say is that the delivery is late by about two weeks. The supplier promised to ship on Thursday, but nobody has confirmed it so far."),
    ("en-gb-scotland", "Shall we take a vote on that? Everyone in favour please raise a hand. That is seven against three. Fine, then we keep the present plan until the end of October."),
    ("en-us+f3", "Could you go back to the previous page? I do not understand the third column. Is that per week or per month? Because if it is per week, then the budget is far too small."),
    ("en-gb+f2", "Hello from the second room. We hear an echo of ourselves here, is anybody else hearing that? It has gone now. Perhaps it was the loudspeaker next to the window."),
    ("en-gb-x-rp+m3", "The quick test is this: we play a short sentence, wait a while, and play another one. Then we look at how long it took to come back through the microphone."),
    ("de", "Guten Morgen zusammen. Können Sie mich gut hören? Wir fangen mit dem Bericht vom letzten Quartal an, und danach sprechen wir über den Zeitplan. Bitte unterbrechen Sie mich jederzeit."),
    ("fr+f4", "Bonjour à tous. Est-ce que vous m'entendez bien? Nous commençons par le rapport du trimestre, puis nous parlerons du calendrier. Posez vos questions quand vous voulez."),
]


def scaled(samples):
    return samples * LOUDNESS / numpy.sqrt(numpy.mean(samples**2))


def resampled(samples, rate_in, rate_out):
    count = len(samples) * rate_out // rate_in
    spectrum = numpy.fft.rfft(samples)
    return numpy.fft.irfft(numpy.resize(spectrum[: count // 2 + 1], count // 2 + 1), count)


class Voices:
    """Eight voices of espeak-ng, each with its own text, speed and pitch."""

    def __init__(self, folder, rate):
        self.rate = rate
        self.clips = [self._clip(folder, number) for number in range(len(SENTENCES))]

    def _clip(self, folder, number):
        path = os.path.join(folder, f"voice{number}.wav")
        if not os.path.exists(path):
            os.makedirs(folder, exist_ok=True)
            voice, text = SENTENCES[number]
            subprocess.run(["espeak-ng", "-v", voice, "-s", str(140 + 8 * number), "-p", str(35 + 5 * number), "-w", path, text], check=True)
        with wave.open(path) as file:
            samples = numpy.frombuffer(file.readframes(file.getnframes()), "<i2").astype(float)
            return scaled(resampled(samples, file.getframerate(), self.rate))

    def speech(self, random, count, numbers):
        """Sentences of these voices in turn, cut from the clips at any place, with pauses of 0.2 to 1.5 s."""
        out = numpy.zeros(count)
        at = 0
        while at < count:
            clip = self.clips[numbers[random.integers(len(numbers))]]
            length = int(random.uniform(1.5, 5) * self.rate)
            begin = random.integers(0, max(1, len(clip) - length))
            piece = clip[begin : begin + length][: count - at].copy()
            fade = min(len(piece) // 2, self.rate // 100)
            piece[:fade] *= numpy.linspace(0, 1, fade)
            piece[len(piece) - fade :] *= numpy.linspace(1, 0, fade)
            out[at : at + len(piece)] += piece
            at += len(piece) + int(random.uniform(0.2, 1.5) * self.rate)
        return out


def note(rate, frequency, seconds, decay, partials):
    time = numpy.arange(int(seconds * rate)) / rate
    loud = numpy.minimum(1, time / 0.004) * numpy.exp(-time / decay)
    return loud * sum(numpy.sin(2 * numpy.pi * frequency * ratio * time + ratio) * weight for ratio, weight in partials if frequency * ratio < rate / 2.2)


def add(out, samples, at):
    samples = samples[: max(0, len(out) - at)]
    out[at : at + len(samples)] += samples


def chime(random, rate, count):
    """A ring tone: a loop of 2 to 3 s with seven notes at uneven times and then a rest, the same every time."""
    loop = numpy.zeros(int(random.uniform(2, 3) * rate))
    pitch = 2 ** (random.integers(-4, 5) / 12)
    for at, frequency in zip([0, 0.18, 0.42, 0.55, 0.9, 1.05, 1.4], random.permutation([880, 1108.7, 1318.5, 880, 1760, 1318.5, 1108.7])):
        add(loop, note(rate, frequency * pitch, 0.9, 0.16, [(1, 1), (2.76, 0.5), (5.4, 0.25), (8.9, 0.1)]), int(at * rate))
    return scaled(numpy.tile(loop, count // len(loop) + 1)[:count])


def music(random, rate, count):
    """A beat with hats between, chords that change at every second beat, a melody at random."""
    out = numpy.zeros(count)
    partials = [(k, 1 / k) for k in range(1, 9)]
    beat = int(random.uniform(0.4, 0.6) * rate)
    roots = random.permutation([220, 174.6, 261.6, 196])
    time = numpy.arange(int(0.2 * rate)) / rate
    drum = 2 * numpy.sin(2 * numpy.pi * (50 * time + 6 * numpy.exp(-time * 30))) * numpy.exp(-time / 0.07)
    for number in range(count // beat):
        at = number * beat
        add(out, drum, at)
        for half in (0, beat // 2):
            hat = random.standard_normal(int(0.05 * rate)) * numpy.exp(-numpy.arange(int(0.05 * rate)) / (0.012 * rate))
            add(out, 0.5 * hat, at + half)
            if random.random() < 0.7:
                add(out, 0.7 * note(rate, 440 * 2 ** (random.integers(-5, 12) / 12), 0.4, 0.15, partials), at + half + int(random.uniform(0, 0.01) * rate))
        if number % 2 == 0:
            for third in (1, 1.26, 1.5):
                add(out, 0.4 * note(rate, roots[number // 2 % 4] * third, 1, 0.6, partials), at)
    return scaled(out)
