"""What is known of a made room."""
from dataclasses import dataclass

RATE = 16000
SECONDS = 30
LENGTH = RATE * SECONDS
FAMILIES = ["speech", "talk", "music", "chime", "short", "jump", "skew", "silent"]
JUMP_AT = LENGTH // 2
CEILING = int(0.45 * RATE)  # the longest delay


@dataclass
class Room:
    family: str
    number: int
    sound: str  # speech, music or chime
    delay: int  # in samples; -1 where there is no echo
    later: int  # the delay after the jump
    skew: float  # by how many samples the delay grows in a million
    gain: float  # of the echo, in dB
    noise: float  # below the echo, in dB
    talk: float  # of the other's speech, against the echo, in dB; NaN for none
    direct: float  # the direct sound over its tail, in dB
    tail: float  # seconds in which the tail falls by 60 dB

    def truth(self, at):
        """Where the echo is when this near sample is captured, in samples; -1 where there is none."""
        if self.delay < 0:
            return -1
        return (self.delay if at < JUMP_AT else self.later) + round(self.skew * 1e-6 * at)
