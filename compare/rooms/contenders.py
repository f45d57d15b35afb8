"""Who is judged: each a command over two sound files, and what it tells, as moments in seconds and delays in samples."""
import os
import re
import tempfile

LINE = re.compile(r"^ *([\d.]+) s +(lock|move|reacquire|end) *(.*)$")
SAMPLES = re.compile(r"\((\d+) samples\)")
MARGIN = 16  # a lock of ours comes so many samples before the echo, never below 0


def alignments(text):
    """Of the host and of the original: each lock and each move. A lock that was given up stands until the next."""
    found = [LINE.match(line) for line in text.splitlines()]
    return [[float(line[1]), int(SAMPLES.search(line[3])[1])] for line in found if line and line[2] in ("lock", "move")]


def delays(scale):
    def told(text):
        words = [line.split() for line in text.splitlines()]
        return [[float(moment), None if delay == "none" else int(delay) * scale] for moment, delay in words]

    return told


CONTENDERS = {
    "careful": (["target/examples/host", "--policy", "careful", "--cost"], alignments),
    "original": (["target/examples/host", "--policy", "original", "--cost"], alignments),
    "rust": (["target/compare/acquirer"], alignments),
    "canceller": (["target/rooms/webrtc", "canceller"], delays(16)),
    "estimator": (["target/rooms/webrtc", "estimator"], delays(16)),
    "gcc_phat": (["target/rooms/gcc_phat"], delays(1)),
}


def output(command):
    """What a command prints, and its processor time in seconds."""
    with tempfile.TemporaryFile() as out:
        child = os.posix_spawn(command[0], command, os.environ, file_actions=[(os.POSIX_SPAWN_DUP2, out.fileno(), 1)])
        _, status, usage = os.wait4(child, 0)
        if status:
            raise RuntimeError(f"{' '.join(command)} ended with {status}")
        out.seek(0)
        return out.read().decode(), usage.ru_utime + usage.ru_stime


def judged(name, played, heard):
    command, told = CONTENDERS[name]
    text, seconds = output(command + [played, heard])
    return {"told": told(text), "rest": "at rest" in text, "given_up": text.count(" reacquire "), "seconds": seconds}
