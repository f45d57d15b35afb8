"""A plain reader of WAVE files, from the public format alone: what a file holds, or the reason that ./record must give."""

import struct
from typing import NamedTuple, Union

HEAD = 65536
TAGS = {1: 16, 3: 32}  # the bits of a sample by format tag
NAMED = bytes.fromhex("000000001000800000aa00389b71")  # what stands behind the tag in the name of a sub-format


class Sound(NamedTuple):
    letter: str  # of a sample, for struct
    channels: int
    rate: int
    data: bytes

    def channel(self, number: int) -> bytes:
        """The samples of one channel; the first is 0."""
        width = struct.calcsize("<" + self.letter)
        return b"".join(self.data[k + width * number :][:width] for k in range(0, len(self.data), width * self.channels))


def number(data: bytes, at: int, size: int) -> int:
    return int.from_bytes(data[at : at + size], "little")


def chunks(head: bytes) -> Union[str, tuple]:
    at, form = 12, None
    while at + 8 <= len(head):
        name, size = head[at : at + 4], number(head, at + 4, 4)
        if name == b"data":
            return (form, at + 8, size) if form else "no fmt chunk before the data"
        if name == b"fmt ":
            form = head[at + 8 : at + 8 + size], size
        at += 8 + size + size % 2
    return "no data chunk in its first 65536 bytes"


def read(data: bytes) -> Union[str, Sound]:
    if len(data) < 12 or data[:4] != b"RIFF":
        return "no RIFF file"
    if data[8:12] != b"WAVE":
        return "a RIFF file, but no WAVE"
    found = chunks(data[:HEAD])
    if isinstance(found, str):
        return found
    (form, length), at, size = found
    tag, channels, rate, _, align, bits = struct.unpack("<HHIIHH", form[:16]) if length >= 16 else [0xFFFE] + [0] * 5
    if length < 16 or tag == 0xFFFE and length < 40:
        return "the fmt chunk is too short"
    if tag == 0xFFFE and form[26:40] == NAMED:
        tag = number(form, 24, 2)
    if tag not in TAGS:
        return f"compressed, or of an unknown format: tag {tag}, and only 1 (PCM) and 3 (float) are read"
    if bits != TAGS[tag]:
        return f"samples of {bits} bits: 16-bit PCM and 32-bit float are read"
    if not channels or align != channels * bits // 8:
        return "channels and bytes of a frame do not fit together"
    if not 8000 <= rate <= 192000:
        return f"a rate of {rate} Hz, outside 8000 to 192000"
    if len(data) < at + size:
        return "cut: the samples run past the file's end"
    if size % align:
        return "the last frame is not whole"
    return Sound("h" if tag == 1 else "f", channels, rate, data[at : at + size])
