"""Numbers as people read them."""

import math
import struct


def plain(text: str) -> str:
    """A text without what cannot be printed."""
    return "".join(c if c.isprintable() else "?" for c in text)


def plural(count: int, thing: str) -> str:
    return f"{count:,} {thing}" if count == 1 else f"{count:,} {thing}s"


def listed(items: list, most: int = 6) -> str:
    """Up to so many of the items, and how many more there are."""
    words = [str(item) for item in items[:most]]
    if len(items) > most:
        return ", ".join(words) + f" and {len(items) - most:,} more"
    return " and ".join([", ".join(words[:-1]), words[-1]] if len(words) > 1 else words)


def milliseconds(samples: int, rate: int) -> str:
    """Samples in ms, to the nearest thousandth, without zeros at the end."""
    whole, thousandths = divmod((2_000_000 * samples + rate) // (2 * rate), 1000)
    return f"{whole:,}.{thousandths:03}".rstrip("0").rstrip(".")


def delay(samples: int, rate: int) -> str:
    return f"{samples:,} ({milliseconds(samples, rate)} ms)"


def clock(samples: int, rate: int) -> str:
    """A time in the call: hours where there are any, minutes, seconds and thousandths."""
    thousandths = samples * 1000 // rate
    minutes, rest = divmod(thousandths, 60000)
    shown = f"{minutes % 60:02}:{rest // 1000:02}.{rest % 1000:03}"
    return f"{minutes // 60}:{shown}" if minutes >= 60 else shown


def single(pattern: int) -> float:
    """The f32 of a bit pattern."""
    return struct.unpack("<f", struct.pack("<I", pattern))[0]


def double(pattern: int) -> float:
    """The f64 of a bit pattern."""
    return struct.unpack("<d", struct.pack("<Q", pattern))[0]


def fit(value: float) -> str:
    """A correlation, of which 1 is the best."""
    return f"{value:.4f}" if math.isfinite(value) and abs(value) < 1e6 else f"{value:.4g}"
