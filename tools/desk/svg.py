"""The few shapes that the pictures are made of, as SVG text."""

from typing import Optional
from xml.sax.saxutils import escape, quoteattr

MADE_BY = "<!-- made by ./draw of Trimolaveg -->"  # what tells a picture of ours from other files


def number(value: float) -> str:
    return f"{value:.1f}".rstrip("0").rstrip(".") if isinstance(value, float) else str(value)


def tag(name: str, content: str = "", title: str = "", **attributes) -> str:
    """An element. A trailing _ of an attribute is dropped and any other becomes -: class_, stroke_width. The title is what a browser shows under the pointer."""
    given = "".join(f" {key.rstrip('_').replace('_', '-')}={quoteattr(number(value))}" for key, value in attributes.items() if value is not None)
    inner = (f"<title>{escape(title)}</title>" if title else "") + content
    return f"<{name}{given}>{inner}</{name}>" if inner else f"<{name}{given}/>"


def rect(x: float, y: float, width: float, height: float, **attributes) -> str:
    return tag("rect", x=x, y=y, width=width, height=height, **attributes)


def line(x1: float, y1: float, x2: float, y2: float, **attributes) -> str:
    return tag("line", x1=x1, y1=y1, x2=x2, y2=y2, **attributes)


def circle(x: float, y: float, r: float, **attributes) -> str:
    return tag("circle", cx=x, cy=y, r=r, **attributes)


def polygon(points: list, **attributes) -> str:
    return tag("path", d="M" + "L".join(f"{number(x)} {number(y)}" for x, y in points) + "Z", **attributes)


def diamond(x: float, y: float, r: float, **attributes) -> str:
    return polygon([(x, y - r), (x + r, y), (x, y + r), (x - r, y)], **attributes)


def triangle(x: float, y: float, r: float, **attributes) -> str:
    return polygon([(x, y - r), (x + r, y + r * 0.8), (x - r, y + r * 0.8)], **attributes)


def text(x: float, y: float, content: str, anchor: Optional[str] = None, **attributes) -> str:
    return tag("text", escape(content), x=x, y=y, text_anchor=anchor, **attributes)


class Labels:
    """Texts that do not cover each other: one that finds no room is left out."""

    def __init__(self, left: float, right: float):
        self.left, self.right, self.taken, self.said = left, right, [], set()

    def place(self, x: float, heights: list, content: str, **attributes) -> str:
        """A text centred on x at the first of the heights where there is room. The same text is not placed twice over one x."""
        half = (3.9 if "font_weight" in attributes else 3.3) * len(content) + 3
        if (x, content, *heights) in self.said:
            return ""
        self.said.add((x, content, *heights))
        x = min(max(x, self.left + half), self.right - half)
        for y in heights:
            box = (x - half, y - 10, x + half, y + 2)
            if not any(box[0] < other[2] and other[0] < box[2] and box[1] < other[3] and other[1] < box[3] for other in self.taken):
                self.taken.append(box)
                return text(x, y, content, "middle", **attributes)
        return ""

    def keep_clear(self, x: float, y: float, r: float):
        self.taken.append((x - r, y - r, x + r, y + r))
