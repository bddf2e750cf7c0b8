"""The elements of a picture, as SVG. Lengths are in pixels, from its upper left corner."""
from typing import NamedTuple
from xml.sax.saxutils import escape

INK = "#24292e"


class Box(NamedTuple):
    """A part of the picture."""

    left: float
    top: float
    width: float
    height: float

    @property
    def right(self):
        return self.left + self.width

    @property
    def bottom(self):
        return self.top + self.height


def px(number):
    return f"{number:.1f}".rstrip("0").rstrip(".")


class Drawing:
    """Elements of an SVG, in the order in which they are drawn."""

    def __init__(self):
        self.parts = []

    def box(self, it, colour, more=""):
        place = f"x='{px(it.left)}' y='{px(it.top)}' width='{px(it.width)}' height='{px(it.height)}'"
        self.parts.append(f"<rect {place} rx='2' fill='{colour}'{more}/>")

    def path(self, steps, colour, width=1.0):
        self.parts.append(f"<path d='{steps}' fill='none' stroke='{colour}' stroke-width='{width}'/>")

    def words(self, x, y, said, size=12, anchor="", colour=INK, weight=""):
        """Writes a line of text, which begins at x, or has its `middle` or `end` there."""
        more = f" text-anchor='{anchor}'" if anchor else ""
        more += f" font-weight='{weight}'" if weight else ""
        more += f" fill='{colour}'"
        self.parts.append(f"<text x='{px(x)}' y='{px(y)}' font-size='{size}'{more}>{escape(said)}</text>")

    def written(self, width, height, title):
        size = f"width='{px(width)}' height='{px(height)}' viewBox='0 0 {px(width)} {px(height)}'"
        head = f"<svg xmlns='http://www.w3.org/2000/svg' {size} role='img' font-family='Helvetica, Arial, sans-serif'>"
        return "\n".join([head, f"<title>{escape(title)}</title>", *self.parts, "</svg>\n"])
