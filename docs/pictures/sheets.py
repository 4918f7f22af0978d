"""Sheets on which docs/draw draws pictures, and the data in text that they are drawn from."""
import math
import pathlib
import re

TOP = pathlib.Path(__file__).resolve().parent.parent.parent
PICTURES = TOP / "docs" / "pictures"
WIDTH = 800
EDGE = 20

# Colours that differ in brightness too, so that they are told apart without seeing hues. All text is dark, but on DARK.
PAPER, INK, SOFT, FAINT = "#ffffff", "#1a1a1a", "#595959", "#f1f1f1"
BLUE, ORANGE, GREY, DEAD, DARK = "#c6e2f5", "#fbd58a", "#d9d9d9", "#b3b3b3", "#00507f"
DASHES = "5 3"


def width_of(words, size):
    """Returns about how wide a text is, in the widest of the usual fonts."""
    narrow, wide = len(re.findall(r"[iljtfrI.,:;'|!() ]", words)), len(re.findall(r"[mwMWA-HK-Z+=→]", words))
    return size * (0.38 * narrow + 0.78 * wide + 0.63 * (len(words) - narrow - wide))


def wrapped(words, width, size):
    """Returns the lines of a text that is filled to this width."""
    lines = [""]
    for word in words.split():
        longer = f"{lines[-1]} {word}".strip()
        if lines[-1] and width < width_of(longer, size):
            lines.append(word)
        else:
            lines[-1] = longer
    return lines


def spelled(number):
    return f"{number:.1f}".removesuffix(".0")


def attributes(**given):
    """Returns attributes as XML has them: numbers short, and `_` as `-`."""
    texts = {name.replace("_", "-"): spelled(it) if isinstance(it, (int, float)) else it for name, it in given.items() if it not in (None, "")}
    return "".join(f' {name}="{it}"' for name, it in texts.items())


def escaped(words):
    return words.replace("&", "&amp;").replace("<", "&lt;").replace(">", "&gt;")


class Sheet:
    """A picture that is put together shape by shape."""

    def __init__(self, title, about=""):
        self.title, self.parts, self.height = title, [], 0
        self.text(EDGE, 30, title, size=16, weight="bold")
        # below what it is about
        self.top = self.lines(EDGE, 52, about, WIDTH - 2 * EDGE, colour=SOFT) - 5 if about else 46

    def shape(self, name, bottom=0, **given):
        self.parts.append(f"<{name}{attributes(**given)}/>")
        self.height = max(self.height, bottom)

    def box(self, x, y, width, height, fill=PAPER, line=INK, thick=1, dashes="", round=3):
        drawn = {"fill": fill, "stroke": line, "stroke_width": thick, "stroke_dasharray": dashes}
        self.shape("rect", y + height, x=x, y=y, width=width, height=height, rx=round, **drawn)

    def text(self, x, y, words, size=13, at="", weight="", colour="", family=""):
        """A line of text, of which y is the base line. It begins at x, or has its middle or its end there."""
        given = attributes(x=x, y=y, font_size=size, text_anchor=at, font_weight=weight, fill=colour, font_family=family)
        self.parts.append(f"<text{given}>{escaped(words)}</text>")
        self.height = max(self.height, y + size / 3)

    def lines(self, x, y, words, width, size=13, gap=4, **given):
        """A text in lines. Returns where the next line would be."""
        for line in wrapped(words, width, size):
            self.text(x, y, line, size=size, **given)
            y += size + gap
        return y

    def label(self, x, y, words, size=12, fill=PAPER, **given):
        """A text on a ground of its own, so that no line crosses it."""
        width = width_of(words, size) + 6
        self.box(x - width / 2, y - size, width, size + 4, fill=fill, line="none")
        self.text(x, y, words, size=size, at="middle", **given)

    def path(self, points, arrow=False, line=INK, thick=1, dashes="", curved=False):
        """A line through points, or a curve by their Bézier points."""
        spelled_points = [f"{spelled(x)},{spelled(y)}" for x, y in points]
        way = f"M{spelled_points[0]}{'C' if curved else 'L'}{' '.join(spelled_points[1:])}"
        self.shape("path", d=way, fill="none", stroke=line, stroke_width=thick, stroke_dasharray=dashes, marker_end="url(#head)" if arrow else "")

    def legend(self, entries, y=None):
        """A row of small boxes, each with what it means: below what the picture is about, or there."""
        x, y = EDGE, self.top if y is None else y
        for words, given in entries:
            self.box(x, y, 22, 14, **given)
            self.text(x + 28, y + 11.5, words, size=12)
            x += 28 + width_of(words, 12) + 16
        self.top = y + 14

    def heads(self, columns):
        """What stands in the columns of a table, each by where it begins. Returns where its first row begins."""
        for x, words in columns:
            self.text(x, self.top + 30, words, weight="bold")
        return self.top + 42

    def svg(self, mark):
        height = math.ceil(self.height + 14)
        size = f'width="{WIDTH}" height="{height}"'
        head = '<marker id="head" refX="0.5" refY="4" markerWidth="8" markerHeight="8" markerUnits="userSpaceOnUse" orient="auto">'
        lines = [
            f"<!-- {mark} -->",
            f'<svg xmlns="http://www.w3.org/2000/svg" {size} viewBox="0 0 {WIDTH} {height}" role="img" font-family="sans-serif" fill="{INK}">',
            f"<title>{escaped(self.title)}</title>",
            f'<defs>{head}<path d="M0,0L8,4L0,8z"/></marker></defs>',
            f'<rect {size} fill="{PAPER}"/>',
            *self.parts,
            "</svg>",
        ]
        return "\n".join(lines) + "\n"


def text_of(name, end=".txt"):
    return (PICTURES / f"{name}{end}").read_text(encoding="utf-8")


def fields(text):
    """Returns the lines `key: value` of a text, in order; `#` begins a remark."""
    lines = [it for it in text.splitlines() if ": " in it and not it.startswith("#")]
    return [tuple(part.strip() for part in it.split(": ", 1)) for it in lines]


def first(pairs, key):
    return next(value for name, value in pairs if name == key)


def each(pairs, key):
    """Returns the values of a key, each as the list of its parts between bars."""
    return [[part.strip() for part in value.split("|")] for name, value in pairs if name == key]


def numbers(words):
    return [int(it) for it in re.findall(r"\d+", words)]
