"""SVG for the pictures: text, lines and boxes with one look, numbers to a tenth of a pixel."""

from html import escape

INK, QUIET, RULE, PAPER = "#2a2d31", "#666a70", "#dedbd2", "#fbfaf6"
FONTS = "Helvetica, Arial, 'DejaVu Sans', sans-serif"


class Page:
    """Pieces of SVG, in order."""

    def __init__(self):
        self.parts = []

    def rect(self, x, y, width, height, fill, **more):
        self.parts.append(f'<rect x="{num(x)}" y="{num(y)}" width="{num(width)}" height="{num(height)}" '
                          f'fill="{fill}"{attributes(more)}/>')

    def path(self, d, stroke, title="", **more):
        """With a title, which is shown where one points at the path."""
        more = {"fill": "none", "stroke": stroke, **more}
        close = f"><title>{escape(title)}</title></path>" if title else "/>"
        self.parts.append(f'<path d="{d}"{attributes(more)}{close}')

    def dot(self, x, y, radius, **more):
        self.parts.append(f'<circle cx="{num(x)}" cy="{num(y)}" r="{num(radius)}"{attributes(more)}/>')

    def text(self, x, y, words, fill=INK, size=12, anchor="start", **more):
        self.parts.append(f'<text x="{num(x)}" y="{num(y)}" fill="{fill}" font-size="{size}" '
                          f'text-anchor="{anchor}"{attributes(more)}>{escape(words)}</text>')

    def whole(self, width, height, title):
        head = (f'<svg xmlns="http://www.w3.org/2000/svg" viewBox="0 0 {width} {num(height)}" width="{width}" '
                f'height="{num(height)}" role="img" font-family="{FONTS}">')
        paper = f'<rect width="{width}" height="{num(height)}" fill="{PAPER}"/>'
        return "\n".join([head, f"<title>{escape(title)}</title>", paper, *self.parts, "</svg>", ""])


def num(value):
    return f"{value:.1f}".rstrip("0").rstrip(".")


def attributes(more):
    return "".join(f' {name.replace("_", "-")}="{value}"' for name, value in more.items())
