"""What pictures share: headings that don't overlap, legends, and boxes and frames in the language of Graphviz."""
from xml.sax.saxutils import escape

# the width of a sign of a sans-serif font beside its size, as fonts in use have it at most
SIGN = 0.62


def width(text, size):
    """How wide a text is, at most, in the unit of the font's size."""
    return SIGN * size * len(text)


def svg(across, down, style, parts):
    """The lines of a picture of this size."""
    yield '<svg xmlns="http://www.w3.org/2000/svg" width="%d" height="%d" viewBox="0 0 %d %d" font-family="sans-serif">' % (across, down, across, down)
    yield "<style>%s</style>" % style
    yield '<rect width="100%" height="100%" fill="#fff"/>'
    yield from parts
    yield "</svg>"


def text(x, y, words, kind=""):
    return '<text x="%.6g" y="%.6g"%s>%s</text>' % (x, y, ' class="%s"' % kind if kind else "", escape(words))


class Rows:
    """Headings in rows: each stands in the first row in which there is room behind the one before it."""

    def __init__(self, size):
        self.size, self.ends = size, []

    def place(self, x, words):
        """The number of the row in which a heading that begins at x stands; headings come in the order of their x."""
        end = x + width(words, self.size) + self.size
        for number, last in enumerate(self.ends):
            if last <= x:
                self.ends[number] = end
                return number
        self.ends.append(end)
        return len(self.ends) - 1


def legend(items, left, right, top, size):
    """The lines of a legend, each item a picture of some 16 by 10 units and a text; and how high it is."""
    x, y, lines = left, top, []
    for picture, words in items:
        across = 22 + width(words, size) + 12
        if x > left and x + across > right:
            x, y = left, y + 18
        lines += ['<g transform="translate(%.6g,%.6g)">%s</g>' % (x, y, picture), text(x + 22, y + 9, words)]
        x += across
    return lines, y + 18 - top


# ---- Graphviz


def digraph(lines):
    """A directed graph, from left to right."""
    return ["digraph {", '  rankdir=LR; ranksep=0.8; fontname="sans-serif"; fontsize=12;', '  node [shape=box, fontname="sans-serif", fontsize=11];',
            '  edge [fontname="sans-serif", fontsize=9, labeldistance=2, arrowsize=0.8];', *lines, "}"]


def quoted(words):
    return '"%s"' % words.replace("\\", "\\\\").replace('"', '\\"').replace("\n", "\\n")


class Frame:
    """An instance that holds others, by the segments of their paths, and the boxes right in it, as (path, name, label, style)."""

    def __init__(self):
        self.frames, self.boxes = {}, []

    def put(self, path, name, label, style=""):
        """Puts a box with this name where its path leads. The label stands below the last segment of the path."""
        *segments, last = path.split(".")
        frame = self
        for segment in segments:
            frame = frame.frames.setdefault(segment, Frame())
        frame.boxes.append((name, "%s\n%s" % (last, label), style))

    def lines(self, path="", indent="  "):
        for name, label, style in self.boxes:
            yield "%s%s [label=%s%s];" % (indent, quoted(name), quoted(label), style)
        for segment, inner in self.frames.items():
            yield "%ssubgraph %s {" % (indent, quoted("cluster_" + path + segment))
            yield "%s  label=%s;" % (indent, quoted(segment))
            yield from inner.lines(path + segment + ".", indent + "  ")
            yield indent + "}"


def arrow(source, target, style=""):
    return "  %s -> %s%s;" % (quoted(source), quoted(target), " [%s]" % style if style else "")
