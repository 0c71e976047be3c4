"""Reports once more: what a report's text says in version 1 or 2, or the line that can't stand in its place; written plainly from
docs/formats.md and apart from the proved code.

As a number has one way to be written, a line of version 1 that is no heading of a log is one of version 2.
"""
import re

from graphs import first_on_cycle
from tables import KINDS

LIMIT = 1 << 26
# The lines of a history but for `show` and `open`: words as they stand, and words that say what stands there.
HISTORY = [
    form.encode().split(b" ")
    for form in [
        *["start SYSTEM", "change SYSTEM", "make SLOT WORD KIND", "make SLOT WORD KIND from SLOT", "link PORT SLOT NUMBER"],
        *["unlink PORT", "remove SLOT", "close PORT", "reopen PORT", "drained PORT NUMBER", "commit", "abandon", "skipped"],
        *["pending NUMBER", "run NUMBER COUNT", "finish NUMBER NUMBER", "stop"],
    ]
]
OPEN = [b"open", b"PORT", b"NUMBER"]
EVENTS = [[b"miss", b"PORT"]] + [[name, b"PORT", b"NUMBER", b"NUMBER"] for name in b"begin call take more ask hear give end".split()]
MOVED, UNFINISHED, STATUS = [b"moved", b"SLOT"], [b"unfinished", b"SLOT"], [b"status", b"STATUS"]
# Below what each number is.
NUMBERS = {b"NUMBER": 1 << 32, b"COUNT": 1 << 64, b"STATUS": 1 << 8}
LIMITS = {1: {b"SLOT": 255, b"PORT": 1024, **NUMBERS}, 2: {b"SLOT": 1 << 32, b"PORT": 1 << 32, **NUMBERS}}
ARGUMENT_LIMIT = 1 << 24
INTEGER = re.compile(rb"0|-?[1-9][0-9]{0,9}")
SYSTEM = re.compile(rb"[^ (]+\(([^()]*)\)")
KIND = re.compile(rb"([a-z]+)\(([^()]*)\)")


class Fault(Exception):
    """What is wrong with a text."""


def is_number(word, limit):
    """Whether a word is a number below a limit, without leading zeros."""
    return bool(re.fullmatch(rb"0|[1-9][0-9]{0,19}", word)) and int(word) < limit


def is_integer(word):
    return bool(INTEGER.fullmatch(word)) and -(1 << 31) <= int(word) < 1 << 31


def is_system(word):
    """A component with its arguments in parentheses."""
    found = SYSTEM.fullmatch(word)
    return bool(found) and (found[1] == b"" or all(is_integer(arg) for arg in found[1].split(b",")))


def kind_in(word):
    """The kind and the digits of the argument that a word says, if any."""
    found = KIND.fullmatch(word)
    if not found or found[1].decode() not in KINDS or found[2] and not is_number(found[2], 1 << 32):
        return None
    return found[1].decode(), found[2]


def says(word, wanted, limits):
    """Whether a word is the one that stands in a form, or is of what the form says."""
    if wanted in limits:
        return is_number(word, limits[wanted])
    if wanted == b"WORD":
        return word != b""
    if wanted == b"SYSTEM":
        return is_system(word)
    return kind_in(word) is not None if wanted == b"KIND" else word == wanted


def fits(line, form, version):
    words = line.split(b" ")
    return len(words) == len(form) and all(says(word, wanted, LIMITS[version]) for word, wanted in zip(words, form))


def fits_one(line, forms, version):
    """Whether a line is of one of these forms, each of which begins with a word as it stands."""
    name = line.split(b" ", 1)[0]
    return any(form[0] == name and fits(line, form, version) for form in forms)


def is_last(line, version):
    """The end of a log."""
    words = line.split(b" ")
    return fits(line, MOVED, version) or words[0] == b"state" and all(is_number(word, NUMBERS[b"COUNT"]) for word in words[1:])


# ---- graphs that are shown


def node_in(line):
    """The path of a `node` line, and its kind with an argument where that kind has one, or None."""
    words = line.split(b" ")
    node = kind_in(words[2]) if len(words) == 3 and words[0] == b"node" else None
    if node is None or KINDS[node[0]][2] != (node[1] != b"") or node[1] and int(node[1]) >= ARGUMENT_LIMIT:
        return None
    return words[1], node


def has_form(line):
    """Whether a line is `node PATH KIND(ARG)`, or `port` and two words."""
    words = line.split(b" ")
    return len(words) == 3 and (words[0] == b"port" or words[0] == b"node" and kind_in(words[2]) is not None)


def graph_in(lines):
    """The nodes, whose paths rise and aren't empty, and the links that lines show, which may lead anywhere, or None."""
    nodes, links, lines, last = {}, {}, list(lines), b""
    while lines:
        found = node_in(lines.pop(0))
        if found is None or found[0] <= last:
            return None
        path, node = found
        nodes[path], last = node, path
        for name in KINDS[node[0]][1]:
            words = lines.pop(0).split(b" ") if lines else []
            if len(words) != 3 or words[:2] != [b"port", path + b"." + name.encode()]:
                return None
            links[(path, name.encode())] = None if words[2] == b"-" else tuple(words[2].rpartition(b".")[::2])
    return nodes, links


def is_sound(graph):
    """Whether each link leads to a provision, and no services lead from a node to itself."""
    nodes, links = graph
    for target in links.values():
        if target and (target[0] not in nodes or target[1].decode("latin-1") not in KINDS[nodes[target[0]][0]][0]):
            return False
    return first_on_cycle(graph) is None


# ---- the text


class Reader:
    """The lines of a text, one after the other; what stands behind the last line feed is none."""

    def __init__(self, text):
        *self.lines, self.rest = text.split(b"\n")
        self.at, self.version = 0, None

    def next(self):
        """The next line, without passing over it."""
        if self.at == len(self.lines):
            raise Fault("Short")
        return self.lines[self.at]

    def take(self, holds):
        """Passes over the next line, which can stand there where this holds."""
        if not holds:
            raise Fault("BadLine %d" % (self.at + 1))
        self.at += 1
        return self.lines[self.at - 1]

    def heading(self):
        self.take(self.next() in (b"report 1", b"report 2"))
        self.version = int(self.lines[0][-1:])

    def history(self):
        """The paths of the nodes that are made."""
        paths, is_behind_pending = [], False
        while True:
            line = self.next()
            is_open = is_behind_pending and fits(line, OPEN, self.version)
            if line != b"show" and not is_open and not fits_one(line, HISTORY, self.version):
                return paths
            words = line.split(b" ")
            if words[0] == b"show":
                self.show()
            else:
                self.take(words[0] != b"make" or words[1] == b"%d" % len(paths))
            if words[0] == b"make":
                paths.append(words[2])
            is_behind_pending = is_open or words[0] == b"pending"

    def show(self):
        """A graph, which is judged as a whole once a line stands behind it, and before by the forms of its lines."""
        first = end = self.at + 1
        while end < len(self.lines) and self.lines[end].split(b" ")[0] in (b"node", b"port"):
            end += 1
        if end == len(self.lines):
            self.take(all(map(has_form, self.lines[first:end])))
            raise Fault("Short")
        graph = graph_in(self.lines[first:end])
        self.take(graph is not None and is_sound(graph))
        self.at = end

    def log(self, slot, path):
        """The lines of the log of a node."""
        heading = b"log %d" % slot
        self.take(self.next() == (heading if self.version == 1 else heading + b" " + path))
        lines = [heading + b" " + path]
        while fits_one(self.next(), EVENTS, self.version):
            lines.append(self.take(True))
        return lines + [self.take(is_last(self.next(), self.version))]

    def end(self):
        """The lines behind the logs."""
        lines = []
        if fits(self.next(), UNFINISHED, self.version):
            lines.append(self.take(True))
        lines.append(self.take(fits(self.next(), STATUS, self.version)))
        if self.at < len(self.lines) or self.rest:
            self.take(False)
        return lines


def parse(text):
    """What a report says, or why it is refused, as ((version, history, logs, end), fault)."""
    reader = Reader(text)
    try:
        reader.heading()
        paths = reader.history()
        history = reader.lines[1 : reader.at]
        logs = [reader.log(slot, path) for slot, path in enumerate(paths)]
        return (reader.version, history, logs, reader.end()), None
    except Fault as fault:
        return None, str(fault)


def in_version_2(report):
    """The text of a report, as it is written today."""
    _, history, logs, end = report
    return b"".join(line + b"\n" for line in [b"report 2"] + history + sum(logs, []) + end)
