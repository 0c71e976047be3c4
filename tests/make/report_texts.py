"""Texts of reports in both versions: those of random scripts, and those of lines that are filled at random; as they are or edited.

`text(rng)` gives one that most often is a report or nearly so.
"""
import answers
import descriptions
import evolving
import graphs
import reports
import runs
import scripts
from tables import KINDS

# The forms of all lines but headings.
FORMS = reports.HISTORY + [reports.OPEN] + reports.EVENTS + [reports.MOVED, reports.UNFINISHED, reports.STATUS, [b"node", b"WORD", b"KIND"]]
FORMS += [[b"state"] + [b"COUNT"] * count for count in range(9)]
# Words that can stand in a line, those on the edge of what can, and those that most often can't.
PATHS = [b"a", b"b", b"m", b"p.F[0].next", b"F[00]", b"a.in", b"a(1)", b"-", b"node", b"log", b"\xff\0", b"a\r", b"\t", b"x" * 99]
EDGES = [b"%d" % (limit + more) for limit in (255, 1024, 1 << 24, 1 << 32, 1 << 64) for more in (-1, 0)]
ODD = b"00 01 007 -0 -1 +1 1. 1e1 0x1 one 1\r 1\t \t1 1\0 \xd9\xa1 \xff 99999999999999999999999".split(b" ") + [b"", b"0" * 5000 + b"1", b"9" * 5000]
SYSTEMS = [b"C()", b"C(1)", b"Line(3,-10)", b"C(2147483647,-2147483648)", b"9)x(0)", b"and()", b"\xff()", b"x" * 99 + b"(" + b"0," * 99 + b"0)"]
WILD_SYSTEMS = b"C C( C) () C(,) C(1,) C(-0) C(01) C(+1) C(2147483648) C(-2147483649) C(1)(2) C((1)) C()x C(1,2 C(a) (1)".split(b" ") + [b""]
ARGUMENTS = b" 0 7 16777215 16777216 4294967295".split(b" ")
WILD_KINDS = b"map map( map) map(x) map(-1) map(01) map(4294967296) map(1)x map((1)) map(1)(1) map(1,2) Map(1) nokind() (1) \xff()".split(b" ") + [b""]
TAILS = [b"x", b"\n", b"status 0\n", b" ", b"#\n", b"\0"]
HEADINGS = [b"report 1", b"report 2", b"report 3", b"report 0", b"report 02", b"report", b"report 1 ", b" report 1", b"Report 1", b"report 1\r", b"\xef\xbb\xbfreport 1", b""]


def of_a_script(rng):
    """The lines of the report of a random script."""
    while True:
        text, script = evolving.script(rng)
        said, _ = scripts.parse_script(script)
        try:
            return runs.report(answers.statements_of(said, {"a.dar": text}))[1].split(b"\n")[:-1]
        except answers.Refusal:
            continue


def in_version(version, lines):
    """The same report as programs of today or older ones write it."""
    if version == 2:
        return lines
    return [b"report 1"] + [b" ".join(line.split(b" ")[:2]) if line.startswith(b"log ") else line for line in lines[1:]]


class Filled:
    """A report whose lines are filled at random, and say nothing that a run would do."""

    def __init__(self, rng):
        self.rng = rng
        self.version = rng.choice([1, 2])
        self.paths = []

    def word(self, wanted):
        if wanted in reports.LIMITS[self.version]:
            return self.rng.choice([b"0", b"1", b"7", b"%d" % (reports.LIMITS[self.version][wanted] - 1)])
        if wanted == b"KIND":
            return b"%s(%s)" % (self.rng.choice(list(KINDS)).encode(), self.rng.choice(ARGUMENTS))
        return self.rng.choice({b"WORD": PATHS, b"SYSTEM": SYSTEMS}.get(wanted, [wanted]))

    def line(self, form):
        return b" ".join(self.word(wanted) for wanted in form)

    def said(self):
        """One line of a history, with those that belong to it."""
        rng = self.rng
        if rng.random() < 0.1:
            return [b"show"] + graph_lines(rng)
        form = rng.choice(reports.HISTORY)
        line = self.line(form)
        if form[0] == b"make":
            words = line.split(b" ")
            line = b" ".join([b"make", b"%d" % len(self.paths)] + words[2:])
            self.paths.append(words[2])
        opens = rng.choice([0, 1, 1, 2]) if form[0] == b"pending" else 0
        return [line] + [self.line(reports.OPEN) for _ in range(opens)]

    def crowd(self):
        """As many nodes as version 1 has slots, one fewer or one more."""
        self.paths = [b"n"] * self.rng.choice([254, 255, 256])
        return [b"make %d n fork()" % slot for slot in range(len(self.paths))]

    def log(self, slot, path):
        rng = self.rng
        events = [self.line(rng.choice(reports.EVENTS)) for _ in range(rng.choice([0, 1, 3]))]
        state = [b"state"] + [self.word(b"COUNT") for _ in range(rng.choice([0, 1, 1, 3]))]
        return [b"log %d %s" % (slot, path)] + events + [self.line(reports.MOVED) if rng.random() < 0.3 else b" ".join(state)]

    def lines(self):
        rng = self.rng
        lines = [b"report 2"] + (self.crowd() if rng.random() < 0.02 else [])
        for _ in range(rng.randrange(20)):
            lines += self.said()
        for slot, path in enumerate(self.paths):
            lines += self.log(slot, path)
        lines += [self.line(reports.UNFINISHED)] if rng.random() < 0.4 else []
        return in_version(self.version, lines + [self.line(reports.STATUS)])


def graph_lines(rng):
    """The lines of a random graph, one of which is sometimes changed."""
    system, above = evolving.Evolving(rng), rng.choice([b"", b"p.F[0]."])
    nodes = {above + path.encode(): (kind, b"" if arg is None else b"%d" % arg) for path, (kind, arg) in sorted(system.nodes.items())}
    links = {(above + owner.encode(), port.encode()): None for owner, port in system.ports()}
    for (owner, port), target in system.links.items():
        links[(above + owner.encode(), port.encode())] = (above + target.encode(), KINDS[system.nodes[target][0]][0][0].encode())
    lines = graphs.graph_text((nodes, links)).split(b"\n")[:-1]
    pick = rng.random()
    if lines and pick < 0.1:
        edit_line(rng, lines, rng.randrange(len(lines)))
    if lines and 0.1 < pick < 0.25:
        edit_argument(rng, lines)
    return back_to_itself(lines) if pick > 0.97 else lines


def edit_argument(rng, lines):
    """Gives a node another argument, or one where its kind has none."""
    at = rng.choice([at for at, line in enumerate(lines) if line.startswith(b"node ")])
    lines[at] = lines[at][: lines[at].index(b"(") + 1] + rng.choice(ARGUMENTS[:5]) + b")"


def back_to_itself(lines):
    """A graph in which the last of the nodes that have both ports leads to itself, where there is one."""
    for at in range(len(lines) - 1, -1, -1):
        words = lines[at].split(b" ")
        owner, _, port = words[1].rpartition(b".")
        if words[0] == b"port" and port in (b"next", b"left", b"to"):
            provision = {b"next": b"in", b"left": b"dine", b"to": b"move"}[port]
            return lines[:at] + [b" ".join(words[:2] + [owner + b"." + provision])] + lines[at + 1 :]
    return lines


# ---- edits


def spot(rng, lines):
    """The place of a line: of any, or of any that begins with some word, so that seldom ones are chosen too."""
    if rng.random() < 0.3:
        return rng.randrange(len(lines))
    verb = rng.choice(sorted({line.split(b" ")[0] for line in lines}))
    return rng.choice([at for at, line in enumerate(lines) if line.split(b" ")[0] == verb])


def spoil(rng, lines):
    """Puts one word in the place of another of its kind, which can't stand there."""
    at, version = spot(rng, lines), int(lines[0][-1:])
    form = next((form for form in FORMS if reports.fits(lines[at], form, version)), None)
    if form is None:
        return
    words = lines[at].split(b" ")
    place = rng.choice([place for place, wanted in enumerate(form) if wanted.isupper()] or [0])
    words[place] = spoilt(rng, form[place], version)
    lines[at] = b" ".join(words)


def spoilt(rng, wanted, version):
    if wanted in reports.LIMITS[version]:
        limit = b"%d" % reports.LIMITS[version][wanted]
        return rng.choice([limit, limit, rng.choice(ODD)])
    return rng.choice({b"WORD": [b""], b"SYSTEM": WILD_SYSTEMS, b"KIND": WILD_KINDS}.get(wanted, [wanted + b"s", wanted.upper(), b""]))


def edit_words(rng, words):
    """Changes one of these words, or puts one in, or takes one out."""
    at, pick = rng.randrange(len(words)), rng.random()
    if words[at].isdigit() and pick < 0.5:
        words[at] = rng.choice([rng.choice(EDGES), rng.choice(ODD)])
    elif pick < 0.5:
        words[at] = rng.choice(SYSTEMS + WILD_SYSTEMS + WILD_KINDS + PATHS)
    elif pick < 0.6:
        words[at] = words[at][: rng.randrange(len(words[at]) + 1)] + rng.choice([b"", b"0", b"\r", b"\t", b")", b"\0", b"s"])
    elif pick < 0.7:
        words[at] = rng.choice(words)
    elif pick < 0.85:
        words.insert(rng.randrange(len(words) + 1), rng.choice(EDGES + ODD + words))
    else:
        del words[at]


def edit_line(rng, lines, at):
    """Changes a line, or its place."""
    pick = rng.random()
    if pick < 0.5:
        words = lines[at].split(b" ")
        edit_words(rng, words)
        lines[at] = b" ".join(words)
    elif pick < 0.6:
        del lines[at]
    elif pick < 0.7:
        lines.insert(rng.choice([at, rng.randrange(len(lines) + 1)]), lines[at])
    elif pick < 0.8:
        other = rng.randrange(len(lines))
        lines[at], lines[other] = lines[other], lines[at]
    elif pick < 0.9:
        lines.insert(rng.randrange(len(lines)), lines.pop(at))
    else:
        lines.insert(at, rng.choice([b"", b"# a line", b"show", b"node a sink()", b"open 0 1", b"log 0 a", b"log 0", b"unfinished 0", b"status 0", b"state", b"commit", lines[at] + b" "]))


def edit_logs(rng, lines):
    """Moves the lines of one log before those of another, or away."""
    starts = [at for at, line in enumerate(lines) if line.startswith(b"log ")]
    if not starts:
        return
    first = rng.choice(starts)
    end = next((at for at in range(first + 1, len(lines)) if lines[at].split(b" ")[0] in (b"log", b"unfinished", b"status")), len(lines))
    log = lines[first:end]
    del lines[first:end]
    if rng.random() < 0.7:
        at = min(rng.choice(starts), len(lines))
        lines[at:at] = log


def some_lines(rng, lines):
    for _ in range(rng.choice([1, 1, 1, 2])):
        if lines:
            edit_line(rng, lines, spot(rng, lines))


def heading(rng, lines):
    lines[0] = rng.choice(HEADINGS)


def cut(rng, text):
    """A part of a text, which ends anywhere, or with some line."""
    last_line = text.rindex(b"\n", 0, -1) + 1
    return text[: rng.choice([0, len(text) - 1, last_line, rng.randrange(len(text)), text.rindex(b"\n", 0, rng.randrange(10, len(text))) + 1])]


LINE_EDITS, LINE_WEIGHTS = [some_lines, spoil, edit_logs, heading], [10, 10, 1, 1]
TEXT_EDITS = [
    descriptions.edited_bytes,
    cut,
    lambda rng, text: text + rng.choice(TAILS),
    lambda rng, text: text.replace(b"\n", b"\r\n"),
    lambda rng, text: text.replace(b" ", b"  ", 1),
]
TEXT_WEIGHTS = [14, 8, 7, 2, 1]


def text(rng):
    lines = in_version(rng.choice([1, 2]), of_a_script(rng)) if rng.random() < 0.5 else Filled(rng).lines()
    pick = rng.random()
    if pick < 0.45:
        rng.choices(LINE_EDITS, LINE_WEIGHTS)[0](rng, lines)
    made = b"".join(line + b"\n" for line in lines)
    return rng.choices(TEXT_EDITS, TEXT_WEIGHTS)[0](rng, made) if pick > 0.8 else made
