"""Reads what the program writes, graphs, plans and reports, and runs the program for it.

A text that is none is refused with its first bad line.
"""
import argparse
import os
import re
import shutil
import subprocess
import sys
from typing import NamedTuple, Optional

from pages import Bad, kinds

# the events of nodes that have a serial and a value
EVENTS = ("begin", "call", "take", "more", "ask", "hear", "give", "end")
# The lines of a report: words as they stand, and what else stands there. NEXT is the number of the node that the line makes, NODE and
# PORT those of a node and of a port that were made.
HISTORY = [
    form.split()
    for form in [
        *["start WORD", "change WORD", "make NEXT WORD KIND", "make NEXT WORD KIND from NODE", "link PORT NODE NUMBER", "unlink PORT"],
        *["remove NODE", "close PORT", "reopen PORT", "drained PORT NUMBER", "pending NUMBER", "open PORT NUMBER", "commit", "abandon"],
        *["skipped", "run NUMBER NUMBER", "finish NUMBER NUMBER", "stop", "show", "node WORD KIND", "port WORD WORD"],
    ]
]
LOGS = [["log", "NODE"], ["log", "NODE", "WORD"], ["moved", "NODE"], ["unfinished", "NODE"], ["status", "NUMBER"], ["miss", "PORT"]]
LOGS += [[name, "PORT", "NUMBER", "NUMBER"] for name in EVENTS]
# what an observer of `live` saw, behind a report
SEEN = ["seen", "NUMBER", "NUMBER", "NUMBER", "NUMBER"]
# no number of a report has more digits
DIGITS = 20
# a line by which the program refuses, in the place of what was wanted
REFUSAL = re.compile(r"usage|no memory|unlawful|read fault .*|denied \d+ \d+|(?:description|script) .*: [A-Z][A-Za-z]*(?: \S+)*")
TOP = os.path.dirname(os.path.dirname(os.path.abspath(__file__)))


def by_name(forms):
    """Forms by their first word and how many words they have."""
    return {(form[0], len(form)): form for form in forms}


HISTORY, LOGS = by_name(HISTORY), by_name(LOGS)


def call(action):
    """What an action of a tool gives. What it can't use ends the tool with status 2; a reader that goes is no fault of it."""
    try:
        result = action()
        sys.stdout.flush()
        return result
    except Bad as bad:
        print("%s: %s" % (os.path.basename(sys.argv[0]), bad), file=sys.stderr)
        sys.exit(2)
    except BrokenPipeError:
        os.dup2(os.open(os.devnull, os.O_WRONLY), sys.stdout.fileno())


KINDS = call(kinds)


def lines_of(text):
    """Lines without their ends, each of which is a line feed."""
    lines = text.split("\n")
    return lines[:-1] if lines[-1] == "" else lines


def standard_input():
    """The lines of standard input."""
    return lines_of(sys.stdin.buffer.read().decode("utf-8", "replace"))


def report_lines(document):
    """The lines of the report that a tool is given: a file's, or those of standard input."""
    made = argparse.ArgumentParser(description=document, formatter_class=argparse.RawDescriptionHelpFormatter)
    made.add_argument("report", nargs="?", metavar="REPORT", help="standard input, where it is left out")
    given = made.parse_args()
    return standard_input() if given.report is None else lines_of(content(given.report).decode("utf-8", "replace"))


def content(name):
    """The bytes of a file."""
    try:
        with open(name, "rb") as file:
            return file.read()
    except OSError as error:
        raise Bad("%s can't be read: %s" % (name, error.strerror))


def save(name, text):
    """Leaves these bytes in a file."""
    try:
        with open(name, "wb") as file:
            file.write(text)
    except OSError as error:
        raise Bad("%s can't be written: %s" % (name, error.strerror))


def beside():
    """The program that is built beside the tools, else the plain statements of it."""
    built = os.path.join(TOP, "crates", "darwin_run", "out", "darwin_run")
    return built if os.access(built, os.X_OK) else os.path.join(TOP, "tests", "plain")


def program():
    """The program that the shell finds, else the one beside the tools."""
    return shutil.which("darwin_run") or beside()


def options(document):
    """A parser of the words of a tool that runs the program."""
    made = argparse.ArgumentParser(description=document, formatter_class=argparse.RawDescriptionHelpFormatter)
    made.add_argument("--program", default=program(), help="else darwin_run where the shell finds it, or the one in crates/darwin_run/out, or tests/plain")
    return made


def came(program, *words, **options):
    """A run of the program: its status, and the bytes that it writes."""
    try:
        run = subprocess.run([program, *words], stdout=subprocess.PIPE, **options)
    except OSError as error:
        raise Bad("the program %s can't be run: %s" % (program, error.strerror))
    return run.returncode, run.stdout


def ran(program, *words):
    """The same, without standard input, and with what it writes as a text."""
    status, written = came(program, *words, stdin=subprocess.DEVNULL)
    return status, written.decode("utf-8", "replace")


def written(program, *words):
    """The lines that a run of the program writes; a refusal is passed on."""
    status, text = ran(program, *words)
    if status:
        raise Bad("%s ends with status %d: %s" % (" ".join([program, *words]), status, text.strip()))
    return lines_of(text)


def bad_line(number, line, what):
    """That a line is none of a text, with the front of it, since it may be long or no text at all."""
    shown = "".join(it if it.isprintable() else ascii(it)[1:-1] for it in line[:60])
    if number == 1 and REFUSAL.fullmatch(line):
        return Bad("no %s came, but a refusal: %s" % (what, shown))
    return Bad("line %d is none of a %s: %s%s" % (number, what, shown, " .." if len(line) > 60 else ""))


# ---- nodes and graphs


def in_order(path):
    """By what paths are put in order for a reader: indexes by their value."""
    return [int(part) if part.isdigit() else part for part in re.split(r"([0-9]+)", path)]


class Node(NamedTuple):
    """A node as a text tells it."""

    path: str
    kind: str
    argument: str

    def shown(self):
        return "%s(%s)" % (self.kind, self.argument)


def node_of(path, word):
    """The node of this path whose kind and argument a word tells, or None."""
    found = re.fullmatch(r"([a-z]+)\(([0-9]*)\)", word)
    return Node(path, found[1], found[2]) if found and found[1] in KINDS and path else None


class Graph:
    """Nodes by their paths, and what each requirement is linked to, both as (path, name); None where it is linked to nothing."""

    def __init__(self):
        self.nodes, self.links = {}, {}


def port_of(word):
    """The path and the name of `PATH.NAME`."""
    path, _, name = word.rpartition(".")
    return path, name


def read_graph(lines, first=1):
    """The graph of which these lines are the text, from the line of this number on."""
    graph = Graph()
    for number, line in enumerate(lines, first):
        words = line.split(" ")
        node = node_of(words[1], words[2]) if len(words) == 3 and words[0] == "node" else None
        if node:
            graph.nodes[node.path] = node
            continue
        owner = graph.nodes.get(port_of(words[1])[0]) if len(words) == 3 and words[0] == "port" else None
        if not owner or port_of(words[1])[1] not in KINDS[owner.kind].requires or words[2] != "-" and "." not in words[2]:
            raise bad_line(number, line, "graph")
        graph.links[port_of(words[1])] = None if words[2] == "-" else port_of(words[2])
    for port, target in graph.links.items():
        if target and (target[0] not in graph.nodes or target[1] not in KINDS[graph.nodes[target[0]].kind].provides):
            raise Bad("%s is linked to %s, which isn't in the graph" % (".".join(port), ".".join(target)))
    return graph


def graph_lines(graph):
    """The text of a graph: nodes in the order of their paths' bytes."""
    lines = []
    for path, node in sorted(graph.nodes.items(), key=lambda item: item[0].encode()):
        lines.append("node %s %s" % (path, node.shown()))
        for name in KINDS[node.kind].requires:
            target = graph.links[path, name]
            lines.append("port %s.%s %s" % (path, name, ".".join(target) if target else "-"))
    return lines


class Plan:
    """What a plan freezes, unlinks, removes, creates and links: paths, and ports as (path, name)."""

    def __init__(self):
        self.frozen, self.unlinked, self.removed, self.created, self.linked = [], [], [], [], []


def read_plan(lines, first=1):
    """The plan of which these lines are the text, from the line of this number on."""
    plan = Plan()
    for number, line in enumerate(lines, first):
        name, *words = line.split(" ")
        if name in ("freeze", "remove") and len(words) == 1:
            (plan.frozen if name == "freeze" else plan.removed).append(words[0])
        elif name == "unlink" and len(words) == 1:
            plan.unlinked.append(port_of(words[0]))
        elif name == "create" and len(words) == 2 and node_of(*words):
            plan.created.append(node_of(*words))
        elif name == "link" and len(words) == 2:
            plan.linked.append((port_of(words[0]), port_of(words[1])))
        else:
            raise bad_line(number, line, "plan")
    return plan


def read_parts(lines, first=1):
    """The plans of which these lines are the text, each behind a line `part I`, from the line of this number on."""
    starts = [at for at, line in enumerate(lines) if line.split(" ")[0] == "part"]
    if lines and starts[:1] != [0]:
        raise bad_line(first, lines[0], "change in parts")
    return [read_plan(lines[start + 1 : end], first + start + 1) for start, end in zip(starts, starts[1:] + [len(lines)])]


def carried_out(graph, plan):
    """The graph that a plan makes of a graph."""
    after = Graph()
    after.nodes = {path: node for path, node in graph.nodes.items() if path not in plan.removed}
    after.nodes.update((node.path, node) for node in plan.created)
    after.links = {port: None if port in plan.unlinked else target for port, target in graph.links.items() if port[0] not in plan.removed}
    after.links.update(((node.path, name), None) for node in plan.created for name in KINDS[node.kind].requires)
    after.links.update(plan.linked)
    return after


def two_systems(words):
    """The words of a system and of another, which `--` parts: each a file and a component with its arguments, or a file with a graph's text.
    Behind `--` the file may be left out where it is the same: so a name stands first there, and no word or a number behind it."""
    if words.count("--") != 1 or words[0] == "--" or words[-1] == "--":
        raise Bad("between the two systems, each a component with its arguments behind a file, one `--` is wanted")
    cut = words.index("--")
    old, new = words[:cut], words[cut + 1 :]
    is_component = re.fullmatch(r"[A-Za-z_][A-Za-z_0-9]*", new[0]) and (len(new) == 1 or re.fullmatch(r"-?[0-9]+", new[1]))
    return old, [old[0], *new] if is_component and len(old) > 1 else new


def graph_of(program, system):
    """The graph of a system, as the program tells it, or as it stands in a file."""
    if len(system) > 1:
        return read_graph(written(program, "flat", *system))
    try:
        return read_graph(lines_of(content(system[0]).decode("utf-8", "replace")))
    except Bad as bad:
        raise Bad("%s: %s" % (system[0], bad)) if str(bad).startswith("line ") else bad


def change_between(program, command, words):
    """The graph of the first of two systems, and the lines that `plan` or `parts` writes of the change to the second. Of texts of graphs,
    which the program doesn't know, the plain statements of tests/oracle tell them."""
    old, new = two_systems(words)
    if min(len(old), len(new)) > 1:
        # a file of the second side has a `.` or a `/`
        file = [] if new[0] == old[0] else [new[0] if set("./") & set(new[0]) else "./" + new[0]]
        return graph_of(program, old), written(program, command, *old, "--", *file, *new[1:])
    import beside  # which asks this module in its turn

    graphs = graph_of(program, old), graph_of(program, new)
    return graphs[0], beside.change_text(command, *graphs)


def planned(program, words):
    """The graphs of two systems, and the plan from the one to the other."""
    old, lines = change_between(program, "plan", words)
    plan = read_plan(lines)
    return old, carried_out(old, plan), plan


def parted(program, words):
    """The plan of each part of the change between two systems, with the graphs before and behind it."""
    before, lines = change_between(program, "parts", words)
    found = []
    for plan in read_parts(lines):
        found.append((before, carried_out(before, plan), plan))
        before = found[-1][1]
    return found


# ---- reports


class Line(NamedTuple):
    """A line of a history, with its number in the report."""

    number: int
    words: list


class Made(NamedTuple):
    """A node that was made in a slot: the node whose state it took over, if any, and its ports."""

    node: Node
    source: Optional[int]
    ports: range

    def shown(self):
        return "%s %s" % (self.node.path, self.node.shown())


class Log:
    """The events of a node, each as words, and the numbers that it kept at last: none where its state moved."""

    def __init__(self):
        self.events, self.state = [], []


class Report:
    """What a report says."""

    def __init__(self):
        self.history, self.made, self.owners, self.logs = [], [], [], {}
        self.unfinished, self.status = None, None
        # what observers saw: who, the number of a commit, and how many nodes and links
        self.seen = []

    def requirement(self, port):
        """A port as `PATH.REQUIREMENT`."""
        made = self.made[self.owners[port]]
        return "%s.%s" % (made.node.path, KINDS[made.node.kind].requires[port - made.ports.start])

    def lost(self, slot):
        """The numbers that a removed node kept and handed to nobody. A count or a balance of 0 is nothing, and a value of 0 is one."""
        state = self.logs[slot].state if slot in self.logs else []
        has_values = self.made[slot].node.kind in ("buffer", "sink")
        return state if has_values or any(number != "0" for number in state) else []


class Reader:
    """A report that is taken line by line."""

    def __init__(self):
        self.report, self.log = Report(), None

    def says(self, word, wanted):
        """Whether a word is the one that stands in a form, or is of what the form says."""
        if not wanted.isupper():
            return word == wanted
        if wanted == "WORD":
            return word != ""
        if wanted == "KIND":
            return node_of("-", word) is not None
        if not (word.isascii() and word.isdigit()) or len(word) > DIGITS:
            return False
        if wanted == "NUMBER":
            return True
        nodes = len(self.report.made)
        return int(word) == nodes if wanted == "NEXT" else int(word) < (nodes if wanted == "NODE" else len(self.report.owners))

    def may_stand(self, words):
        """Whether a line is one of a history, or, from the first log on, one of the logs and what is behind them."""
        if self.report.status is not None:
            return len(words) == len(SEEN) and all(map(self.says, words, SEEN))
        if self.log is not None and words[0] == "state":
            return all(self.says(word, "NUMBER") for word in words[1:])
        is_behind = self.log is not None or words[0] in ("log", "unfinished", "status")
        form = (LOGS if is_behind else HISTORY).get((words[0], len(words)))
        return form is not None and all(map(self.says, words, form))

    def take(self, number, words):
        name, report = words[0], self.report
        if name == "make":
            self.make(words)
        if name == "log":
            self.log = report.logs[int(words[1])] = Log()
        elif name in ("state", "moved"):
            self.log.state = words[1:] if name == "state" else []
        elif name == "unfinished":
            report.unfinished = int(words[1])
        elif name == "status":
            report.status = int(words[1])
        elif name == "seen":
            report.seen.append(tuple(map(int, words[1:])))
        elif self.log is not None:
            self.log.events.append(words)
        else:
            report.history.append(Line(number, words))

    def make(self, words):
        made, first = self.report.made, len(self.report.owners)
        node = node_of(words[2], words[3])
        ports = range(first, first + len(KINDS[node.kind].requires))
        self.report.owners += [len(made)] * len(ports)
        made.append(Made(node, int(words[5]) if len(words) > 4 else None, ports))


def read_report(lines):
    """The report, of either version, of which these lines are the text."""
    reader = Reader()
    if not lines:
        raise Bad("the text is empty, and no report")
    if lines[0] not in ("report 1", "report 2"):
        raise bad_line(1, lines[0], "report")
    for number, line in enumerate(lines[1:], 2):
        words = line.split(" ")
        if not reader.may_stand(words):
            raise bad_line(number, line, "report")
        reader.take(number, words)
    if reader.report.status is None:
        raise Bad("the report ends behind line %d, before its status" % len(lines))
    return reader.report


class Section:
    """A line of a history that begins something: a start, a change, a run, a finish, a show or the stop; and the lines that belong to it."""

    def __init__(self, line):
        self.words, self.lines = line.words, []

    def told(self, name):
        """The words behind this name, of each of its lines."""
        return [line.words[1:] for line in self.lines if line.words[0] == name]

    def numbers(self, name):
        return [int(words[0]) for words in self.told(name)]

    def end(self):
        """How a start or a change ended: `commit`, `abandon` or `skipped`; else None."""
        return next((line.words[0] for line in self.lines if line.words[0] in ("commit", "abandon", "skipped")), None)


def sections(report):
    """The sections of a report's history, in order."""
    found = []
    for line in report.history:
        if line.words[0] in ("start", "change", "run", "finish", "show", "stop"):
            found.append(Section(line))
        elif found:
            found[-1].lines.append(line)
        else:
            raise Bad("line %d stands before a start" % line.number)
    return found
