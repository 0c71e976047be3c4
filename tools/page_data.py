"""What a page shows of a plan, of a report or of a session, as data that its scripts read.

All three become one row of moments, each a word and up to three numbers, which change a graph one after the other: nodes count from 0 in
the order in which they come, ports through all nodes. A moment that begins something, as a change, begins a section too.
"""
import re

import beside
import playing
import texts
from pages import Bad

SECTIONS = ("start", "change", "run", "finish", "show", "stop", "plan", "part")
# of a long state the numbers at both of its ends
SHOWN = 6
# lines of a session: those that a history has too, and others, of the program and of what is said to it
HISTORY = ("start", "change", "make", "link", "unlink", "remove", "close", "reopen", "drained", "pending", "open", "commit", "abandon")
SESSION = ["wait NUMBER", "ready", "denied NUMBER NUMBER", "bad NUMBER", "closed PORT", "busy PORT", "idle PORT", "round", "go", "stop"]

# a line of a log, behind the milliseconds since its session began
LOGGED = re.compile(r"\d+\.\d{3} (.*)")


def state_shown(numbers):
    """The numbers of a state, of many the first and the last."""
    if not numbers:
        return "nothing"
    if len(numbers) <= 2 * SHOWN:
        return " ".join(numbers)
    return "%s .. %s (%d numbers)" % (" ".join(numbers[:SHOWN]), " ".join(numbers[-SHOWN:]), len(numbers))


class Data:
    """The data of a page, to which a reader adds nodes and moments."""

    def __init__(self, what, title):
        self.what, self.title, self.nodes, self.sections, self.seen = what, title, [], [], []
        self.verbs, self.moments, self.ports = {}, [[], [], [], []], 0
        self.status = self.unfinished = self.note = None

    def node(self, path, kind, argument, requires, source=None):
        """A new node with its number."""
        shown = "%s(%s)" % (kind, argument) if kind else ""
        self.nodes.append({"path": path, "shown": shown, "requires": list(requires), "first": self.ports, "source": -1 if source is None else source})
        self.ports += len(requires)
        return len(self.nodes) - 1

    def moment(self, verb, *numbers):
        if verb in SECTIONS:
            self.sections.append({"name": verb, "words": verb, "first": len(self.moments[0])})
        row = [self.verbs.setdefault(verb, len(self.verbs)), *numbers, 0, 0, 0]
        for column, number in zip(self.moments, row):
            column.append(number)

    def section(self, verb, words, *numbers):
        """A moment that begins a section, which is named by these words."""
        self.moment(verb, *numbers)
        self.sections[-1]["words"] = words

    def plain(self):
        """The data in the form that the scripts read."""
        made = {"what": self.what, "title": self.title, "nodes": self.nodes, "ports": self.ports, "sections": self.sections, "seen": self.seen}
        made.update({"verbs": list(self.verbs), "moments": self.moments, "status": self.status, "unfinished": self.unfinished, "note": self.note})
        return made


# ---- reports


class Recorder(playing.Run):
    """A run of a report, of which each line and event becomes a moment."""

    def __init__(self, report, data):
        super().__init__(report)
        self.report, self.data = report, data

    def begins(self, words):
        """A run and a finish stand behind what happened in them: here they begin with it."""
        if words[0] in ("run", "finish"):
            self.data.section(words[0], " ".join(words), *map(int, words[1:]))

    def came(self, words):
        name, numbers = words[0], [int(word) for word in words[1:] if word.isdecimal()]
        if name in ("start", "change", "show", "stop"):
            self.data.section(name, " ".join(words))
        elif name in ("run", "finish"):
            pass
        elif name == "make":
            self.made(numbers[0])
        else:
            self.data.moment(name, *numbers)

    def made(self, slot):
        made = self.report.made[slot]
        node = made.node
        self.data.moment("make", self.data.node(node.path, node.kind, node.argument, texts.KINDS[node.kind].requires, made.source))
        log = self.report.logs.get(slot)
        if log:
            self.data.nodes[slot]["events"] = len(log.events)
            self.data.nodes[slot]["state"] = state_shown(log.state) if texts.KINDS[node.kind].keeps else "nothing: its kind keeps none"

    def did(self, slot, words):
        self.data.moment(words[0], *map(int, words[1:]))


def of_report(report, title):
    data = Data("report", title)
    run = Recorder(report, data)
    run.play()
    if not data.moments[0]:
        raise Bad("the report has no line of a history")
    for slot in [words[1] for words in run.history if words[0] == "remove"]:
        data.nodes[int(slot)]["lost"] = report.lost(int(slot)) != []
    for slot in {made.source for made in report.made} - {None}:
        data.nodes[slot]["state"] = "handed over to %s" % next(made.shown() for made in report.made if made.source == slot)
    waits = beside.waits(report, texts.sections(report)) or []
    for section, (rounds, _) in zip([section for section in data.sections if section["name"] == "change"], waits):
        section["waited"] = rounds
    data.seen, data.status, data.unfinished = report.seen, report.status, report.unfinished
    data.note = "A report leaves open in which order nodes did what. Of the orders that it allows, this is one."
    if run.left():
        data.note += " Some events of its logs fit nowhere, and aren't shown (%d): `explain_report` says why." % run.left()
    return data


# ---- sessions


class SessionReader(texts.Reader):
    """The lines of one session: those of a history, and what the runtime and the program say to each other."""

    FORMS = texts.by_name([form.split() for form in SESSION])

    def may_stand(self, words):
        form = self.FORMS.get((words[0], len(words)))
        return form is not None and all(map(self.says, words, form)) or words[0] in HISTORY and super().may_stand(words)


def of_session(lines, title):
    """Sessions one behind the other, each with its own start, whose numbers begin anew."""
    data, reader, first, port = Data("session", title), SessionReader(), 0, 0
    for number, line in enumerate(lines, 1):
        words = (line[1:] if line.startswith(">") else line).split()
        if not words or words[0].startswith("#"):
            continue
        if words[0] == "start":
            reader, first, port = SessionReader(), len(data.nodes), data.ports
        if not reader.may_stand(words) or not (data.sections or words[0] == "start"):
            raise texts.bad_line(number, line, "session")
        reader.take(number, words)
        session_moment(data, words, first, port)
    if not data.sections:
        raise Bad("the session has no line but comments")
    data.note = "Lines stand in the order of the text. Of a transaction it is told that one or more were under way at a port (busy), or none (idle)."
    return data


def logged(lines):
    """The sessions that a log of the package `tareslater` keeps. What stands around them is left empty, so that lines keep their numbers."""
    found = []
    for number, line in enumerate(lines, 1):
        match = LOGGED.fullmatch(line)
        if not match and line.split(" ")[0] not in ("session", "end"):
            raise texts.bad_line(number, line, "log")
        found.append(match[1] if match else "")
    return found


def session_moment(data, words, first, port):
    """Adds what a line says; its nodes count from `first` here, its ports from `port`."""
    name, numbers = words[0], [int(word) for word in words[1:] if word.isdecimal()]
    if name == "make":
        node = texts.node_of(words[2], words[3])
        source = first + numbers[-1] if len(words) > 4 else None
        data.moment("make", data.node(node.path, node.kind, node.argument, texts.KINDS[node.kind].requires, source))
    elif name in ("start", "change"):
        data.section(name, " ".join(words))
    elif name == "remove":
        data.moment(name, first + numbers[0])
    elif name in ("close", "reopen", "unlink", "drained", "open", "closed", "busy", "idle"):
        data.moment(name, port + numbers[0], *numbers[1:])
    elif name == "link":
        data.moment(name, port + numbers[0], first + numbers[1], numbers[2])
    else:
        data.moment("halt" if name == "stop" else name, *numbers)


# ---- plans


class Planner:
    """Carries out plans one after the other, on the graph that is given, or on what they tell of it."""

    def __init__(self, data, graph):
        self.data, self.is_whole, self.slots, self.targets = data, bool(graph.nodes), {}, {}
        for node in graph.nodes.values():
            self.make(node)
        for end, target in graph.links.items():
            if target:
                self.link(end, target)

    def make(self, node):
        requires = texts.KINDS[node.kind].requires if node.kind else self.told.get(node.path, [])
        self.slots[node.path] = self.data.node(node.path, node.kind, node.argument, requires)
        self.data.moment("make", self.slots[node.path])

    def slot(self, path):
        if path not in self.slots:
            if self.is_whole:
                raise Bad("the plan names %s, which isn't in the graph" % path)
            self.make(texts.Node(path, "", ""))
        return self.slots[path]

    def port(self, end):
        node = self.data.nodes[self.slot(end[0])]
        if end[1] not in node["requires"]:
            raise Bad("the plan names %s, which has no such port" % ".".join(end))
        return node["first"] + node["requires"].index(end[1])

    def link(self, end, target):
        self.data.moment("link", self.port(end), self.slot(target[0]))

    def name_all(self, plans):
        """Where there is no graph, what plans name stood before them, unless one of them creates it first."""
        self.told, created, named = {}, set(), []
        for plan in plans:
            for path, name in [*plan.unlinked, *(end for end, _ in plan.linked)]:
                self.told.setdefault(path, [])
                if name not in self.told[path]:
                    self.told[path].append(name)
            named += [path for path in [*plan.frozen, *plan.removed, *(end[0] for end in plan.unlinked)] if path not in created]
            created.update(node.path for node in plan.created)
            named += [path for ends in plan.linked for path, _ in ends if path not in created]
        if not self.is_whole:
            for path in sorted(set(named), key=texts.in_order):
                self.slot(path)

    def begin(self):
        for slot in self.slots.values():
            self.data.moment("thaw", slot)
        self.data.moment("commit")

    def carry_out(self, plan):
        for path in plan.frozen:
            self.data.moment("freeze", self.slot(path))
        for end in plan.unlinked:
            self.data.moment("unlink", self.port(end))
        for path in plan.removed:
            self.data.moment("remove", self.slot(path))
            del self.slots[path]
        for node in plan.created:
            self.make(node)
        for end, target in plan.linked:
            self.link(end, target)
        held = [path for path in [*plan.frozen, *(node.path for node in plan.created)] if path in self.slots]
        self.data.moment("commit")
        for path in held:
            self.data.moment("thaw", self.slots[path])

    def give_up(self, plan):
        for path in plan.frozen:
            self.data.moment("freeze", self.slot(path))
        self.data.moment("abandon")
        for path in plan.frozen:
            self.data.moment("thaw", self.slots[path])


def parted(lines):
    """The lines of a graph in front, those of a plan or of parts, and what ends a roll: `done` or `pending I`, or nothing."""
    front = next((at for at, line in enumerate(lines) if line.split(" ")[0] not in ("node", "port")), len(lines))
    behind = next((at for at, line in enumerate(lines) if at >= front and line.split(" ")[0] in ("done", "pending")), len(lines))
    end = lines[behind].split(" ") if behind < len(lines) else []
    if end and end != ["done"] and not (len(end) == 2 and end[0] == "pending" and end[1].isdecimal() and int(end[1])):
        raise texts.bad_line(behind + 1, lines[behind], "plan")
    texts.read_graph(lines[behind + 1 :], behind + 2)
    return lines[:front], lines[front:behind], end


def of_plan(lines, title):
    before, told, end = parted(lines)
    is_parted = told[:1] and told[0].split(" ")[0] == "part" or end
    plans = texts.read_parts(told, len(before) + 1) if is_parted else [texts.read_plan(told, len(before) + 1)]
    data = Data("plan", title)
    data.section("start", "before")
    planner = Planner(data, texts.read_graph(before))
    planner.name_all(plans)
    planner.begin()
    given_up = int(end[1]) if len(end) == 2 else len(plans) + 1
    for number, plan in enumerate(plans, 1):
        data.section(*(("part", "part %d" % number, number) if is_parted else ("plan", "the plan")))
        if number < given_up:
            planner.carry_out(plan)
        elif number == given_up:
            planner.give_up(plan)
        else:
            data.moment("skipped")
    data.note = "Steps stand in the order of the plan's text."
    if not planner.is_whole:
        data.note += " Of the graph around them it tells nothing: put what `flat` says of the old system in front of it, or name the systems by --between."
    return data


def read(lines, title):
    """The data of a text, by its first line."""
    first = lines[0].split(" ")[0] if lines else ""
    if first == "report":
        return of_report(texts.read_report(lines), title)
    if first == "start" or first == "#":
        return of_session(lines, title)
    if first == "session":
        return of_session(logged(lines), title)
    if first in ("node", "freeze", "unlink", "remove", "create", "link", "part", "done", "pending"):
        return of_plan(lines, title)
    if not lines:
        raise Bad("the text is empty; a plan, a report or a session is wanted")
    raise texts.bad_line(1, lines[0], "plan, report or session")
