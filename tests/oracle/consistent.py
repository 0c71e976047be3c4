"""Whether a report can be one of this machine for a script: plain statements of docs/inside/definitions.md, apart from the proved code.

The history follows the script: it has the lines that the rounds would write, but for what looks saw, for the numbers of `run`, and for
those of `finish`, which only keep to their limit. Each log is what a node of its kind does, and ends as it must. And the events of the logs
and the lines of the history, each in their order, can be put into one list that is a run of the machine. That list is searched for by
going through all cuts that can be come to: a cut is how many lines of the history and how many events of each log stand before it,
which decides the machine's state there. No thought is given to which order may matter.

That nodes are quiescent when they are changed, and that each transaction is taken and answered once, follows for the lists that are
found, and isn't asked again.
"""
from typing import NamedTuple, Optional

from graphs import EMPTY, graph_text
from kinds import Behaviour
from machine import Machine
from runs import System
from tables import KINDS

# how many cuts a search may come to, each of which it may hold with a state of the machine
MOST = 20000
OF_NODES = ("begin", "call", "miss", "take", "more", "ask", "hear", "give", "end")
OF_CHANGES = ("link", "unlink", "remove", "close", "reopen")
BY_OWNER = ("begin", "call", "miss", "ask", "end")


class Unlike(Exception):
    """What can't stand in a line of the report, counted from 1, and why."""

    def __init__(self, number, why):
        super().__init__("line %d: %s" % (number, why))
        self.number, self.why = number, why


class Undecided(Exception):
    """There are more cuts than a search may come to."""


def shown(line):
    return line.decode("utf-8", "replace")


def event_of(line):
    """The event that a line of a history or of a log is, or None."""
    words = line.split(b" ")
    name = words[0].decode()
    if name == "make":
        kind, arg = words[3][:-1].split(b"(")
        return name, int(words[1]), words[2], kind.decode(), arg, int(words[5]) if len(words) > 4 else None
    return (name,) + tuple(int(word) for word in words[1:]) if name in OF_NODES + OF_CHANGES else None


class Line(NamedTuple):
    """A line of the history in the list: its number in the report, its words, the event that it is, the graph that has to stand there,
    and the roots, as (port, serial), that have to be open right behind it."""

    number: int
    text: bytes
    event: Optional[tuple]
    graph: Optional[bytes]
    roots: tuple


# ---- the history


class Reading(System):
    """The lines that a script's statements write, each compared with the next line of a history."""

    def __init__(self, history):
        super().__init__()
        self.history, self.at = history, 0
        # by the places of lines: the graphs that have to stand there, and the roots that have to be open
        self.graphs, self.roots = {}, {}

    def word(self):
        return self.history[self.at].split(b" ")[0] if self.at < len(self.history) else b""

    def want(self, holds, why):
        if not holds:
            raise Unlike(self.at + 2, why)

    def do(self, event):
        self.machine.apply(event)

    def tell(self, line):
        self.want(self.at < len(self.history) and self.history[self.at] == line, "`%s` has to stand here" % shown(line))
        self.at += 1

    def seen(self, name):
        """The ports and serials of the lines of this name that stand here."""
        first = self.at
        while self.word() == name:
            self.at += 1
        return [tuple(int(word) for word in line.split(b" ")[1:]) for line in self.history[first : self.at]]

    def passivate(self, ports, within):
        """Closes ports, and gives the roots that were seen at last of those that weren't found drained."""
        first = self.at
        for port in ports:
            self.change(("close", port))
        closes = range(first, self.at)
        drained = [port for port, _ in self.seen(b"drained")]
        looks = 1 + sum(after <= before for before, after in zip(drained, drained[1:]))
        self.want(within is None or looks <= within + 1, "the drained ports above are those of %d looks, and %s are allowed" % (looks, "%d" % ((within or 0) + 1)))
        left = []
        if within is not None and self.word() == b"pending":
            self.tell(b"pending %d" % within)
            self.want(self.word() == b"open", "an `open` line has to stand here")
            left = self.seen(b"open")
            self.must_stand_open(ports, closes, left)
        seen = drained + [port for port, _ in left]
        for port in set(ports) | set(seen):
            times = seen.count(port)
            self.want(times == ports.count(port), "above, closed port %d has to be told of once, and is %d times" % (port, times) if port in ports else "above, port %d is told of, which wasn't closed" % port)
        return left

    def must_stand_open(self, ports, closes, left):
        """The roots that a change was left with have been open from their ports' closes on, and until all ports were closed."""
        for place, port in zip(closes, ports):
            self.roots[place] = tuple(root for root in left if root[0] == port)
        if closes:
            self.roots[closes[-1]] = tuple(left)

    def change_to(self, told, plan, new, within):
        """Whether the change was made."""
        self.tell(b"change " + told)
        slots = {self.machine.nodes[slot].path: slot for slot in self.live()}
        frozen = {slots[path] for path in plan.frozen}
        closed = [number for number, port in enumerate(self.machine.ports) if port.owner in frozen]
        if not self.passivate(closed, within):
            self.commit(plan, new, slots, closed)
            self.graphs[self.at - 1] = graph_text(new)
            return True
        for port in closed:
            self.change(("reopen", port))
        self.tell(b"abandon")
        return False

    def counted(self, name, asked):
        """A `run` or `finish` line."""
        self.want(self.word() == name and int(self.history[self.at].split(b" ")[1]) == asked, "`%s %d` and a number have to stand here" % (shown(name), asked))
        came = int(self.history[self.at].split(b" ")[2])
        self.want(name == b"run" or came <= asked, "no more than %d rounds are allowed" % asked)
        self.at += 1

    def show(self):
        self.tell(b"show")
        first = self.at
        while self.word() in (b"node", b"port"):
            self.at += 1
        self.graphs[first - 1] = b"".join(line + b"\n" for line in self.history[first : self.at])

    def read(self, statements):
        """Reads what these statements write, or raises at the first line that can't stand where it does."""
        is_given_up = False
        for statement in statements:
            name = statement[0]
            if name == "start":
                self.start(statement[1], statement[2])
                self.graphs[self.at - 1] = graph_text(statement[2])
            elif name == "change" and is_given_up:
                self.tell(b"change " + statement[1])
                self.tell(b"skipped")
            elif name == "change":
                is_given_up = not self.change_to(*statement[1:])
            elif name == "show":
                self.show()
            elif name in ("run", "finish"):
                self.counted(name.encode(), statement[1])
        self.stop()
        self.want(self.at == len(self.history), "behind the stop there is no such line")
        return is_given_up

    def members(self):
        """The lines of the history that stand in the list."""
        found = []
        for at, text in enumerate(self.history):
            if text.split(b" ")[0] not in (b"node", b"port", b"open"):
                found.append(Line(at + 2, text, event_of(text), self.graphs.get(at), self.roots.get(at, ())))
        return found


# ---- the logs


class Log(NamedTuple):
    """A log of a report: the number of its heading, its events and its last line."""

    number: int
    events: list
    last: bytes


def logs_of(history, logs):
    found, number = [], len(history) + 2
    for lines in logs:
        found.append(Log(number, [event_of(line) for line in lines[1:-1]], lines[-1]))
        number += len(lines)
    return found


class Folded:
    """A node that does what its log says; its ports begin with the first."""

    def __init__(self, kind, arg, state, first):
        self.node, self.first = Behaviour(kind, arg, state), first
        self.is_serving, self.is_waiting = False, False

    def next(self):
        """What its service does next."""
        return self.node.next() if self.is_serving and not self.is_waiting else ("nothing",)

    def calls(self, port):
        return self.next()[0] == "call" and self.first + self.next()[1] == port

    def wants(self, port):
        return self.node.wants() is not None and self.first + self.node.wants()[0] == port

    def may(self, event):
        """Whether a node of its kind does this here."""
        name, port, value = event[0], event[1], event[-1]
        if name == "begin":
            return self.wants(port) and self.node.wants()[1] == value
        if name in ("call", "miss"):
            return self.calls(port) and (name == "miss" or self.next()[2] == value)
        if name == "take":
            return KINDS[self.node.kind][0] != [] and not self.is_serving
        if name in ("more", "give"):
            return self.next() == (name, value)
        if name == "hear":
            return self.is_waiting
        return (self.calls(port) or self.wants(port)) and (name == "end" or value == self.node.replies())

    def do(self, event):
        name, port, value = event[0], event[1], event[-1]
        if name == "miss" or name == "end" and self.calls(port):
            self.node.answers.append(0 if name == "miss" else value)
        elif name == "end":
            self.node.ended(value)
        elif name == "take":
            self.node.serve(value)
        elif name == "hear":
            self.node.heard = value
        self.is_serving = name == "take" or self.is_serving and name != "give"
        self.is_waiting = name == "more" or self.is_waiting and name != "hear"


def folded(reading, logs):
    """What each node has come to, or the first event of a log that a node of its kind doesn't do, or last line that isn't what it keeps."""
    sources = {heir: source for source, heir in reading.heirs.items()}
    nodes = []
    for slot, (made, log) in enumerate(zip(reading.machine.nodes, logs)):
        state = nodes[sources[slot]].state if slot in sources else None
        one = Folded(made.kind, int(made.arg or 0), state, made.ports[0] if made.ports else 0)
        for number, event in enumerate(log.events, log.number + 1):
            if not one.may(event):
                raise Unlike(number, "a %s doesn't do this where it stands" % made.kind)
            one.do(event)
        nodes.append(one.node)
        heir = reading.heirs.get(slot)
        last = b" ".join([b"state"] + [b"%d" % number for number in one.node.numbers()]) if heir is None else b"moved %d" % heir
        if log.last != last:
            raise Unlike(log.number + 1 + len(log.events), "`%s` has to stand here" % shown(last))
    return nodes


def end_of(reading, statements, nodes, is_given_up):
    """The lines behind the logs."""
    undone = [slot for slot in reading.live() if not nodes[slot].is_done()]
    is_named = undone and any(statement[0] == "finish" for statement in statements)
    status = 7 if is_given_up else 8 if is_named else 0
    return ([b"unfinished %d" % undone[0]] if is_named else []) + [b"status %d" % status]


# ---- the list


def again(one):
    """A copy of a thing whose fields aren't changed in themselves."""
    made = object.__new__(type(one))
    made.__dict__.update(one.__dict__)
    return made


def copied(machine):
    made = object.__new__(Machine)
    made.nodes, made.ports = list(map(again, machine.nodes)), list(map(again, machine.ports))
    return made


def graph_at(machine):
    """The text of the graph of the nodes that are live."""
    live = sorted((node.path, slot) for slot, node in enumerate(machine.nodes) if node.live)
    nodes = {path: (machine.nodes[slot].kind, machine.nodes[slot].arg) for path, slot in live}
    links = {}
    for path, slot in live:
        for port in (machine.ports[number] for number in machine.nodes[slot].ports):
            target = port.target and machine.nodes[port.target[0]]
            links[(path, port.name.encode())] = (target.path, KINDS[target.kind][0][port.target[1]].encode()) if target else None
    return graph_text((nodes, links))


def root_is_open(machine, root):
    port = machine.ports[root[0]]
    return port.phase != "idle" and port.within is None and port.serial == root[1]


class Search:
    """The lines of a history and the events of logs, as chains of which each is to be gone through in its order."""

    def __init__(self, lines, logs):
        self.lines, self.logs = lines, logs
        self.lengths = [len(lines)] + [len(log.events) for log in logs]
        # what lines tell of each port, as (place, whether it is a root that is open there, serial)
        self.told = {}
        for place, line in enumerate(lines):
            words = line.text.split(b" ")
            seen = [(int(words[1]), False, int(words[2]))] if words[0] == b"drained" else []
            for port, is_open, serial in seen + [(port, True, serial) for port, serial in line.roots]:
                self.told.setdefault(port, []).append((place, is_open, serial))

    def next_told(self, cut, port):
        """What is told next of a port: at which line, whether a root is open there, and the serial."""
        return next((told for told in self.told.get(port, ()) if told[0] >= cut[0]), (None, False, None))

    def seems_right(self, machine, cut, chain):
        """Whether the next member of a chain leads no further than what is told next of its port. The search takes it for a hint which of
        the members that may come to try first, and no more."""
        event = self.event(cut, chain)
        if event is None or event[0] not in ("close", "begin", "call", "end") or event[1] >= len(machine.ports):
            return True
        port, (_, is_open, serial) = machine.ports[event[1]], self.next_told(cut, event[1])
        is_called = machine.nodes[port.owner].depends(port.name)
        if event[0] == "close":
            return root_is_open(machine, (event[1], serial)) if is_open else is_called or port.serial == serial
        if event[0] == "end":
            return not (is_open and event[2] == serial)
        return is_called and event[0] == "begin" or serial is None or event[2] <= serial

    def event(self, cut, chain):
        """The event that is the next member of a chain, if it is one."""
        return self.logs[chain - 1].events[cut[chain]] if chain else self.lines[cut[0]].event

    def why_not(self, machine, cut, chain):
        """Why the next member of a chain can't come, or None: what isn't so, with a number or two of it."""
        event = self.event(cut, chain)
        if chain and (event[1] >= len(machine.ports) or doer(machine.ports[event[1]], event[0]) != chain - 1):
            return "doer", event[1]
        rule = machine.denial(event) if event else None
        if rule is not None:
            return "rule", rule
        return None if chain else self.why_not_line(machine, self.lines[cut[0]])

    def why_not_line(self, machine, line):
        words = line.text.split(b" ")
        if words[0] == b"drained":
            port = machine.ports[int(words[1])]
            if port.is_open or port.phase != "idle" and port.within is None:
                return "drained", int(words[1])
            if port.serial != int(words[2]):
                return "serial", int(words[1])
        if line.graph is not None and line.graph != graph_at(machine):
            return "graph", 0
        shut = [root for root in line.roots if not root_is_open(machine, root)]
        return ("root", *shut[0]) if shut else None

    def finds(self, most=MOST):
        """Whether some list has all lines and events. Of the chains at a cut those that seem right are tried first."""
        first = (0,) * len(self.lengths)
        work, seen = [(first, Machine(EMPTY))], {first}
        while work:
            cut, machine = work.pop()
            if list(cut) == self.lengths:
                return all(port.phase == "idle" for port in machine.ports)
            left = [chain for chain, length in enumerate(self.lengths) if cut[chain] < length]
            for chain in sorted(left, key=lambda chain: self.seems_right(machine, cut, chain)):
                onward = cut[:chain] + (cut[chain] + 1,) + cut[chain + 1 :]
                if onward in seen or self.why_not(machine, cut, chain) is not None:
                    continue
                seen.add(onward)
                work.append((onward, after(machine, self.event(cut, chain))))
            if len(seen) > most:
                raise Undecided()
        return False

    def walked(self):
        """The machine and the cut behind which no member comes that may come and seems right. It goes one way, and is no search: that it
        comes to the end exactly where some list does is a law of the crate merge_laws."""
        machine, cut, is_on = Machine(EMPTY), [0] * len(self.lengths), True
        while is_on:
            is_on = False
            for chain, length in enumerate(self.lengths):
                while cut[chain] < length and self.seems_right(machine, cut, chain) and self.why_not(machine, cut, chain) is None:
                    if self.event(cut, chain):
                        machine.apply(self.event(cut, chain))
                    cut[chain], is_on = cut[chain] + 1, True
        return machine, cut


def doer(port, name):
    """The node that does an event of this name at a port, or None."""
    return port.owner if name in BY_OWNER else port.target and port.target[0]


def after(machine, event):
    """The state behind an event, if there is one."""
    made = copied(machine) if event else machine
    if event:
        made.apply(event)
    return made


def is_consistent(statements, report, most=MOST):
    """Whether a report can be one of the machine for these statements."""
    _, history, lines, end = report
    reading, logs = Reading(history), logs_of(history, lines)
    try:
        is_given_up = reading.read(statements)
        nodes = folded(reading, logs)
    except Unlike:
        return False
    return end == end_of(reading, statements, nodes, is_given_up) and Search(reading.members(), logs).finds(most)
