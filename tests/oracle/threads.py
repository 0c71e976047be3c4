"""Whether a report can be one of a system on threads: plain statements of docs/inside/definitions.md, apart from the proved code.

It has to be consistent (consistent.py), and the numbers of its `run` and `finish` lines have to fit the same list of lines and events.
Behind the line before a `run`, and before the `run` itself, so many transactions have ended; and they are as many as were asked for, or all
has come to rest. A `finish` made all rounds that it might make, or all has come to rest. All has come to rest where, between the
same two lines, each live node has a place at which it is done, and each live port one at which it is idle.

Which node is done, which port is idle and how many transactions have ended goes by how far each log has gone. So a number is judged by the
cut at which the line before it was passed, and the one at which it is passed itself.
"""
from consistent import MOST, Folded, Reading, Search, Undecided, Unlike, after, end_of, folded, logs_of, root_is_open
from graphs import EMPTY
from machine import Machine

NUMBERED = (b"run", b"finish")


class Course:
    """What a node has come to at each place of its log, from before its first event to behind its last: at which place up to there it was done
    last, at which each of its ports was idle last, and how many of its transactions have ended."""

    def __init__(self, node, ports, events):
        self.done, self.idle, self.ended = [0 if node.node.is_done() else -1], {port: [0] for port in ports}, [0]
        busy = set()
        for place, event in enumerate(events, 1):
            node.do(event)
            busy |= {event[1]} if event[0] in ("begin", "call") else set()
            busy -= {event[1]} if event[0] == "end" else set()
            self.done.append(place if node.node.is_done() else self.done[-1])
            self.ended.append(self.ended[-1] + (event[0] == "end"))
            for port, places in self.idle.items():
                places.append(places[-1] if port in busy else place)
        self.state = node.node.state

    def came_to_rest(self, entry, place):
        """Whether from one place to another it was done at some, and each port idle at some."""
        return self.done[place] >= entry and all(places[place] >= entry for places in self.idle.values())


def courses(reading, logs):
    sources = {heir: source for source, heir in reading.heirs.items()}
    found = []
    for slot, (made, log) in enumerate(zip(reading.machine.nodes, logs)):
        state = found[sources[slot]].state if slot in sources else None
        found.append(Course(Folded(made.kind, int(made.arg or 0), state, made.ports[0] if made.ports else 0), made.ports, log.events))
    return found


class Threads(Search):
    """A search that knows the cut at which the last line was passed."""

    def __init__(self, lines, logs, found):
        super().__init__(lines, logs)
        self.courses = found

    def is_numbered(self, cut):
        return cut[0] < len(self.lines) and self.lines[cut[0]].text.split(b" ")[0] in NUMBERED

    def is_at_rest(self, machine, entry, cut):
        """Whether, from one cut to the other, each live node is done at some place, and each live port idle."""
        return all(self.courses[slot].came_to_rest(entry[slot + 1], cut[slot + 1]) for slot, node in enumerate(machine.nodes) if node.live)

    def fits(self, machine, entry, cut):
        """Whether the number of the next line fits a place of it here."""
        name, asked, came = self.lines[cut[0]].text.split(b" ")
        asked, came = int(asked), int(came)
        if name == b"finish":
            return came == asked or came < asked and self.is_at_rest(machine, entry, cut)
        ended = sum(course.ended[last] - course.ended[first] for course, first, last in zip(self.courses, entry[1:], cut[1:]))
        return came <= ended and (asked <= came or self.is_at_rest(machine, entry, cut))

    def may_come(self, machine, entry, cut, chain):
        if cut[chain] == self.lengths[chain] or self.why_not(machine, cut, chain) is not None:
            return False
        return chain != 0 or not self.is_numbered(cut) or self.fits(machine, entry, cut)

    def is_awaited(self, machine, cut, name, number):
        """Whether something has to happen at a port before a line of this name tells of it."""
        port, (_, is_open, serial) = machine.ports[number], self.next_told(cut, number)
        if is_open:
            return not root_is_open(machine, (number, serial))
        is_called = machine.nodes[port.owner].depends(port.name)
        return port.serial != serial or name == b"drained" and not is_called and port.phase != "idle"

    def awaited(self, machine, cut):
        """The ports at which something has to happen before the next lines, up to the end of a change, in the order of the lines."""
        ports = []
        for line in self.lines[cut[0] :]:
            name, *words = line.text.split(b" ")
            if name in (b"commit", b"abandon"):
                break
            told = [port for port, _ in line.roots] + ([int(words[0])] if name in (b"close", b"drained") else [])
            ports += [port for port in told if port < len(machine.ports) and self.is_awaited(machine, cut, name, port)]
            if line == self.lines[cut[0]] and name in (b"link", b"unlink", b"remove"):
                slot = int(words[0]) if name == b"remove" else machine.ports[int(words[0])].owner
                ports += machine.nodes[slot].ports + sorted(machine.reach(slot))
        return ports

    def needed(self, machine, entry, cut):
        """The logs that have to go on before the next lines come, those that are waited for first: at a port it is its owner's turn or its
        target's, and who can't go on waits at the port of the next event."""
        found, ports = [], self.awaited(machine, cut)
        while ports:
            port = machine.ports[ports.pop(0)]
            chain = 1 + (port.target[0] if port.phase == "asked" else port.owner)
            if chain not in found:
                found.append(chain)
                event = self.event(cut, chain) if cut[chain] < self.lengths[chain] else None
                if event and event[1] < len(machine.ports) and not self.may_come(machine, entry, cut, chain):
                    ports.insert(0, event[1])
        return found

    def onward(self, machine, entry, cut):
        """The chains whose next member may come: those that seem right first, of these a line before the logs that it waits for, and these before
        the others. The order is a thought of what leads to the end soon; all of them are tried."""
        later = []
        for chain in self.in_order(machine, entry, cut):
            if self.may_come(machine, entry, cut, chain):
                if self.seems_right(machine, cut, chain):
                    yield chain
                else:
                    later.append(chain)
        yield from later

    def in_order(self, machine, entry, cut):
        """All chains: that of the lines, the logs that they wait for, and the others."""
        yield 0
        needed = self.needed(machine, entry, cut)
        yield from needed
        yield from (chain for chain in range(1, len(self.lengths)) if chain not in needed)

    def finds(self, most=MOST):
        """Whether some list has all lines and events, with numbers that fit."""
        first, machine = (0,) * len(self.lengths), Machine(EMPTY)
        work, seen = [(first, first, machine, self.onward(machine, first, first))], set()
        while work:
            entry, cut, machine, ways = work[-1]
            if list(cut) == self.lengths and all(port.phase == "idle" for port in machine.ports):
                return True
            chain = next(ways, None)
            if chain is None:
                work.pop()
                continue
            onward = cut[:chain] + (cut[chain] + 1,) + cut[chain + 1 :]
            passed = entry if chain else onward
            key = onward, passed if self.is_numbered(onward) else None
            if key in seen:
                continue
            seen.add(key)
            if len(seen) > most:
                raise Undecided()
            behind = after(machine, self.event(cut, chain))
            work.append((passed, onward, behind, self.onward(behind, passed, onward)))
        return False


def read(statements, report):
    """What the history and the logs of a report say. `Unlike` is raised at the first line that can't stand there in any order of events."""
    _, history, lines, end = report
    reading, logs = Reading(history), logs_of(history, lines)
    is_given_up = reading.read(statements)
    wanted = end_of(reading, statements, folded(reading, logs), is_given_up)
    if end != wanted:
        number = 2 + len(history) + sum(map(len, lines))
        raise Unlike(number, "it has to end with %s" % b", ".join(wanted).decode())
    return reading, logs


def why_not(statements, report, most=MOST):
    """Why a report can't be one of these statements on threads, or None."""
    try:
        reading, logs = read(statements, report)
    except Unlike as unlike:
        return str(unlike)
    if Threads(reading.members(), logs, courses(reading, logs)).finds(most):
        return None
    return "no list of its lines and events is a run with these numbers"


def why_not_by_one_way(statements, report):
    """The same of a report that is too long for the search. One way is gone through the lines and events, as the tool that explains reports does;
    of the numbers of `run` lines is only asked that all together aren't more than the transactions."""
    try:
        reading, logs = read(statements, report)
    except Unlike as unlike:
        return str(unlike)
    search = Search(reading.members(), logs)
    machine, cut = search.walked()
    if cut != search.lengths or any(port.phase != "idle" for port in machine.ports):
        return "its lines and events come to no end in one list"
    told = sum(int(line.split(b" ")[2]) for line in report[1] if line.startswith(b"run "))
    ended = sum(event[0] == "end" for log in logs for event in log.events)
    return None if told <= ended else "its runs tell of %d transactions, and %d ended" % (told, ended)
