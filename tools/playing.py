"""Puts the lines and events of a report into one order that it allows.

A report says in which order a node did its events, and in which order the change did its own; of all together it leaves open which came
first. In the order played here nodes go on by rounds, and no further than the lines of the change ask for.
"""
import bisect
import heapq

import texts

ASKS = ("begin", "call")
# the phase of a transaction in which an event of it may be done, and the one to which it leads
BEFORE = {"take": "asked", "hear": "again", "give": "taken", "more": "taken", "ask": "more", "end": "answered"}
AFTER = {"begin": "asked", "call": "asked", "take": "taken", "hear": "taken", "give": "answered", "more": "more", "ask": "again", "end": "idle"}
LAST_SERIAL = (1 << 24) - 1


class Node:
    """A node: its events, how many of them were done, and whether it is live."""

    def __init__(self, events):
        self.events, self.done, self.is_live = events, 0, True


class Port:
    def __init__(self, owner):
        self.owner, self.target, self.is_open, self.phase, self.serial = owner, None, False, "idle", 0
        self.is_begun = False

    def is_drained(self):
        """Whether there is no transaction that the owner began by itself."""
        return self.phase == "idle" or not self.is_begun


class Told:
    """What lines and logs say of each port: of which serials its lines tell and at which places, which it begins, and who takes which."""

    def __init__(self, history, logs):
        self.lines, self.begins, self.takers = {}, {}, {}
        for at, words in enumerate(history):
            if words[0] in ("drained", "open"):
                self.lines.setdefault(int(words[1]), []).append((at, int(words[2])))
        for slot, events in logs.items():
            for words in events:
                if words[0] == "begin":
                    self.begins.setdefault(int(words[1]), []).append(int(words[2]))
                elif words[0] == "take":
                    self.takers[int(words[1]), int(words[2])] = slot

    def begun_before(self, at, port):
        """The last serial begun at a port of which its next line behind this place tells, or 0."""
        lines, begins = self.lines.get(port, []), self.begins.get(port, [])
        place = bisect.bisect_left(lines, (at, 0))
        serial = lines[place][1] if place < len(lines) else 0
        found = bisect.bisect_right(begins, serial)
        return begins[found - 1] if found else 0


class Run:
    """A run that a report allows, played as early as it may be. What comes is told by `begins`, `came` and `did`, which another class may
    have."""

    def __init__(self, report):
        self.history = [line.words for line in report.history if line.words[0] not in ("node", "port")]
        self.logs = {slot: log.events for slot, log in report.logs.items()}
        self.told = Told(self.history, self.logs)
        self.nodes, self.ports, self.rounds, self.ended = [], [], 0, 0
        # of each port the serials of its `drained` lines to come, and which transactions are told as open where that line stands
        self.limits = {port: [serial for at, serial in lines if self.history[at][0] == "drained"][::-1] for port, lines in self.told.lines.items()}
        self.held = {(int(words[1]), int(words[2])) for words in self.history if words[0] == "open"}
        # nodes that may move; of the others, by the port whose change may let them; and those that are still to be tried in this round
        self.awake, self.waiting, self.turns, self.turning = set(), {}, [], -1

    def begins(self, words):
        """Nodes go on to what this line of the history asks for."""

    def came(self, words):
        """A line of the history has come."""

    def did(self, slot, words):
        """The node in this slot has done an event."""

    def play(self):
        for at, words in enumerate(self.history):
            if words[0] in GOALS:
                self.begins(words)
                self.go_on(*GOALS[words[0]](self, at, words))
            self.change(words)
            self.came(words)
        self.go_on(lambda: False)

    def left(self):
        """How many events have no place: none of a report that is lawful."""
        return sum(len(events) for events in self.logs.values()) - sum(node.done for node in self.nodes)

    def go_on(self, is_over, most=None):
        """Rounds in which each node does its next event where that may be done, until this holds, none may, or so many were made."""
        rounds = 0
        while rounds != most and not is_over() and self.round(is_over):
            self.rounds += 1
            rounds += 1

    def round(self, is_over):
        """Whether one of the nodes moved."""
        self.turns, self.awake, has_moved = sorted(self.awake), set(), False
        while self.turns and not is_over():
            self.turning = heapq.heappop(self.turns)
            if self.turn(self.turning):
                self.awake.add(self.turning)
                has_moved = True
        self.awake.update(self.turns)
        self.turns, self.turning = [], -1
        return has_moved

    def wake(self, port):
        """Nodes that wait for a port are tried again: in this round, where their turn is still to come."""
        for slot in self.waiting.pop(port, ()):
            if self.turns is not None and slot > self.turning >= 0:
                heapq.heappush(self.turns, slot)
            else:
                self.awake.add(slot)

    def until_ended(self, at, words):
        first = self.ended
        return (lambda: self.ended - first >= int(words[2]),)

    def until_begun(self, at, words):
        """Before a port is closed the owner has begun what the next line on the port tells."""
        port, serial = self.ports[int(words[1])], self.told.begun_before(at, int(words[1]))
        return (lambda: port.serial >= serial,)

    def until_drained(self, at, words):
        port, serial = self.ports[int(words[1])], int(words[2])
        return (lambda: port.is_drained() and port.serial >= serial,)

    def turn(self, slot):
        """Whether the node did an event; else it waits for the port of that."""
        node = self.nodes[slot]
        if not node.is_live or node.done == len(node.events):
            return False
        words = node.events[node.done]
        if not self.may(slot, words):
            self.waiting.setdefault(int(words[1]), set()).add(slot)
            return False
        self.do(words)
        node.done += 1
        self.did(slot, words)
        return True

    def may(self, slot, words):
        number = int(words[1])
        if number >= len(self.ports):
            return False
        name, port = words[0], self.ports[number]
        if name == "miss":
            return port.target is None or port.serial == LAST_SERIAL
        serial = int(words[2])
        if name == "end" and (number, serial) in self.held:
            return False
        if name in ASKS:
            limits = self.limits.get(number)
            fits = port.phase == "idle" and port.target is not None and serial == port.serial + 1
            is_taken_there = self.told.takers.get((number, serial), port.target) == port.target
            return fits and (name == "call" or port.is_open) and not (limits and serial > limits[-1]) and is_taken_there
        return port.serial == serial and port.phase == BEFORE[name] and (name not in ("take", "hear") or port.target == slot)

    def do(self, words):
        name, number = words[0], int(words[1])
        port = self.ports[number]
        if name != "miss":
            port.phase, port.serial = AFTER[name], int(words[2])
            port.is_begun = name == "begin" or port.is_begun and name != "call"
            self.ended += name == "end"
            self.wake(number)

    def change(self, words):
        """What a line of the history changes."""
        name, number = words[0], int(words[1]) if len(words) > 1 and words[1].isdecimal() else None
        if name == "make":
            self.make(words)
        elif name == "remove":
            self.nodes[number].is_live = False
        elif name in ("close", "reopen"):
            self.ports[number].is_open = name == "reopen"
        elif name in ("link", "unlink"):
            self.ports[number].target = int(words[2]) if name == "link" else None
        elif name == "drained":
            self.limits[number].pop()
        elif name == "open":
            self.held.discard((number, int(words[2])))
        if name in ("close", "reopen", "link", "unlink", "drained", "open"):
            self.wake(number)

    def make(self, words):
        slot = int(words[1])
        self.nodes.append(Node(self.logs.get(slot, [])))
        self.awake.add(slot)
        for _ in texts.KINDS[texts.node_of(words[2], words[3]).kind].requires:
            self.ports.append(Port(slot))
            self.wake(len(self.ports) - 1)


# what nodes go on to before a line: until this holds, and in how many rounds at most
GOALS = {
    "run": Run.until_ended,
    "close": Run.until_begun,
    "drained": Run.until_drained,
    "pending": lambda run, at, words: (lambda: False, int(words[1])),
    "finish": lambda run, at, words: (lambda: False, int(words[2])),
}
