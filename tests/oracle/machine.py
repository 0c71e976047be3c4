"""The change machine once more, written plainly over a graph and apart from the proved code, to compare the program with."""
from tables import DEPENDS, KINDS

M = 1 << 24
MAX_NODES, MAX_PORTS = 1023, 4096
CALLS = {"place": 4, "map": 1, "branch": 2}
MORES = {"adder": 1}
# the rules of each event in their order
ORDER = {
    "begin": [1, 2, 3, 4, 5, 6],
    "call": [1, 7, 8, 29, 3, 4, 5, 6],
    "miss": [1, 7, 8, 29, 4, 9],
    "take": [1, 10, 11, 12, 13],
    "give": [1, 14, 29, 15, 16, 6],
    "more": [1, 14, 29, 15, 16, 28, 6],
    "ask": [1, 27, 15, 6],
    "hear": [1, 10, 14, 30, 13],
    "end": [1, 17, 13],
    "close": [1],
    "reopen": [1],
    "link": [1, 20, 21, 22, 23],
    "unlink": [1, 3, 22],
    "make": [18, 19, 26],
    "remove": [24, 22, 25],
}


class Port:
    def __init__(self, owner, name, target, is_open):
        self.owner, self.name, self.target, self.is_open = owner, name, target, is_open
        self.phase, self.serial, self.value, self.within = "idle", 0, 0, None


class Node:
    def __init__(self, path, kind, arg):
        self.path, self.kind, self.arg, self.live = path, kind, arg, True
        self.service, self.calls, self.mores, self.heard, self.ports = None, 0, 0, True, []
        self.moved = False

    def depends(self, name):
        return name in DEPENDS.get(self.kind, ())


class Machine:
    """The change machine. `denial` gives the number of the first rule of an event that fails, or None."""

    def __init__(self, graph):
        nodes, links = graph
        places = {path: slot for slot, path in enumerate(nodes)}
        self.nodes, self.ports = [], []
        for path, (kind, arg) in nodes.items():
            self.add(path, kind, arg, True)
        for port in self.ports:
            target = links[(self.nodes[port.owner].path, port.name.encode())]
            if target:
                provides = KINDS[nodes[target[0]][0]][0]
                port.target = (places[target[0]], provides.index(target[1].decode()))

    def add(self, path, kind, arg, is_open):
        node = Node(path, kind, arg)
        for name in KINDS[kind][1]:
            node.ports.append(len(self.ports))
            self.ports.append(Port(len(self.nodes), name, None, is_open))
        self.nodes.append(node)

    def reach(self, slot):
        found, work, seen = set(), [slot], set()
        while work:
            here = work.pop()
            if here in seen:
                continue
            seen.add(here)
            for number, port in enumerate(self.ports):
                if port.target and port.target[0] == here:
                    found.add(number)
                    if self.nodes[port.owner].depends(port.name):
                        work.append(port.owner)
        return found

    def settled(self, slot):
        node = self.nodes[slot]
        ports = set(node.ports) | self.reach(slot)
        return node.service is None and all(not self.ports[p].is_open and self.ports[p].phase == "idle" for p in ports)

    def closes_cycle(self, port, slot):
        if not self.nodes[port.owner].depends(port.name):
            return False
        work, seen = [slot], set()
        while work:
            here = work.pop()
            if here == port.owner:
                return True
            if here in seen:
                continue
            seen.add(here)
            for number in self.nodes[here].ports:
                other = self.ports[number]
                if other.target and self.nodes[here].depends(other.name):
                    work.append(other.target[0])
        return False

    def rules(self, event):
        """The rules of an event in their order, each with its test, which is made only where those before it hold."""
        tests = self.node_tests(event) if event[0] in ("make", "remove") else self.port_tests(event)
        return [(rule, tests[rule]) for rule in ORDER[event[0]]]

    def node_tests(self, event):
        """The tests of the rules for an event of a node."""
        slot = event[1]
        return {
            18: lambda: self.has_room(event),
            19: lambda: self.is_new(event),
            22: lambda: self.settled(slot),
            24: lambda: slot < len(self.nodes) and self.nodes[slot].live,
            25: lambda: self.is_isolated(slot),
            26: lambda: self.may_follow(event),
        }

    def port_tests(self, event):
        """The tests of the rules for an event at a port."""
        name, first = event[0], event[1]
        port = self.ports[first] if first < len(self.ports) else None
        owner = self.nodes[port.owner] if port else None
        serial, value = (event[2], event[3]) if len(event) == 4 else (0, 0)
        target = self.nodes[port.target[0]] if port and port.target else None
        taken = target is not None and target.service == first
        return {
            1: lambda: port is not None and owner.live,
            2: lambda: port.is_open,
            3: lambda: port.target is not None,
            4: lambda: port.phase == "idle",
            5: lambda: serial == port.serial + 1 and serial < M,
            6: lambda: value < M,
            7: lambda: owner.service is not None and owner.depends(port.name),
            8: lambda: owner.calls < CALLS.get(owner.kind, 0),
            9: lambda: port.target is None or port.serial == M - 1,
            10: lambda: port.phase == "asked",
            11: lambda: not taken,
            12: lambda: target.service is None,
            13: lambda: (serial, value) == (port.serial, port.value),
            14: lambda: taken and port.phase in ("asked", "more"),
            15: lambda: serial == port.serial,
            16: lambda: all(p.within != first for p in self.ports),
            17: lambda: port.phase == "answered",
            20: lambda: port.target is None,
            21: lambda: event[2] < len(self.nodes) and self.nodes[event[2]].live and event[3] < len(KINDS[self.nodes[event[2]].kind][0]),
            22: lambda: self.settled(port.owner),
            23: lambda: not self.closes_cycle(port, event[2]),
            27: lambda: port.phase == "more",
            28: lambda: target.mores < MORES.get(target.kind, 0),
            29: lambda: (owner if name in ("call", "miss") else target).heard,
            30: lambda: not target.heard,
        }

    def has_room(self, event):
        return event[1] == len(self.nodes) < MAX_NODES and len(self.ports) + len(KINDS[event[3]][1]) <= MAX_PORTS

    def is_new(self, event):
        _, _, path, kind, arg, _ = event
        fits = (arg != b"") == KINDS[kind][2] and (arg == b"" or int(arg) < M)
        return fits and all(not n.live or n.path != path for n in self.nodes)

    def may_follow(self, event):
        before = event[5]
        if before is None:
            return True
        if before >= len(self.nodes):
            return False
        node = self.nodes[before]
        return not node.live and node.kind == event[3] and not node.moved

    def is_isolated(self, slot):
        return all(self.ports[p].target is None for p in self.nodes[slot].ports) and all(p.target is None or p.target[0] != slot for p in self.ports)

    def denial(self, event):
        for rule, test in self.rules(event):
            if not test():
                return rule
        return None

    def apply(self, event):
        name, first = event[0], event[1]
        if name == "make":
            self.add(event[2], event[3], event[4], False)
            if event[5] is not None:
                self.nodes[event[5]].moved = True
            return
        if name == "remove":
            self.nodes[first].live = False
            return
        port = self.ports[first]
        owner = self.nodes[port.owner]
        target = self.nodes[port.target[0]] if port.target else None
        if name in ("begin", "call"):
            port.phase, port.serial, port.value = "asked", event[2], event[3]
        if name == "call":
            port.within = owner.service
        if name in ("call", "miss"):
            owner.calls += 1
        if name == "take":
            target.service, target.calls, target.mores, target.heard = first, 0, 0, True
        if name == "give":
            port.phase, port.value, target.service = "answered", event[3], None
        if name == "more":
            port.phase, port.value, target.heard = "more", event[3], False
            target.mores += 1
        if name == "ask":
            port.phase, port.value = "asked", event[3]
        if name == "hear":
            target.heard = True
        if name == "end":
            port.phase, port.value, port.within = "idle", 0, None
        if name in ("close", "reopen"):
            port.is_open = name == "reopen"
        if name == "link":
            port.target = (event[2], event[3])
        if name == "unlink":
            port.target = None

    def greatest(self, slot):
        node = self.nodes[slot]
        ports = [self.ports[p] for p in node.ports if node.depends(self.ports[p].name)]
        return max([1 + self.full(p.target[0]) if p.target else 1 for p in ports], default=0)

    def full(self, slot):
        kind = self.nodes[slot].kind
        calls = CALLS.get(kind, 0)
        return 3 + 3 * MORES.get(kind, 0) + (calls * self.greatest(slot) if calls else 0)

    def rest_of(self, number):
        port = self.ports[number]
        if port.phase == "answered":
            return 1
        slot = port.target[0]
        node = self.nodes[slot]
        if node.service != number:
            return self.full(slot)
        calls = CALLS.get(node.kind, 0) - node.calls
        left = 3 * (MORES.get(node.kind, 0) - node.mores) + (calls * self.greatest(slot) if calls else 0)
        return left + (4 if port.phase == "more" else 2 if node.heard else 3)

    def text(self, count):
        """The text of a replay of so many events."""
        lines, rest = [b"events %d" % count], 0
        for number, port in enumerate(self.ports):
            if port.phase == "idle":
                continue
            is_taken = port.target and self.nodes[port.target[0]].service == number
            stage = b"answered" if port.phase == "answered" else b"taken" if is_taken else b"waiting"
            lines.append(b"open %d %d %s %s" % (number, port.serial, b"root" if port.within is None else b"call", stage))
            rest += self.rest_of(number)
        lines.append(b"rest %d" % rest)
        lines += [b"settled " + node.path for slot, node in enumerate(self.nodes) if node.live and self.settled(slot)]
        return b"".join(line + b"\n" for line in lines)


def line_of(event):
    if event[0] == "make":
        _, slot, path, kind, arg, before = event
        return b"make %d %s %s(%s)" % (slot, path, kind.encode(), arg) + (b"" if before is None else b" from %d" % before)
    return b" ".join([event[0].encode()] + [b"%d" % number for number in event[1:]])


def replayed(machine, made):
    """What `replay` must write of these events, as (status, text)."""
    for number, event in enumerate(made, 1):
        rule = machine.denial(event)
        if rule is not None:
            return 9, b"denied %d %d\n" % (number, rule)
        machine.apply(event)
    return 0, machine.text(len(made))
