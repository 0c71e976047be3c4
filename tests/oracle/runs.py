"""Scripts once more: rounds, changes and reports, written plainly from the documents and apart from the proved code."""
from graphs import EMPTY, graph_text
from kinds import Behaviour
from machine import M, Machine, line_of
from tables import KINDS

INBOX = 1024


class System:
    """A system that runs on one thread."""

    def __init__(self):
        self.machine = Machine(EMPTY)
        self.behaviours, self.boxes, self.logs, self.heirs = [], [], [], {}
        self.waiting, self.ended, self.lines = {}, 0, []

    def tell(self, line):
        self.lines.append(line)

    def do(self, event):
        rule = self.machine.denial(event)
        if rule is not None:
            raise AssertionError("rule %d denies %r" % (rule, event))
        self.machine.apply(event)

    def change(self, event):
        self.do(event)
        self.tell(line_of(event))

    def make(self, path, node, source):
        kind, arg = node
        slot = len(self.machine.nodes)
        self.change(("make", slot, path, kind, arg, source))
        state = None if source is None else self.behaviours[source].state
        self.behaviours.append(Behaviour(kind, int(arg or 0), state))
        self.boxes.append([])
        self.logs.append([])
        if source is not None:
            self.heirs[source] = slot

    def live(self):
        return [slot for slot, node in enumerate(self.machine.nodes) if node.live]

    def live_ports(self):
        return [port for slot in self.live() for port in self.machine.nodes[slot].ports]

    # ---- turns

    def own(self, slot, event):
        self.do(event)
        self.logs[slot].append(line_of(event))

    def post(self, port):
        """The hint of the request at a port goes to the node to which it leads, or waits while that node's inbox is full."""
        box = self.boxes[self.machine.ports[port].target[0]]
        if len(box) < INBOX:
            box.append(port)
            self.waiting.pop(port, None)
        else:
            self.waiting[port] = self.machine.ports[port].target[0]

    def post_waiting(self, slot):
        for port in self.machine.nodes[slot].ports:
            if port in self.waiting and len(self.boxes[self.waiting[port]]) < INBOX:
                self.boxes[self.waiting.pop(port)].append(port)

    def is_missing(self, port):
        return port.target is None or port.serial == M - 1

    def turn(self, slot, begins):
        """Whether the node moved."""
        self.post_waiting(slot)
        event = self.ending(slot) or self.serving(slot)
        if event is None and self.machine.nodes[slot].service is None:
            event = self.taking(slot)
        if event is None and begins:
            event = self.beginning(slot)
        if event is None:
            return False
        self.act(slot, event)
        return True

    def ending(self, slot):
        for number in self.machine.nodes[slot].ports:
            port = self.machine.ports[number]
            if port.phase == "answered":
                return "end", number, port.serial, port.value
            if port.phase == "more":
                return "ask", number, port.serial, self.behaviours[slot].replies()
        return None

    def serving(self, slot):
        node = self.machine.nodes[slot]
        ports = [self.machine.ports[number] for number in node.ports]
        if node.service is None or any(port.phase != "idle" and port.within is not None for port in ports):
            return None
        served = self.machine.ports[node.service]
        if not node.heard:
            return ("hear", node.service, served.serial, served.value) if served.phase == "asked" else None
        wanted = self.behaviours[slot].next()
        if wanted[0] != "call":
            return wanted[0], node.service, served.serial, wanted[1]
        number = node.ports[wanted[1]]
        port = self.machine.ports[number]
        if port.phase != "idle":
            return None
        return ("miss", number) if self.is_missing(port) else ("call", number, port.serial + 1, wanted[2])

    def taking(self, slot):
        if not self.boxes[slot]:
            return None
        number = self.boxes[slot].pop(0)
        port = self.machine.ports[number]
        is_for = port.phase == "asked" and port.target is not None and port.target[0] == slot
        return ("take", number, port.serial, port.value) if is_for else None

    def beginning(self, slot):
        wanted = self.behaviours[slot].wants()
        if wanted is None:
            return None
        number = self.machine.nodes[slot].ports[wanted[0]]
        port = self.machine.ports[number]
        may = port.phase == "idle" and port.is_open and not self.is_missing(port)
        return ("begin", number, port.serial + 1, wanted[1]) if may else None

    def act(self, slot, event):
        behaviour, name, number = self.behaviours[slot], event[0], event[1]
        is_call = name == "end" and self.machine.ports[number].within is not None
        self.own(slot, event)
        if name == "end":
            self.ended += 1
            behaviour.answers.append(event[3]) if is_call else behaviour.ended(event[3])
        if name == "take":
            behaviour.serve(event[3])
        if name == "hear":
            behaviour.heard = event[3]
        if name == "miss":
            behaviour.answers.append(0)
        if name in ("begin", "call"):
            self.post(number)

    def round(self, begins):
        """Whether one of the turns moved."""
        return any([self.turn(slot, begins) for slot in self.live()])

    def is_at_rest(self):
        return all(self.behaviours[slot].is_done() for slot in self.live()) and all(port.phase == "idle" for port in self.machine.ports)

    # ---- statements

    def start(self, told, graph):
        nodes, links = graph
        self.tell(b"start " + told)
        for path, node in nodes.items():
            self.make(path, node, None)
        self.connect(list(links), graph, {path: slot for slot, path in enumerate(nodes)})
        for port in range(len(self.machine.ports)):
            self.change(("reopen", port))
        self.tell(b"commit")

    def connect(self, ports, graph, slots):
        nodes, links = graph
        events = []
        for path, name in ports:
            target = links[(path, name)]
            if target:
                number = self.machine.nodes[slots[path]].ports[KINDS[nodes[path][0]][1].index(name.decode())]
                provides = KINDS[nodes[target[0]][0]][0]
                events.append(("link", number, slots[target[0]], provides.index(target[1].decode())))
        for event in sorted(events, key=lambda event: event[1]):
            self.change(event)

    def run(self, k):
        before = self.ended
        while self.ended - before < k and self.round(True):
            pass
        self.tell(b"run %d %d" % (k, self.ended - before))

    def finish(self, n):
        rounds = 0
        while rounds < n and not self.is_at_rest():
            rounds += 1
            if not self.round(True):
                break
        self.tell(b"finish %d %d" % (n, rounds))

    def is_drained(self, number):
        port = self.machine.ports[number]
        return not port.is_open and (port.phase == "idle" or port.within is not None)

    def passivate(self, ports, within):
        """Closes ports, and gives those that weren't found drained, after at most so many rounds."""
        for port in ports:
            self.change(("close", port))
        left, rounds = self.look(ports), 0
        while left and (within is None or rounds < within):
            self.round(False)
            left, rounds = self.look(left), rounds + 1
        return left

    def look(self, ports):
        left = []
        for port in ports:
            if self.is_drained(port):
                self.tell(b"drained %d %d" % (port, self.machine.ports[port].serial))
            else:
                left.append(port)
        return left

    def change_to(self, told, plan, new, within):
        """Whether the change was made."""
        self.tell(b"change " + told)
        slots = {self.machine.nodes[slot].path: slot for slot in self.live()}
        frozen = {slots[path] for path in plan.frozen}
        closed = [number for number, port in enumerate(self.machine.ports) if port.owner in frozen]
        left = self.passivate(closed, within)
        if left:
            self.tell(b"pending %d" % within)
            for port in left:
                self.tell(b"open %d %d" % (port, self.machine.ports[port].serial))
            for port in closed:
                self.change(("reopen", port))
            self.tell(b"abandon")
            return False
        self.commit(plan, new, slots, closed)
        return True

    def commit(self, plan, new, slots, closed):
        kinds = {path: self.machine.nodes[slot].kind for path, slot in slots.items()}
        unlinked = [self.machine.nodes[slots[path]].ports[KINDS[kinds[path]][1].index(name.decode())] for path, name in plan.unlinked]
        for port in sorted(unlinked):
            self.change(("unlink", port))
        for slot in sorted(slots[path] for path in plan.removed):
            self.change(("remove", slot))
        first = len(self.machine.ports)
        for path in plan.created:
            source = plan.moves.get(path)
            self.make(path, new[0][path], None if source is None else slots[source])
        now = {self.machine.nodes[slot].path: slot for slot in self.live()}
        self.connect(plan.linked, new, now)
        made = list(range(first, len(self.machine.ports)))
        for port in closed + made:
            if self.machine.nodes[self.machine.ports[port].owner].live:
                self.change(("reopen", port))
        self.tell(b"commit")

    def stop(self):
        self.tell(b"stop")
        self.passivate(sorted(self.live_ports()), None)

    def log_lines(self):
        lines = []
        for slot, node in enumerate(self.machine.nodes):
            lines.append(b"log %d %s" % (slot, node.path))
            lines += self.logs[slot]
            if slot in self.heirs:
                lines.append(b"moved %d" % self.heirs[slot])
            else:
                lines.append(b" ".join([b"state"] + [b"%d" % number for number in self.behaviours[slot].numbers()]))
        return lines


def rolled(first, count, within, parts):
    """Starts a graph, runs so many transactions, and makes the parts of a change one after the other, each within so many rounds. Gives
    the graph at the end, and the number of the part that was given up, from 1, or None."""
    system, graph = System(), first
    system.start(b"", first)
    system.run(count)
    for number, (after, _, plan) in enumerate(parts, 1):
        if not system.change_to(b"", plan, after, within):
            return graph, number
        graph = after
    return graph, None


def report(statements, system=None):
    """The report of a script's statements, each with its graph, as (status, text); of another system where one is given."""
    system, graph, is_given_up, is_finished = system or System(), None, False, False
    for statement in statements:
        name = statement[0]
        if name == "start":
            graph = statement[2]
            system.start(statement[1], graph)
        elif name == "change" and is_given_up:
            system.lines += [b"change " + statement[1], b"skipped"]
        elif name == "change":
            _, told, plan, new, within = statement
            if system.change_to(told, plan, new, within):
                graph = new
            else:
                is_given_up = True
        elif name == "show":
            system.tell(b"show")
            system.lines += graph_text(graph).split(b"\n")[:-1]
        elif name == "run":
            system.run(statement[1])
        elif name == "finish":
            is_finished = True
            system.finish(statement[1])
    system.stop()
    lines = [b"report 2"] + system.lines + system.log_lines()
    undone = [slot for slot in system.live() if not system.behaviours[slot].is_done()]
    status = 7 if is_given_up else 8 if is_finished and undone else 0
    if is_finished and undone:
        lines.append(b"unfinished %d" % undone[0])
    lines.append(b"status %d" % status)
    return status, b"".join(line + b"\n" for line in lines)
