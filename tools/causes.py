"""Why an event may not happen, by what stands in the machine of the plain statements: the cause, and not the rule alone."""
import beside
import pages

PHASES = {"idle": "nothing is under way", "asked": "a request is under way", "more": "an intermediate reply is", "answered": "an answer is"}


def words(path):
    return path.decode("utf-8", "replace")


class Causes:
    """Causes in a state of the machine."""

    def __init__(self, machine):
        self.machine = machine

    def port(self, number):
        port = self.machine.ports[number]
        return "port %d, %s.%s" % (number, words(self.machine.nodes[port.owner].path), port.name)

    def node(self, slot):
        return words(self.machine.nodes[slot].path)

    def stands(self, number):
        """What is at a port."""
        port = self.machine.ports[number]
        return "%s, is %s at serial %d, and %s there" % (self.port(number), "open" if port.is_open else "closed", port.serial, PHASES[port.phase])

    def linked(self, number):
        target = self.machine.ports[number].target
        return "%s, is linked to %s" % (self.port(number), self.node(target[0]) if target else "nothing")

    def unsettled(self, slot):
        """The first that keeps a node from being settled."""
        node, ports = self.machine.nodes[slot], self.machine.ports
        if node.service is not None:
            why = "it is in the service of %s" % self.port(node.service)
        else:
            number = min(number for number in set(node.ports) | self.machine.reach(slot) if ports[number].is_open or ports[number].phase != "idle")
            why = "%s, is open" % self.port(number) if ports[number].is_open else "at %s, %s" % (self.port(number), PHASES[ports[number].phase])
        return "%s isn't settled: %s" % (self.node(slot), why)

    def why(self, event, rule):
        """A rule that keeps an event from happening, and what breaks it."""
        return "rule %d asks that %s; but %s" % (rule, pages.rules()[rule], self.cause(event, rule))

    def cause(self, event, rule):
        if event[0] in ("make", "remove"):
            return self.of_node(event, rule)
        number = event[1]
        if rule == 1:
            return "there is no port %d" % number if number >= len(self.machine.ports) else "%s, went with its node" % self.port(number)
        if rule in (2, 4, 10, 17, 27):
            return self.stands(number)
        if rule in (3, 9, 20):
            return self.linked(number)
        if rule in (5, 13, 15):
            port = self.machine.ports[number]
            return "%s, has serial %d%s" % (self.port(number), port.serial, " and value %d" % port.value if rule == 13 else "")
        if rule == 22:
            return self.unsettled(self.machine.ports[number].owner)
        return self.of_service(event, rule)

    def of_service(self, event, rule):
        """Causes by what the owner of a port or its target is in."""
        number, machine = event[1], self.machine
        port = machine.ports[number]
        owner, target = port.owner, port.target[0] if port.target else None
        if rule == 6:
            return "the value is %d" % event[3]
        if rule == 7:
            served = machine.nodes[owner].service
            return "%s services nothing" % self.node(owner) if served is None else "what %s services doesn't depend on %s" % (self.node(owner), self.port(number))
        if rule in (8, 28):
            node = machine.nodes[owner if rule == 8 else target]
            return "%s, of kind %s, made %d in this service" % (words(node.path), node.kind, node.calls if rule == 8 else node.mores)
        if rule in (11, 14, 12):
            served = None if target is None else machine.nodes[target].service
            return self.linked(number) if target is None else "%s services %s" % (self.node(target), "nothing" if served is None else self.port(served))
        if rule == 16:
            return "%s, is called in this service, and hasn't ended" % self.port(next(at for at, other in enumerate(machine.ports) if other.within == number))
        if rule in (29, 30):
            return "%s %s the last message" % (self.node(owner if event[0] in ("call", "miss") else target), "hasn't heard" if rule == 29 else "has heard")
        if rule == 21:
            return self.no_provision(*event[2:])
        return "%s would lead back to itself by way of %s" % (self.node(owner), self.node(event[2]))

    def no_provision(self, slot, provision):
        if slot >= len(self.machine.nodes):
            return "no node was made in slot %d" % slot
        node = self.machine.nodes[slot]
        return "%s has no provision %d" % (self.node(slot), provision) if node.live else "%s, slot %d, was removed" % (self.node(slot), slot)

    def of_node(self, event, rule):
        slot, nodes, ports = event[1], self.machine.nodes, self.machine.ports
        if rule == 18:
            return "%d nodes and %d ports were made" % (len(nodes), len(ports))
        if rule == 19:
            found = [at for at, node in enumerate(nodes) if node.live and node.path == event[2]]
            return "slot %d has this path" % found[0] if found else "%s has the argument %s" % (event[3], words(event[4]) or "of none")
        if rule == 26:
            return self.no_heir(event[5], event[3])
        if rule == 24:
            return "no node was made in slot %d" % slot if slot >= len(nodes) else "%s, slot %d, was removed" % (self.node(slot), slot)
        if rule == 25:
            return self.linked(next(at for at, port in enumerate(ports) if port.target and slot in (port.owner, port.target[0])))
        return self.unsettled(slot)

    def no_heir(self, before, kind):
        """Why a state can't be taken over from a slot."""
        if before >= len(self.machine.nodes):
            return "no node was made in slot %d" % before
        node = self.machine.nodes[before]
        why = "wasn't removed" if node.live else "is a %s, and no %s" % (node.kind, kind) if node.kind != kind else "was taken over"
        return "%s, slot %d, %s" % (self.node(before), before, why)


def denied(graph, events, number):
    """Why the event of this number, from 1, is denied, in the machine of this graph behind those before it."""
    machine = beside.machine_of(graph)
    for event in events[: number - 1]:
        machine.apply(event)
    event = events[number - 1]
    return Causes(machine).why(event, machine.denial(event))
