"""Events over a graph: most may happen, and the last is often one that a chosen rule denies.

`lines(rng, graph, count)` gives the lines of an event file behind its start.
"""
from machine import M, Machine, Node, line_of
from tables import KINDS

NAMES = "begin call take give end more ask hear".split()


def candidate(rng, machine, quiet):
    """An event that may be lawful: of a port or node that there is, with the serial and value that fit."""
    if not machine.ports or rng.random() < (0.25 if quiet else 0.02):
        pick = rng.random()
        slot = rng.randrange(len(machine.nodes) or 1)
        if pick < 0.4 and machine.nodes:
            return ("remove", slot)
        node = machine.nodes[slot] if machine.nodes else Node(b"x", "sink", b"")
        path = rng.choice([node.path, b"q[%d]" % rng.randrange(9), b"a.b"])
        kind = node.kind if rng.random() < 0.7 else rng.choice(list(KINDS))
        arg = b"%d" % rng.choice([0, 1, 7, M - 1]) if KINDS[kind][2] else b""
        return ("make", len(machine.nodes), path, kind, arg, slot if rng.random() < 0.5 and machine.nodes else None)
    number = rng.randrange(len(machine.ports))
    port = machine.ports[number]
    pick = rng.random()
    if pick < (0.35 if quiet else 0.06):
        name = rng.choice(["close", "close", "unlink", "link"] if quiet else ["close", "reopen", "reopen", "unlink", "link", "miss"])
        if name != "link":
            return (name, number)
        return ("link", number, rng.randrange(len(machine.nodes)), 0)
    if port.phase == "idle":
        name = "call" if machine.nodes[port.owner].depends(port.name) else "begin"
        if name == "call" and port.target is None:
            return ("miss", number)
        return (name, number, port.serial + 1, rng.randrange(M)) if not (quiet and name == "begin") else ("close", number)
    value = rng.choice([0, 1, rng.randrange(M)])
    name = {"asked": rng.choice(["take", "give", "hear", "more"]), "more": "ask", "answered": "end"}[port.phase]
    if name in ("take", "hear", "end"):
        value = port.value
    return (name, number, port.serial, value)


def wild(rng, machine):
    """An event that is likely to be denied."""
    name = rng.choice(NAMES + ["close", "reopen", "miss", "unlink", "remove", "link"])
    number = lambda: rng.choice([0, 1, 2, 3, len(machine.ports), len(machine.nodes), M - 1, M, (1 << 32) - 1])
    return (name,) + tuple(number() for _ in range({"link": 3, "close": 1, "reopen": 1, "miss": 1, "unlink": 1, "remove": 1}.get(name, 3)))


def near(rng, machine, quiet):
    """An event with one thing that may not fit."""
    event = list(candidate(rng, machine, quiet))
    if event[0] not in NAMES:
        if event[0] == "make":
            event[rng.choice([1, 5])] = rng.choice([0, len(machine.nodes), len(machine.nodes) + 1])
        return tuple(event)
    at = rng.randrange(4)
    event[at] = [rng.choice(NAMES), rng.randrange(len(machine.ports) + 1), max(0, event[2] + rng.choice([-1, 1])), rng.choice([0, event[3] ^ 1, M])][at]
    return tuple(event)


def hostile(rng, machine):
    """Events that try a limit: as many nodes as may be and more, many gates, or long runs of one node."""
    pick = rng.random()
    if pick < 0.4:
        kind = rng.choice(["sink", "branch"])
        return [("make", number, b"q[%d]" % number, kind, b"", None) for number in range(len(machine.nodes), rng.choice([1000, 1023, 1024, 1030]))]
    if pick < 0.7 and machine.ports:
        return [(rng.choice(["close", "reopen"]), rng.randrange(len(machine.ports))) for _ in range(5000)]
    made = []
    for number in range(500):
        slot = len(machine.nodes) + number
        made += [("make", slot, b"q", "account", b"7", slot - 1 if number else None), ("remove", slot)]
    return made


def denied_by(rng, machine, rule, quiet):
    """An event that this rule denies, where some tries find one."""
    for _ in range(40):
        event = near(rng, machine, quiet) if rng.random() < 0.8 else changing(rng, machine)
        if machine.denial(event) == rule:
            return event
    return None


def changing(rng, machine):
    """A link, an unlink, a removal or a make with any numbers that there are."""
    port, slot, other = (rng.randrange(len(things) + 1) for things in (machine.ports, machine.nodes, machine.nodes))
    pick = rng.random()
    if pick < 0.4:
        return ("link", port, slot, rng.choice([0, 0, 0, 1]))
    if pick < 0.6:
        return (rng.choice(["unlink", "miss"]), port)
    if pick < 0.8 or not machine.nodes:
        return ("remove", slot)
    node = machine.nodes[min(slot, len(machine.nodes) - 1)]
    return ("make", len(machine.nodes), rng.choice([node.path, b"q"]), node.kind, rng.choice([node.arg, b"", b"16777216"]), rng.choice([None, slot, other]))


def calm(rng, machine):
    """Closes each port, and unlinks some: what the rules of a change look at."""
    made = [("close", port) for port in range(len(machine.ports))]
    for event in made:
        machine.apply(event)
    for port in range(len(machine.ports)):
        event = ("unlink", port)
        if rng.random() < 0.4 and machine.denial(event) is None:
            machine.apply(event)
            made.append(event)
    return made


def lines(rng, graph, count):
    """Event lines over a graph, which end with an event that is denied or after so many."""
    machine = Machine(graph)
    if rng.random() < 0.02:
        return [line_of(event) for event in hostile(rng, machine)]
    lines, quiet = [], False
    rule = rng.randrange(1, 31) if rng.random() < 0.7 else None
    if rule in (20, 21, 23, 25, 26) and len(machine.ports) < 100:
        lines += [line_of(event) for event in calm(rng, machine)]
    for number in range(1, count + 1):
        if rng.random() < 0.02:
            quiet = not quiet
        event = denied_by(rng, machine, rule, quiet) if rule and rng.random() < 0.2 else None
        if event is not None:
            return lines + [line_of(event)] + [line_of(wild(rng, machine)) for _ in range(rng.randrange(3))]
        for _ in range(30):
            event = candidate(rng, machine, quiet)
            if machine.denial(event) is None:
                break
        lines.append(line_of(event))
        if machine.denial(event) is not None:
            return lines
        machine.apply(event)
    return lines
