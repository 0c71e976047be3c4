"""Crowds: systems whose components serve many requests at once, as a runtime outside has them. They go on at random: roots begin at ports that
are linked and whose gates are open, services call over ports on which they depend, many at a time, and each ends once its calls have.

Ports are named by the path of their owner and the requirement, so that a crowd goes on whatever numbers a session gives. `FAULTY` has crowds
that break a premise on runtimes.
"""
from evolving import NAMES, Evolving, declarations
from tables import DEPENDS, KINDS

MOST_ROOTS, MOST_CALLS, MOST_OPEN = 4, 3, 30
FIRST, BETWEEN, LAST = ["source", "source", "philosopher", "teller", "buffer"], ["map", "place", "branch"], ["account", "sink", "fork", "buffer"]


class Found(Exception):
    """Something that may not be in a crowd which keeps the premises."""


class Transaction:
    """A root, or a call for another one: over a port, at a node, with so many open calls of its own."""

    def __init__(self, port, node, parent):
        self.port, self.node, self.parent, self.calls = port, node, parent, 0


class Gate:
    """A gate, and how many roots are under way that went through it."""

    def __init__(self, is_open):
        self.is_open, self.roots = is_open, 0


class Crowd:
    """Nodes by path with their kinds as texts, links by port, gates by port, and the transactions that are open."""

    def __init__(self, rng):
        self.rng, self.nodes, self.links, self.gates, self.open = rng, {}, {}, {}, []
        self.begun, self.ended, self.served_several = 0, 0, False

    # ---- wiring

    def make(self, path, kind):
        self.nodes[path] = kind
        self.gates.update(((path, name.encode()), Gate(False)) for name in KINDS[kind_of(kind)][1])

    def remove(self, path):
        del self.nodes[path]
        self.gates = {port: gate for port, gate in self.gates.items() if port[0] != path}

    def depends(self, port):
        return port[1].decode() in DEPENDS.get(kind_of(self.nodes[port[0]]), ())

    # ---- what happens

    def step(self):
        """Something happens, or nothing that was possible was thought of."""
        pick = self.rng.random()
        if pick < 0.35:
            self.begin_some()
        elif pick < 0.7 and self.open:
            self.call_for(self.rng.choice(self.open))
        elif self.open:
            self.end_some()

    def wind_up(self):
        """A transaction ends, while none is called any more."""
        self.end_some()

    def begin_some(self):
        ports = [port for port, gate in self.gates.items() if gate.roots < MOST_ROOTS and port in self.links and not self.depends(port) and self.may_begin(gate)]
        if ports and len(self.open) < MOST_OPEN:
            port = self.rng.choice(ports)
            self.gates[port].roots += 1
            self.begun += 1
            self.enter(Transaction(port, self.target(port), None))

    def call_for(self, parent):
        ports = self.ports_of(parent)
        if ports and parent.calls < MOST_CALLS and len(self.open) < MOST_OPEN:
            port = self.rng.choice(ports)
            parent.calls += 1
            self.enter(Transaction(port, self.target(port), parent))

    def enter(self, one):
        if one.node not in self.nodes:
            raise Found("a removed node is used")
        self.served_several = self.served_several or any(other.node == one.node for other in self.open)
        self.open.append(one)

    def end_some(self):
        ending = [one for one in self.open if self.may_end(one)]
        if ending:
            self.end(self.rng.choice(ending))

    def end(self, one):
        self.open.remove(one)
        if one.parent is not None:
            one.parent.calls -= 1
        else:
            self.gates[one.port].roots -= 1
            self.ended += 1

    # ---- the premises

    def target(self, port):
        """Where a port leads, which is looked up in the transaction."""
        return self.links[port]

    def may_begin(self, gate):
        return gate.is_open

    def may_end(self, one):
        return one.calls == 0

    def ports_of(self, one):
        """The ports over which a service may call."""
        return [port for port in self.links if port[0] == one.node and self.depends(port)]

    # ---- what is true

    def engaged(self):
        """The nodes that are in the middle of something: they serve, or what they began or called is open."""
        return {one.node for one in self.open} | {one.port[0] for one in self.open}


def kind_of(text):
    """The kind of a node that is written as KIND(ARG)."""
    return text.partition(b"(")[0].decode()


# ---- crowds that break a premise


class Leaking(Crowd):
    """A root begins behind a closed gate."""

    def may_begin(self, gate):
        return gate.is_open or self.rng.random() < 0.1

    def wind_up(self):
        if self.rng.random() < 0.1:
            self.begin_some()
        else:
            super().wind_up()


class Impatient(Crowd):
    """A root counts as ended while what it called goes on."""

    def may_end(self, one):
        return one.calls == 0 or one.parent is None and self.rng.random() < 0.3


class Detaching(Crowd):
    """A task outlives its service, and calls."""

    def __init__(self, rng):
        super().__init__(rng)
        self.late = None

    def end(self, one):
        super().end(one)
        if self.ports_of(one) and self.rng.random() < 0.8:
            self.late = one

    def step(self):
        if not self.calls_late():
            super().step()

    def wind_up(self):
        if not self.calls_late():
            super().wind_up()

    def calls_late(self):
        """Whether the task calls, once."""
        late = self.late
        if late is None or late.node not in self.nodes or self.rng.random() < 0.7:
            return False
        self.late = None
        self.call_for(late)
        return True


class Undeclared(Crowd):
    """A service calls over a port of another node, on which nothing of its own depends."""

    def ports_of(self, one):
        ports = super().ports_of(one)
        return ports + [port for port in self.links if port[0] != one.node] if self.rng.random() < 0.2 else ports

    def wind_up(self):
        if self.open and self.rng.random() < 0.2:
            self.call_for(self.rng.choice(self.open))
        else:
            super().wind_up()


class Remembering(Crowd):
    """A target is kept from a first use on, and used after the system was changed."""

    def __init__(self, rng):
        super().__init__(rng)
        self.kept = {}

    def target(self, port):
        found = self.kept.setdefault(port, self.links[port])
        if found != self.links[port]:
            raise Found("a link is used that is gone")
        return found


# ---- wired systems


def wired(rng):
    """A description whose components `Old` and `New` are wired so that many come to the same nodes, the second an edit of the first."""
    old, new = Evolving(rng, 1), Evolving(rng, 1)
    old.kinds = new.kinds = sorted(set(FIRST + BETWEEN + LAST))
    names = sorted(rng.sample(NAMES, rng.randrange(3, 10)))
    third = -(-len(names) // 3)
    old.nodes, old.links = {}, {}
    for kinds, some in ((FIRST, names[:third]), (BETWEEN, names[third : -third]), (LAST, names[-third:])):
        old.nodes.update((name, old.node(rng.choice(kinds))) for name in some)
    for port in old.ports():
        later = [name for name in names if name > port[0] and KINDS[old.nodes[name][0]][0]]
        if later and rng.random() < 0.95:
            old.links[port] = rng.choice(later[:4])
    new.nodes, new.links = dict(old.nodes), dict(old.links)
    for _ in range(rng.choice([1, 1, 1, 2, 3])):
        used = sorted(set(new.links.values()))
        if used and rng.random() < 0.7:
            new.replace(rng.choice(used))
        else:
            new.edit()
    return "\n".join(declarations() + old.component("Old") + new.component("New")).encode() + b"\n"
