"""Random systems of nodes of all kinds that change while they run: descriptions with a component a graph, and scripts over them.

`script(rng)` gives the text of a description and that of a script.
"""
from tables import KINDS

NAMES = "abcdefghijklmnopqrstuvwxyz"
# what a requirement of each kind is most often linked to
FITTING = {
    "philosopher": ["place", "place", "place", "fork"],
    "place": ["fork", "fork", "fork", "account"],
    "source": ["map", "buffer", "sink", "account"],
    "map": ["buffer", "sink", "map", "adder"],
    "buffer": ["map", "sink", "buffer", "account"],
    "teller": ["branch", "branch", "sink", "account"],
    "branch": ["account", "account", "account", "sink"],
    "asker": ["adder", "adder", "adder", "map"],
}
ARGUMENTS = [0, 0, 1, 1, 2, 2, 3, 5]


class Evolving:
    """Graphs, each made of the one before it by a few edits: nodes by name, each its kind and argument, and links."""

    def __init__(self, rng, most=13):
        self.rng = rng
        self.kinds = rng.sample(list(KINDS), rng.randrange(3, len(KINDS) + 1))
        self.nodes, self.links = {}, {}
        for _ in range(rng.randrange(1, most + 1)):
            self.add()
        for port in self.ports():
            self.link(port)

    def ports(self):
        return [(name, port) for name in sorted(self.nodes) for port in KINDS[self.nodes[name][0]][1]]

    def add(self):
        free = [name for name in NAMES if name not in self.nodes]
        if free:
            self.nodes[self.rng.choice(free)] = self.node(self.rng.choice(self.kinds))

    def node(self, kind):
        argument = self.rng.choice(ARGUMENTS) if KINDS[kind][2] else None
        return kind, self.rng.choice([0, 1, 2, 9]) if kind == "place" else argument

    def link(self, port):
        """Links a requirement to a provision that fits most often, mostly of a later name, so that there is no cycle; seldom to none."""
        rng = self.rng
        targets = [name for name, (kind, _) in self.nodes.items() if KINDS[kind][0]]
        if rng.random() < 0.97:
            targets = [name for name in targets if name > port[0]] or targets
        fitting = [name for name in targets if self.nodes[name][0] in FITTING.get(self.nodes[port[0]][0], ())]
        self.links.pop(port, None)
        if rng.random() < 0.9 and targets:
            self.links[port] = rng.choice(fitting if fitting and rng.random() < 0.93 else targets)

    def remove(self, name):
        del self.nodes[name]
        self.links = {port: target for port, target in self.links.items() if name not in (port[0], target)}

    def edit(self):
        """The moves that a change may make, by the nodes' names."""
        rng, moves = self.rng, []
        for _ in range(rng.choice([0, 1, 1, 2, 3])):
            pick = rng.random()
            if pick < 0.25 or not self.nodes:
                self.add()
            elif pick < 0.4:
                self.remove(rng.choice(sorted(self.nodes)))
            elif pick < 0.75:
                moves += self.replace(rng.choice(sorted(self.nodes)))
            elif self.ports():
                self.link(rng.choice(self.ports()))
        for port in self.ports():
            if port not in self.links and rng.random() < 0.7:
                self.link(port)
        return moves

    def replace(self, name):
        """Another node of the same kind takes the place of this one, under its name or another."""
        kind = self.nodes[name][0]
        new = name if self.rng.random() < 0.4 else self.rng.choice([free for free in NAMES if free not in self.nodes] or [name])
        node = self.node(kind)
        sources = {port: target for port, target in self.links.items() if name in (port[0], target)}
        self.remove(name)
        self.nodes[new] = node
        for (owner, port), target in sources.items():
            self.links[(new if owner == name else owner, port)] = new if target == name else target
        return [(name, new)] if self.rng.random() < 0.75 else []

    def component(self, name):
        lines = ["component %s {" % name]
        for node, (kind, argument) in sorted(self.nodes.items()):
            lines.append("  inst %s:%s%s;" % (node, kind, "" if argument is None else "(%d)" % argument))
        for (owner, port), target in sorted(self.links.items()):
            lines.append("  bind %s.%s -- %s.%s;" % (owner, port, target, KINDS[self.nodes[target][0]][0][0]))
        return lines + ["}"]


def declarations():
    lines = []
    for kind, (provides, requires, has) in KINDS.items():
        ports = ["provide %s;" % ", ".join(provides)] * bool(provides) + ["require %s;" % ", ".join(requires)] * bool(requires)
        lines.append("component %s%s { %s }" % (kind, "(int x)" if has else "", " ".join(ports)))
    return lines


def script(rng, most=13):
    """A description and a script, whose first system has so many nodes at most."""
    system, lines = Evolving(rng, most), declarations()
    said = ["use a.dar", "start G0()" if rng.random() < 0.5 else "start G0"]
    lines += system.component("G0")
    for number in range(1, rng.choice([1, 2, 2, 3, 4])):
        said += between(rng)
        moves = system.edit()
        lines += system.component("G%d" % number)
        moving = " moving " + ", ".join("%s -> %s" % move for move in moves) if moves else ""
        said.append("change to G%d() within %d%s" % (number, rng.choice([0, 0, 0, 1, 1, 2, 3, 5, 20, 60]), moving))
    said += between(rng)
    if rng.random() < 0.8:
        said.append("finish within %d" % rng.choice([0, 1, 5, 40, 200, 200]))
    said.append("end")
    return "\n".join(lines).encode() + b"\n", "\n".join(said).encode() + b"\n"


def between(rng):
    said = []
    for _ in range(rng.choice([0, 1, 1, 2])):
        said.append(rng.choice(["run %d" % rng.choice([0, 1, 2, 5, 11, 40]), "run %d" % rng.randrange(9), "show"]))
    return said
