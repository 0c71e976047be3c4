"""Random pairs of graphs, as a description with a component for each: systems of all kinds with a few edits, and dependent services in one
order and then in another, so that parts of the change alone would close a cycle.

`text(rng)` gives the description, whose components are `Old` and `New`.
"""
from evolving import NAMES, Evolving, declarations
from tables import DEPENDS, KINDS

ENDS = ["sink", "fork", "account"]


def text(rng):
    lines = declarations()
    for name, system in zip(("Old", "New"), reordered(rng) if rng.random() < 0.45 else edited(rng)):
        lines += system.component(name)
    return "\n".join(lines).encode() + b"\n"


def edited(rng):
    """A system, and what some edits make of it."""
    old, new = Evolving(rng), Evolving(rng)
    new.nodes, new.links = dict(old.nodes), dict(old.links)
    for _ in range(rng.choice([0, 1, 1, 2, 3, 5])):
        new.edit()
    return old, new


def reordered(rng):
    """Maps, branches and places in some order, each of which leads to later ones or out of them; and most of them in another order."""
    system = Evolving(rng)
    names = rng.sample(NAMES, rng.randrange(3, 9))
    nodes = {name: system.node(rng.choice(sorted(DEPENDS))) for name in names}
    out = {name: system.node(rng.choice(ENDS)) for name in rng.sample([name for name in NAMES if name not in nodes], rng.randrange(3))}
    lead = {name: system.node(rng.choice(["source", "teller", "philosopher", "buffer"])) for name in rng.sample([name for name in NAMES if name not in {**nodes, **out}], rng.randrange(3))}
    made = []
    for _ in range(2):
        one = Evolving(rng)
        one.nodes = {name: system.node(node[0]) if rng.random() < 0.12 else node for name, node in {**nodes, **out, **lead}.items() if rng.random() < 0.97}
        one.links = links(rng, one.nodes, rng.sample(names, len(names)), sorted(out), sorted(lead))
        made.append(one)
    if rng.random() < 0.5:
        keep_links(rng, *made)
    return made


def links(rng, nodes, order, out, lead):
    """Each requirement of a node leads to one of the next nodes of the order or out of it; seldom to none."""
    found = {}
    for at, name in list(enumerate(order)) + [(-1, name) for name in lead]:
        for port in KINDS[nodes[name][0]][1] if name in nodes else ():
            targets = [other for other in order[at + 1 : at + 4] + out if other in nodes]
            if targets and rng.random() < 0.9:
                found[(name, port)] = rng.choice(targets)
    return found


def keep_links(rng, old, new):
    """Some links of the old graph stay in the new one, where its order still is one."""
    for port, target in sorted(old.links.items()):
        before = new.links.get(port)
        if port[0] in new.nodes and port[1] in KINDS[new.nodes[port[0]][0]][1] and target in new.nodes and rng.random() < 0.5:
            new.links[port] = target
            if is_back(new, port[0]):
                new.links.pop(port)
                new.links.update({port: before} if before else {})


def is_back(system, name):
    """Whether a way along links leads back to a node."""
    work, seen = [name], set()
    while work:
        here = work.pop()
        for (owner, _), target in system.links.items():
            if owner == here and target == name:
                return True
            if owner == here and target not in seen:
                seen.add(target)
                work.append(target)
    return False
