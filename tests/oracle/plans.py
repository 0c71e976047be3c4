"""Plans once more, written plainly over graphs: what leads from one to another, and which moves it may have."""
from graphs import kind_text
from machine import MAX_NODES, MAX_PORTS
from tables import DEPENDS, KINDS


def enlarged(graph, chosen):
    """Those nodes and the owners of all ports that reach one of them."""
    nodes, links = graph
    found, followed = set(chosen), set(chosen)
    is_larger = True
    while is_larger:
        is_larger = False
        for port, target in links.items():
            if target is None or target[0] not in followed:
                continue
            is_larger = is_larger or port[0] not in found
            found.add(port[0])
            # no kind has more than one provision
            if port[1].decode() in DEPENDS.get(nodes[port[0]][0], ()) and port[0] not in followed:
                followed.add(port[0])
                is_larger = True
    return found


class Plan:
    """What leads from one graph to another, by paths in the order of the graphs."""

    def __init__(self, old, new, moves=()):
        (old_nodes, old_links), (new_nodes, new_links) = old, new
        stays = {path for path in old_nodes if new_nodes.get(path) == old_nodes[path]}

        def kept(port, target, others):
            return target is not None and port[0] in stays and target[0] in stays and others.get(port) == target

        self.new, self.moves = new, {to: source for source, to in moves}
        self.removed = [path for path in old_nodes if path not in stays]
        self.created = [path for path in new_nodes if path not in stays]
        self.unlinked = [port for port, target in old_links.items() if target and not kept(port, target, new_links)]
        self.linked = [port for port, target in new_links.items() if target and not kept(port, target, old_links)]
        touched = set(self.removed) | {port[0] for port in self.unlinked + self.linked if port[0] in stays}
        frozen = enlarged(old, touched)
        self.frozen = [path for path in old_nodes if path in frozen]

    def count_made(self):
        """How many nodes and ports it makes."""
        return len(self.created), sum(len(KINDS[self.new[0][path][0]][1]) for path in self.created)

    def text(self):
        """What `plan` writes of it."""
        nodes, links = self.new
        lines = [b"freeze " + path for path in self.frozen]
        lines += [b"unlink " + b".".join(port) for port in self.unlinked]
        lines += [b"remove " + path for path in self.removed]
        lines += [b"create " + path + b" " + kind_text(nodes[path]) for path in self.created]
        lines += [b"link " + b".".join(port) + b" " + b".".join(links[port]) for port in self.linked]
        return b"".join(line + b"\n" for line in lines)


def room_fault(made, wanted):
    """Why so many nodes and ports can't be made beside those that were, or None."""
    if made[0] + wanted[0] > MAX_NODES:
        return b"NodesFull %d %d" % (made[0], wanted[0])
    if made[1] + wanted[1] > MAX_PORTS:
        return b"PortsFull %d %d" % (made[1], wanted[1])
    return None


def move_fault(old, new, moves):
    """Why these moves can't be made, or None: the first move in order, and of it the first fault."""
    stays = {path for path in old[0] if new[0].get(path) == old[0][path]}
    for number, (source, to) in enumerate(moves):
        if source not in old[0] or source in stays:
            return b"NotRemoved " + source
        if to not in new[0] or to in stays:
            return b"NotCreated " + to
        if old[0][source][0] != new[0][to][0]:
            return b"KindsDiffer " + source + b" " + to
        if any(source == other for other, _ in moves[:number]):
            return b"MovedTwice " + source
        if any(to == other for _, other in moves[:number]):
            return b"MovedTwice " + to
    return None
