"""Which state of a change's removed nodes goes to which of its created ones."""
import texts


class Moves:
    """The removed nodes that keep a state, and the created ones of their kinds."""

    def __init__(self, old, plan):
        self.left = {path: old.nodes[path] for path in plan.removed if texts.KINDS[old.nodes[path].kind].keeps}
        self.free = {node.path: node for node in plan.created}
        self.pairs, self.warnings = [], []

    def pair(self, source, target):
        self.pairs.append("%s -> %s" % (source, target))
        del self.left[source], self.free[target]

    def find(self):
        for path in list(self.left):
            if path in self.free and self.free[path].kind == self.left[path].kind:
                self.pair(path, path)
        for kind in texts.KINDS:
            sources, targets = self.of(self.left, kind), self.of(self.free, kind)
            if len(sources) == len(targets) == 1:
                self.warnings.append("%s -> %s: is this the same %s with a new path?" % (sources[0], targets[0], kind))
                self.pair(sources[0], targets[0])
        for path, node in self.left.items():
            targets = self.of(self.free, node.kind)
            which = ", unless one of these takes it over: %s" % ", ".join(targets) if targets else ""
            self.warnings.append("%s %s is removed, and what it keeps goes nowhere%s" % (path, node.shown(), which))

    def of(self, nodes, kind):
        return [path for path, node in nodes.items() if node.kind == kind]


    def clause(self):
        """The clause of a `change` line, or nothing."""
        return "moving " + ", ".join(self.pairs) if self.pairs else ""
