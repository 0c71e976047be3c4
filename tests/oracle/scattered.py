"""Reports as a run on threads could write them, in the place of `live`: nodes take turns in any order, also between two lines of the
history and while a change waits, and a run ends where enough transactions ended or all came to rest.

`report(statements, rng)` gives the status and the text; `Endless` is raised where a run doesn't end by itself.
"""
import runs
from tables import KINDS

BEGINNERS = ("philosopher", "source", "teller", "buffer", "asker")
# more turns in a row than a system of some twenty nodes makes before its end
TURNS = 200000


class Endless(Exception):
    """It doesn't come to its end."""


class Scattered(runs.System):
    """A system whose nodes take turns at any time. `busy` is how many of them take one between two things that the change does."""

    def __init__(self, rng, most=TURNS):
        super().__init__()
        self.rng, self.busy, self.left = rng, rng.choice([0, 0.3, 1, 4]), most

    def turns(self, share):
        """So many turns for each live node, on average."""
        live = [slot for slot in self.live() if slot < len(self.logs)]
        for _ in range(int(share * len(live) + self.rng.random()) if live else 0):
            self.left -= 1
            if self.left < 0:
                raise Endless()
            self.turn(self.rng.choice(live), True)

    def tell(self, line):
        super().tell(line)
        self.turns(self.busy / 4 * self.rng.random())

    def round(self, begins):
        """A scan: turns, whatever moved."""
        self.turns(self.rng.choice([0, 0.5, 1, 2]))
        return True

    def run(self, k):
        before = self.ended
        while self.ended - before < k and not self.is_at_rest():
            self.round(True)
        self.tell(b"run %d %d" % (k, self.ended - before))


def report(statements, rng, most=TURNS):
    return runs.report(statements, Scattered(rng, most))


def is_fed(graph):
    """Whether each node that begins transactions has somewhere to begin them."""
    nodes, links = graph
    return all(links[(path, name.encode())] for path, (kind, _) in nodes.items() if kind in BEGINNERS for name in KINDS[kind][1])


def comes_to_its_end(statements):
    """Whether each `run` of these comes to its end: transactions go on to end until each node is done."""
    graphs = [statement[2] if statement[0] == "start" else statement[3] for statement in statements if statement[0] in ("start", "change")]
    return all(map(is_fed, graphs))
