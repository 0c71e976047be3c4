"""What the tools take from the plain statements of tests/oracle: changes between graphs that no one description has, and how many rounds a
change waited."""
import os
import sys

import texts
from pages import Bad

ORACLE = os.path.join(texts.TOP, "tests", "oracle")


def want_oracle():
    if not os.path.isdir(ORACLE):
        raise Bad("the plain statements of tests/oracle, which stand beside tools/, aren't there")


texts.call(want_oracle)
sys.path.insert(1, ORACLE)
import machine
import parts
import plans
import runs
import scripts
import tables


def plain_graph(graph):
    """A graph as the plain statements have it: nodes in the order of their paths' bytes, and links, both as bytes."""
    nodes = {path.encode(): (node.kind, node.argument.encode()) for path, node in graph.nodes.items()}
    links = {(path.encode(), name.encode()): target and (target[0].encode(), target[1].encode()) for (path, name), target in graph.links.items()}
    return dict(sorted(nodes.items())), dict(sorted(links.items(), key=lambda link: (link[0][0], tables.KINDS[nodes[link[0][0]][0]][1].index(link[0][1].decode()))))


def change_text(command, old, new):
    """The lines that `plan` or `parts` would write of the change between two graphs."""
    graphs = plain_graph(old), plain_graph(new)
    text = plans.Plan(*graphs).text() if command == "plan" else parts.parts_text(*graphs)
    return text.decode().splitlines()


def machine_of(graph):
    """The machine in which this graph stands, and nothing has happened."""
    return machine.Machine(plain_graph(graph))


def events_of(text):
    """The component with which a file of events starts, its arguments, and the events."""
    begun, events, _ = scripts.parse(text)
    return begun, events


class Rounds(runs.System):
    """The run in rounds of a report's statements, for which its lines tell what each change closes and makes."""

    def __init__(self):
        super().__init__()
        self.rounds, self.last, self.waits = 0, 0, []

    def round(self, begins):
        self.rounds += 1
        return super().round(begins)

    def look(self, ports):
        left = super().look(ports)
        # the last port of a look that found some is the last that is drained
        self.last = self.rounds if len(left) < len(ports) else self.last
        return left

    def follow(self, words):
        """An act of the change, as its line tells it."""
        name = words[0].decode()
        if name == "make":
            kind, argument = words[3][:-1].split(b"(")
            self.make(words[2], (kind.decode(), argument), int(words[5]) if len(words) > 4 else None)
        elif name in ("link", "unlink", "remove", "close", "reopen"):
            self.change((name, *map(int, words[1:])))
        else:
            self.tell(b" ".join(words))

    def section(self, lines):
        """A start or a change with the lines behind it, or a line by itself."""
        name = lines[0][0]
        if name in (b"run", b"finish"):
            (self.run if name == b"run" else self.finish)(int(lines[0][1]))
        elif name == b"stop":
            self.stop()
        elif name == b"change":
            self.changed(lines)
        else:
            for words in lines:
                self.follow(words)

    def changed(self, lines):
        """A change: it waits as long as it has to, or as long as it is told that it was waited."""
        pending = [int(words[1]) for words in lines if words[0] == b"pending"]
        closed = [int(words[1]) for words in lines if words[0] == b"close"]
        self.tell(b" ".join(lines[0]))
        self.rounds, self.last = 0, 0
        self.passivate(closed, pending[0] if pending else None)
        self.waits.append((self.rounds, self.last))
        for words in lines[1:]:
            if words[0] not in (b"close", b"drained"):
                self.follow(words)


# a report of more events isn't run once more
MOST_EVENTS = 100000


def waits(report, sections):
    """Of each change of a report how many rounds it waited, and in which its last port was drained; None where the report isn't that of
    turns in rounds. One of threads mostly isn't; where it is the same, it is taken for one of rounds."""
    if sum(len(log.events) for log in report.logs.values()) > MOST_EVENTS:
        return None
    system, told = Rounds(), []
    try:
        for section in sections:
            lines = [[word.encode() for word in words] for words in [section.words, *(line.words for line in section.lines)]]
            told += [b" ".join(words) for words in lines]
            system.section(lines)
            if system.lines != told:
                return None
        logs = [[" ".join(words).encode() for words in report.logs[slot].events] for slot in range(len(report.made)) if slot in report.logs]
        return system.waits if logs == system.logs else None
    except (AssertionError, LookupError, ValueError, TypeError):
        return None
