"""A runtime's part in sessions of `apply`: it reads what is written, closes gates, tells what is under way in its crowd (crowds.py), and switches.

What is told of one port comes in order, of several in any order and late. Some tell of each port all that comes and goes, some nothing before its
gate is closed, some what they like as far as that is true. `FAULTS` has runtimes that break one premise each.
"""
from crowds import Crowd, Detaching, Found, Impatient, Leaking, Remembering, Undeclared, kind_of
from tables import KINDS

MANNERS = ["all", "all", "little", "little", "any"]


class Teller:
    """What is told of ports in a session. `up` are the ports of which busy was told and not yet idle, `said` those that were told closed."""

    def __init__(self, rng, crowd, asked):
        self.rng, self.crowd, self.asked = rng, crowd, list(asked)
        self.up, self.said, self.waiting = set(), set(), {}
        self.manners = {port: rng.choice(MANNERS) for port in crowd.gates}
        self.shut, self.to_shut = [], self.to_be_shut()

    def to_be_shut(self):
        return self.rng.sample(self.asked, len(self.asked))

    def tell(self, port, word):
        self.waiting.setdefault(port, []).append(word)

    def busy(self, port):
        self.up.add(port)
        self.tell(port, b"busy")

    def idle(self, port):
        self.up.discard(port)
        self.tell(port, b"idle")

    def look(self):
        """Tells what has to be told."""
        for port, gate in self.crowd.gates.items():
            self.look_at(port, gate)

    def look_at(self, port, gate):
        if port not in self.said and self.manners[port] == "any" and self.rng.random() < 0.02 and port in self.crowd.links:
            (self.idle if port in self.up else self.busy)(port)
        elif self.manners[port] == "all" and gate.roots and port not in self.up and port not in self.said:
            self.busy(port)
        elif not gate.roots and port in self.up and (self.manners[port] == "all" or port in self.said):
            self.idle(port)

    def go_on(self):
        """A gate is closed, or one is told to be."""
        if self.to_shut and self.rng.random() < 0.6:
            port = self.to_shut.pop()
            self.close(port)
            self.shut.append(port)
        elif self.shut:
            self.closed(self.shut.pop(self.rng.randrange(len(self.shut))))

    def close(self, port):
        self.crowd.gates[port].is_open = False

    def closed(self, port):
        """Tells that a gate is closed, and before it what is under way there."""
        if self.crowd.gates[port].roots and port not in self.up:
            self.busy(port)
        self.said.add(port)
        self.tell(port, b"closed")

    def has_more(self):
        return bool(self.to_shut or self.shut)

    def next_line(self):
        """A word that comes, with its port, or None where none is on its way."""
        ports = [port for port, words in self.waiting.items() if words]
        if not ports:
            return None
        port = self.rng.choice(ports)
        return self.waiting[port].pop(0), port


class EarlyIdle(Teller):
    """Idle is told while a root is under way."""

    def look_at(self, port, gate):
        if port in self.said and port in self.up and self.rng.random() < 0.2:
            self.idle(port)
        else:
            super().look_at(port, gate)


class UntoldBusy(Teller):
    """Roots aren't told that are under way; their end is, or isn't."""

    def busy(self, port):
        super().busy(port)
        if self.rng.random() < 0.5:
            self.waiting[port].pop()
            if self.rng.random() < 0.5:
                self.up.discard(port)


class UntoldIdle(Teller):
    """An end isn't told."""

    def idle(self, port):
        super().idle(port)
        if port in self.said and self.rng.random() < 0.5:
            self.waiting[port].pop()


class EarlyClosed(Teller):
    """A gate is told closed, and is closed later."""

    def close(self, port):
        if self.rng.random() < 0.3:
            super().close(port)

    def look(self):
        super().look()
        for port in self.said:
            if self.rng.random() < 0.05:
                super().close(port)


class LeftOut(Teller):
    """A gate isn't closed."""

    def to_be_shut(self):
        return super().to_be_shut()[1:]


class Forward(Teller):
    """All that begins is told, behind a closed gate too."""

    def look_at(self, port, gate):
        if gate.roots and port not in self.up:
            self.busy(port)
        else:
            super().look_at(port, gate)


# what each runtime does wrong, its crowd, and what it tells
FAULTS = {
    "a root begins behind a closed gate, and is told": (Leaking, Forward),
    "a root begins behind a closed gate, and isn't told": (Leaking, Teller),
    "an end is told too early": (Crowd, EarlyIdle),
    "a port is left out": (Crowd, LeftOut),
    "closed is told too early": (Crowd, EarlyClosed),
    "busy is left out": (Crowd, UntoldBusy),
    "idle is left out": (Crowd, UntoldIdle),
    "a root ends before its calls": (Impatient, Teller),
    "a call is detached": (Detaching, Teller),
    "a call is undeclared": (Undeclared, Teller),
    "an old link is used": (Remembering, Teller),
}


class Numbers:
    """The numbers of a session, paths by slot and names by port, and the graph of its lines: nodes with their kinds, links."""

    def __init__(self):
        self.paths, self.ports, self.nodes, self.links = [], [], {}, {}

    def read(self, words):
        """Takes in a line of the history."""
        if words[0] == b"make":
            self.paths.append(words[2])
            self.nodes[words[2]] = words[3]
            self.ports += [(words[2], name.encode()) for name in KINDS[kind_of(words[3])][1]]
        elif words[0] == b"link":
            self.links[self.port(words)] = self.paths[int(words[2])]
        elif words[0] == b"unlink":
            del self.links[self.port(words)]
        elif words[0] == b"remove":
            del self.nodes[self.paths[int(words[1])]]

    def port(self, words):
        return self.ports[int(words[1])]


class Runtime:
    """A runtime in a session. `talk` takes what is said and gives what is answered to it."""

    def __init__(self, rng, crowd, teller, talk):
        self.rng, self.crowd, self.talk, self.numbers = rng, crowd, talk, Numbers()
        self.asked, self.acts, self.settled, self.is_ready, self.is_started = [], [], set(), False, False
        self.read(talk.first)
        self.teller = teller(rng, crowd, self.asked)
        self.number_of = {port: number for number, port in enumerate(self.numbers.ports)}

    # ---- what is read

    def read(self, text):
        for line in text.splitlines():
            words = line.split(b" ")
            if words[0] in (b"make", b"link", b"unlink", b"remove", b"reopen"):
                self.acts.append(words)
            elif words[0] == b"close":
                self.asked.append(self.numbers.port(words))
            elif words[0] == b"ready":
                self.is_ready = True
            elif words[0] in (b"commit", b"abandon"):
                self.settled = set()
                (self.switch if self.is_started else self.start)()

    def start(self):
        """The system that is told has to be the one that there is, if there is one yet."""
        for words in self.acts:
            self.numbers.read(words)
        if not self.crowd.nodes:
            for path, kind in self.numbers.nodes.items():
                self.crowd.make(path, kind)
            self.crowd.links = dict(self.numbers.links)
        self.is_started = True
        self.finish_acts()

    def switch(self):
        """Does what was told: where a node is touched, it has to be in the middle of nothing."""
        for words in self.acts:
            self.numbers.read(words)
            if words[0] == b"make":
                self.crowd.make(words[2], words[3])
            elif words[0] == b"remove":
                self.want_quiet(self.numbers.paths[int(words[1])])
                self.crowd.remove(self.numbers.paths[int(words[1])])
            elif words[0] == b"unlink":
                self.want_quiet(self.numbers.port(words)[0])
                del self.crowd.links[self.numbers.port(words)]
            elif words[0] == b"link":
                self.want_quiet(self.numbers.port(words)[0])
                self.crowd.links[self.numbers.port(words)] = self.numbers.paths[int(words[2])]
        self.finish_acts()

    def finish_acts(self):
        for words in self.acts:
            if words[0] == b"reopen":
                self.crowd.gates[self.numbers.port(words)].is_open = True
        self.acts = []
        if (self.crowd.nodes, self.crowd.links) != (self.numbers.nodes, self.numbers.links):
            raise Found("another graph is told than stands")
        if not all(gate.is_open for gate in self.crowd.gates.values()):
            raise Found("a gate stays closed")

    def want_quiet(self, path):
        if path in self.crowd.engaged():
            raise Found("a node is changed in the middle of something")

    # ---- what is said

    def say(self, line):
        """Says a line, now and then with blanks, comments or lines that say nothing."""
        pick = self.rng.random()
        if pick < 0.04:
            line = self.rng.choice([b"", b" ", b"#", b"# busy 0", b" \t# x", b"#\0\xff", b"\r"]) + b"\n" + line
        elif pick < 0.08:
            line = self.rng.choice([b" ", b"\t", b""]) + line.replace(b" ", self.rng.choice([b"  ", b"\t", b" 00"])) + self.rng.choice([b" ", b"\r", b""])
        self.heard(self.talk.say(line + b"\n"))

    def heard(self, text):
        self.read(text)
        if self.talk.is_over():
            return
        self.settled |= self.talk.settled()
        self.judge()

    def judge(self):
        if self.settled & self.crowd.engaged():
            raise Found("a settled node is in the middle of something")

    def pass_on(self):
        """Says one of the lines that are on their way; whether there was one."""
        told = self.teller.next_line()
        if told is not None:
            self.say(b"%s %d" % (told[0], self.number_of[told[1]]))
        return told is not None

    # ---- a session

    def run(self, steps, interruption):
        """Goes on until the session is over: the crowd as before for so many steps, in the midst of which `interruption`, as (step, line), is
        said; the line is None for the end of the input. Then nothing begins any more."""
        step = 0
        while not self.talk.is_over():
            step += 1
            if interruption and interruption[0] == step:
                self.interrupt(interruption[1])
            elif self.is_ready and self.rng.random() < 0.5:
                self.decide()
            elif step < steps:
                self.go_on(step > steps // 4)
            else:
                self.wind_up()

    def interrupt(self, line):
        if line is None:
            self.heard(self.talk.end())
        else:
            self.heard(self.talk.say(line))

    def decide(self):
        """All is drained."""
        pick = self.rng.random()
        if pick < 0.06:
            self.heard(self.talk.end())
        elif pick < 0.12:
            self.say(b"stop")
        elif pick < 0.3:
            self.say(b"round")
        else:
            self.say(b"go")

    def go_on(self, closes):
        self.crowd.step()
        self.judge()
        self.teller.look()
        if closes and self.rng.random() < 0.3:
            self.teller.go_on()
        if self.rng.random() < 0.4:
            self.pass_on()
        elif self.rng.random() < 0.05:
            self.say(b"round")

    def wind_up(self):
        """What is open ends, and what is on its way comes."""
        self.crowd.wind_up()
        self.judge()
        self.teller.look()
        self.teller.go_on()
        if not self.pass_on() and not self.crowd.open and not self.teller.has_more():
            self.heard(self.talk.hurry())
            if not self.is_ready and not self.talk.is_over():
                self.never_ready()

    def never_ready(self):
        """All has ended and was told; a runtime that tells the truth doesn't come here."""
        self.talk.is_stuck = True
        if self.rng.random() < 0.5:
            self.heard(self.talk.end())
        else:
            self.heard(self.talk.say(b"round\n" * self.rng.choice([1, 3, 50])))


WORDS = [b"busy", b"closed", b"idle", b"round", b"stop", b"go"]


def edited(rng, said):
    """What was said in a session, but for a few lines that are others, doubled, left out, or stand elsewhere."""
    lines = said.split(b"\n")
    for _ in range(rng.choice([1, 1, 2, 5])):
        at, to, pick = rng.randrange(len(lines)), rng.randrange(len(lines)), rng.random()
        words = lines[at].split(b" ")
        if pick < 0.25:
            lines[at], lines[to] = lines[to], lines[at]
        elif pick < 0.4:
            lines.insert(to, lines[at])
        elif pick < 0.55 and len(lines) > 1:
            del lines[at]
        elif pick < 0.75:
            lines[at] = b" ".join([rng.choice(WORDS)] + words[1:])
        else:
            lines[at] = b"%s %d" % (words[0], rng.randrange(9))
    return b"\n".join(lines)
