"""Sessions of `apply` once more: a change of a system that runs elsewhere, as a function of the lines that came, written plainly over plans and the machine."""
from runs import System
from scripts import integer, is_number, words_of

LINE_LIMIT = 4096
OF_A_PORT, ALONE = (b"busy", b"closed", b"idle"), (b"round", b"stop", b"go")
COMMITTED, BAD, UNREAD, UNWRITTEN, GIVEN_UP, DENIED = 0, 3, 4, 5, 7, 9


def said_by(line):
    """What a line says, as (word, port), the port None where the word stands alone; or None where it has no form."""
    if len(line) > LINE_LIMIT:
        return None
    words = words_of(line.strip(b" \t\r"))
    if len(words) == 2 and words[0] in OF_A_PORT and is_number(words[1]):
        return words[0], integer(words[1])
    return (words[0], None) if len(words) == 1 and words[0] in ALONE else None


def says_nothing(line):
    """Whether a line is blank or a comment; one that is too long is neither."""
    return len(line) <= LINE_LIMIT and line.strip(b" \t\r")[:1] in (b"", b"#")


class Session(System):
    """A session. `lines` are those that it wrote so far; `status` is None as long as it goes on."""

    def __init__(self, within, old, new, plan):
        """Begins the change of one component, as (call, graph), to another, within so many rounds."""
        super().__init__()
        self.within, self.left, self.plan, self.new = within, within, plan, new[1]
        self.number, self.is_ready, self.status, self.rest, self.shown = 0, False, None, b"", 0
        self.start(*old)
        self.tell(b"change " + new[0])
        self.slots = {node.path: slot for slot, node in enumerate(self.machine.nodes)}
        frozen = {self.slots[path] for path in plan.frozen}
        self.asked = [number for number, port in enumerate(self.machine.ports) if port.owner in frozen]
        for port in self.asked:
            self.tell(b"close %d" % port)
        self.tell(b"wait %d" % within)
        self.settle()

    # ---- what comes

    def feed(self, piece):
        """Hears the lines that a further piece of the input ends. A line that is too long is heard before its end; behind the session's end
        nothing is heard."""
        *lines, self.rest = (self.rest + piece).split(b"\n")
        for line in lines + [self.rest] * (len(self.rest) > LINE_LIMIT):
            if self.status is None:
                self.hear(line)

    def hear(self, line):
        """Hears a line without its line feed."""
        self.number += 1
        if says_nothing(line):
            return
        said = said_by(line)
        if said is None or not self.may_say(*said):
            self.leave(BAD, [b"bad %d" % self.number])
        elif said[0] == b"round":
            self.left -= 1
            self.settle()
        elif said[0] == b"stop":
            self.give_up()
        elif said[0] == b"go":
            self.commit(self.plan, self.new, self.slots, self.asked)
            self.status = COMMITTED
        else:
            self.take_in(self.events_told(*said))

    def may_say(self, word, port):
        """Whether it makes sense: the port was made; its gate was to be closed and is open; all is ready."""
        if word == b"closed":
            return port in self.asked and self.machine.ports[port].is_open
        if word == b"go":
            return self.is_ready
        return port is None or port < len(self.machine.ports)

    def events_told(self, word, number):
        """The events of the machine that a word about a port tells."""
        serial = self.machine.ports[number].serial
        if word == b"closed":
            return [("close", number)]
        if word == b"busy":
            return [("begin", number, serial + 1, 0)]
        return [(name, number, serial, 0) for name in ("take", "give", "end")]

    def take_in(self, events):
        for event in events:
            rule = self.machine.denial(event)
            if rule is not None:
                self.leave(DENIED, [b"denied %d %d" % (self.number, rule)])
                return
            self.machine.apply(event)
        self.settle()

    # ---- how it goes on

    def undrained(self):
        return [port for port in self.asked if not self.is_drained(port)]

    def settle(self):
        """While it waits: it is ready once each port is drained; else it is given up where no round is left."""
        if self.is_ready:
            return
        if not self.undrained():
            self.is_ready = True
            for port in self.asked:
                self.tell(b"drained %d %d" % (port, self.machine.ports[port].serial))
            self.tell(b"ready")
        elif self.left == 0:
            self.give_up()

    def give_up(self):
        """At `stop`, at the end of the input, and behind the last round."""
        self.leave(GIVEN_UP, [b"pending %d" % self.within] + [b"open %d %d" % (port, self.machine.ports[port].serial) for port in self.undrained()])

    def break_off(self):
        """Where no more can be read of the input."""
        self.leave(UNREAD, [b"read fault -"])

    def leave(self, status, first):
        """The change isn't made: behind these lines each gate is opened again that was to be closed."""
        self.lines += first
        for port in self.asked:
            self.change(("reopen", port))
        self.tell(b"abandon")
        self.status = status

    # ---- what is written

    def text(self):
        """The lines that it wrote and that weren't asked for before."""
        lines, self.shown = self.lines[self.shown :], len(self.lines)
        return b"".join(line + b"\n" for line in lines)


def written(session, came):
    """The status of a session and all that it writes, where just this comes."""
    session.feed(came)
    if session.status is None:
        session.give_up()
    return session.status, session.text()


def carried_out(session, read, write):
    """The status of a session over `read`, which gives a further piece of the input, or nothing at its end, and `write`; either may fail.
    What a session writes is written before more is read."""
    try:
        write(session.text())
        while session.status is None:
            hear_more(session, read)
            write(session.text())
    except OSError:
        return UNWRITTEN
    return session.status


def hear_more(session, read):
    """Takes in what comes next."""
    try:
        piece = read()
    except OSError:
        session.break_off()
        return
    if piece:
        session.feed(piece)
    else:
        session.give_up()
