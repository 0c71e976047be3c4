"""Reports that are to be judged by a script: those of rounds, of nodes that take their turns in any order, and of systems that break a
rule now and then; as they are, or with lines that are changed so that most that follows from them still fits.

`case(rng)` gives the texts of a description, a script and a report.
"""
import answers
import evolving
import reports
import runs
import scripts
from consistent import Folded, event_of
from report_texts import in_version
from tables import KINDS

# more rounds than a system of this size makes before its stop
ROUNDS = 3000


class Loose(runs.System):
    """Nodes take their turns in any order, and begin what they want also while a change waits."""

    def __init__(self, rng):
        super().__init__()
        self.rng, self.rounds = rng, 0

    def round(self, begins):
        live = self.live()
        self.rounds += 1
        if self.rounds > ROUNDS:
            raise OverflowError("it doesn't come to its stop")
        return any([self.turn(slot, True) for slot in self.rng.sample(live, self.rng.randrange(len(live) + 1))])


class Leaky(Loose):
    """Now and then a gate lets a transaction through, or a look doesn't see one, or sees one that isn't there; and nothing is denied."""

    def __init__(self, rng):
        super().__init__(rng)
        self.leak = rng.choice([0.02, 0.1, 0.3])

    def leaks(self):
        return self.rng.random() < self.leak

    def do(self, event):
        if self.machine.denial(event) not in (None, 2, 22):
            super().do(event)
        self.machine.apply(event)

    def beginning(self, slot):
        closed = [port for port in (self.machine.ports[number] for number in self.machine.nodes[slot].ports) if not port.is_open and self.leaks()]
        for port in closed:
            port.is_open = True
        event = super().beginning(slot)
        for port in closed:
            port.is_open = False
        return event

    def is_drained(self, number):
        return super().is_drained(number) != self.leaks()


def of_a_script(statements, rng):
    """The history, the logs and the end of a report."""
    pick = rng.random()
    system = None if pick < 0.35 else Loose(rng) if pick < 0.7 else Leaky(rng)
    _, text = runs.report(statements, system)
    (_, history, logs, end), _ = reports.parse(text)
    return history, logs, end


def statements_in(text, script):
    """The statements of a script without a fault, or None."""
    said, fault = scripts.parse_script(script)
    try:
        return None if fault else answers.statements_of(said, {"a.dar": text})
    except answers.Refusal:
        return None


# ---- edits


def some(rng, things):
    """The place of one of these, or None."""
    return rng.randrange(len(things)) if things else None


def some_event(rng, logs):
    """The log and the place in it of an event, or (None, None)."""
    found = [(log, at) for log in logs for at in range(1, len(log) - 1)]
    return rng.choice(found) if found else (None, None)


def swap_events(rng, history, logs, end):
    log, at = some_event(rng, logs)
    if log and at + 2 < len(log):
        other = at + 1 if rng.random() < 0.7 else rng.randrange(1, len(log) - 1)
        log[at], log[other] = log[other], log[at]


def move_event(rng, history, logs, end):
    log, at = some_event(rng, logs)
    if log:
        line, other = log.pop(at), rng.choice(logs)
        other.insert(rng.randrange(1, len(other)), line)


def drop_event(rng, history, logs, end):
    log, at = some_event(rng, logs)
    if log and rng.random() < 0.7:
        del log[at]
    elif log:
        log.insert(at, log[at])


def drop_transaction(rng, history, logs, end):
    """All that is said of one transaction goes; or all of the events of a log from some place on."""
    log, at = some_event(rng, logs)
    if not log:
        return
    front = b" ".join(log[at].split(b" ")[1:3])
    for one in logs:
        one[1:-1] = [line for line in one[1:-1] if b" ".join(line.split(b" ")[1:3]) != front]


def change_number(rng, history, logs, end):
    """A serial, a value or a port of an event is another; the same in each line that has it, or here alone."""
    log, at = some_event(rng, logs)
    if not log:
        return
    words = log[at].split(b" ")
    place = rng.randrange(1, len(words))
    number = b"%d" % max(0, int(words[place]) + rng.choice([-1, 1, 1, 7, 1 << 24, 1 << 31]) if rng.random() < 0.95 else 4294967295)
    if place == 3 and rng.random() < 0.7:
        change_value(words, number, logs)
    else:
        words[place] = number
        log[at] = b" ".join(words) if int(number) < 1 << 32 else log[at]


def change_value(words, number, logs):
    """The value of a message in the lines of both its ends."""
    names = next(names for names in ((b"begin", b"call", b"take"), (b"give", b"end"), (b"more",), (b"ask", b"hear")) if words[0] in names)
    for log in logs:
        for at, line in enumerate(log[1:-1], 1):
            own = line.split(b" ")
            if own[0] in names and own[1:3] == words[1:3] and int(number) < 1 << 32:
                log[at] = b" ".join(own[:3] + [number])


def drop_line(rng, history, logs, end):
    at = some(rng, history)
    if rng.random() < 0.75:
        del history[at]
    else:
        history.insert(rng.randrange(len(history) + 1), history[at])


def swap_lines(rng, history, logs, end):
    """Two lines of the history, most often neighbours of one name, are exchanged."""
    pairs = [(at, at + 1) for at in range(len(history) - 1) if history[at].split(b" ")[0] == history[at + 1].split(b" ")[0]]
    pair = rng.choice(pairs) if pairs and rng.random() < 0.7 else (some(rng, history), some(rng, history))
    history[pair[0]], history[pair[1]] = history[pair[1]], history[pair[0]]


def move_line(rng, history, logs, end):
    line = history.pop(some(rng, history))
    history.insert(rng.randrange(len(history) + 1), line)


def tell_other(rng, history, logs, end):
    """What a look saw is another serial, or another port's; or what was open is drained and the other way."""
    told = [at for at, line in enumerate(history) if line.split(b" ")[0] in (b"drained", b"open")]
    if not told:
        return
    at = rng.choice(told)
    words = history[at].split(b" ")
    if rng.random() < 0.7:
        words[2] = b"%d" % max(0, int(words[2]) + rng.choice([-1, -1, 1, 1, 2]))
    elif rng.random() < 0.5:
        words[0] = b"open" if words[0] == b"drained" else b"drained"
        after = next((place for place in range(at, len(history)) if history[place].startswith(b"pending ")), None)
        if words[0] == b"open" and after is not None:
            history.insert(after + 1, b" ".join(words))
            del history[at]
            return
    else:
        words[1] = history[rng.choice(told)].split(b" ")[1]
    history[at] = b" ".join(words)


def behind(history, at, name):
    """The place behind the lines of a name that stand here."""
    while at < len(history) and history[at].startswith(name):
        at += 1
    return at


def told_in_changes(history):
    """The places of the `drained` lines of each change."""
    found = []
    for at, line in enumerate(history):
        if line.startswith(b"change "):
            first = behind(history, at + 1, b"close ")
            found.append(range(first, behind(history, first, b"drained ")))
    return found


def shuffle_told(rng, history, logs, end):
    """The looks of a change saw what they saw in another order."""
    changes = [places for places in told_in_changes(history) if len(places) > 1]
    if changes:
        places = rng.choice(changes)
        told = [history[place] for place in places]
        history[places.start : places.stop] = rng.sample(told, len(told)) if rng.random() < 0.6 else told[1:] + told[:1]


def change_count(rng, history, logs, end):
    counts = [at for at, line in enumerate(history) if line.split(b" ")[0] in (b"run", b"finish", b"pending")]
    if counts:
        at = rng.choice(counts)
        words = history[at].split(b" ")
        words[-1] = b"%d" % max(0, int(words[-1]) + rng.choice([-1, 1, 5, 1000]))
        history[at] = b" ".join(words)


def change_last(rng, history, logs, end):
    """The last line of a log, or of the report, is another."""
    pick = rng.random()
    if pick < 0.4 and logs:
        log = rng.choice(logs)
        words = log[-1].split(b" ")
        at = rng.randrange(len(words))
        log[-1] = b" ".join(words + [b"0"] if at == 0 else words[:at] + words[at + 1 :] if pick < 0.1 else words[:at] + [b"%d" % (int(words[at]) + 1)] + words[at + 1 :])
    elif pick < 0.6 and len(logs) > 1:
        one, other = rng.sample(logs, 2)
        one[-1], other[-1] = other[-1], one[-1]
    elif pick < 0.8:
        end[:-1] = rng.choice([[], [b"unfinished %d" % rng.randrange(len(logs) + 1)]])
    else:
        end[-1] = b"status %s" % rng.choice([b"0", b"7", b"8", b"10"])


EDITS = [shuffle_told, swap_events, move_event, drop_event, drop_transaction, change_number, drop_line, swap_lines, move_line, tell_other, change_count, change_last]
WEIGHTS = [8, 14, 6, 6, 8, 12, 6, 12, 5, 22, 3, 6]


def mend(history, logs):
    """Each log ends as it must, as far as each is what its node does: so that an edit shows in the order alone."""
    makes = [event_of(line) for line in history if line.startswith(b"make ")]
    states, first, heirs = {}, 0, {make[5]: make[1] for make in makes if make[5] is not None}
    for make, log in zip(makes, logs):
        node = Folded(make[3], int(make[4] or 0), states.get(make[5]), first)
        first += len(KINDS[make[3]][1])
        for event in map(event_of, log[1:-1]):
            if not node.may(event):
                return
            node.do(event)
        states[make[1]] = node.node.state
        if make[1] not in heirs:
            log[-1] = b" ".join([b"state"] + [b"%d" % number for number in node.node.numbers()])


def edited_script(rng, script):
    """A number of a script is another, or a line is left out: then the report may be one of another script."""
    lines = script.split(b"\n")
    at = rng.randrange(2, len(lines) - 1)
    words = lines[at].split(b" ")
    numbers = [place for place, word in enumerate(words) if word.isdigit()]
    if numbers and rng.random() < 0.8:
        place = rng.choice(numbers)
        words[place] = b"%d" % max(0, int(words[place]) + rng.choice([-1, 1, 3]))
        lines[at] = b" ".join(words)
    else:
        del lines[at]
    return b"\n".join(lines)


def edited_wait(rng, script, history):
    """A change may wait for as many rounds as its looks are, or for fewer; and the history says so where it was given up."""
    lines, changes = script.split(b"\n"), told_in_changes(history)
    said = [at for at, line in enumerate(lines) if line.startswith(b"change ")]
    if len(said) != len(changes) or not any(changes):
        return script
    number = rng.choice([number for number, places in enumerate(changes) if places])
    ports = [int(history[place].split(b" ")[1]) for place in changes[number]]
    looks = 1 + sum(after <= before for before, after in zip(ports, ports[1:]))
    wait = b"%d" % max(0, looks - rng.choice([1, 1, 2]))
    words = lines[said[number]].split(b" ")
    words[words.index(b"within") + 1] = wait
    lines[said[number]] = b" ".join(words)
    end = changes[number].stop
    history[end : end + 1] = [b"pending " + wait if line.startswith(b"pending ") else line for line in history[end : end + 1]]
    return b"\n".join(lines)


def case(rng):
    while True:
        text, script = evolving.script(rng, rng.choice([2, 3, 4, 5, 5, 6, 13]))
        statements = statements_in(text, script)
        if statements is None:
            continue
        try:
            history, logs, end = of_a_script(statements, rng)
        except (AssertionError, OverflowError, TypeError, IndexError, AttributeError):
            continue
        for _ in range(rng.choice([0, 1, 1, 1, 1, 2, 3])):
            rng.choices(EDITS, WEIGHTS)[0](rng, history, logs, end)
        if rng.random() < 0.6:
            mend(history, logs)
        if rng.random() < 0.12:
            script = edited_wait(rng, script, history)
        lines = in_version(rng.choice([1, 2, 2, 2]), [b"report 2"] + history + sum(logs, []) + end)
        return text, edited_script(rng, script) if rng.random() < 0.06 else script, b"".join(line + b"\n" for line in lines)
