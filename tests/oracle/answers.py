"""What the program may answer to a command line and files, told by the plain statements of the language, the plans, the machine, the files and the reports here.

Where several faults of a description hold, any of them may be named; all else has one answer."""
import functools
import os
import random
from typing import NamedTuple, Optional

import consistent
import graphs
import machine
import parts
import plans
import reports
import runs
import scattered
import scripts
import sessions
import threads
import watched
from language import GREATEST, LEAST, Description

LIMIT = 1 << 20
CONSISTENT, UNLAWFUL = (0, b"consistent\n"), (10, b"unlawful\n")
MOST_WORKERS = 8
MOST_OBSERVERS = 4
# how many cuts a search for the list of a report of threads may come to
MOST_CUTS = 20000
LATER = {"OutOfRange", "ZeroDivisor", "BadIndex", "TwoInstances", "BoundTwice", "BadBinding", "Annotation", "TooDeep", "TooMany"}


class Refusal(Exception):
    """The answers that may come, as a set of (status, text), and whether any other fault of an elaboration may be named in their place."""

    def __init__(self, status, lines, is_open=False):
        self.answers, self.is_open = {(status, line + b"\n") for line in lines}, is_open


class Undecided(Refusal):
    """Either answer of `check` may come: the plain statements would take too long to decide."""

    def __init__(self):
        super().__init__(10, [])
        self.answers = {CONSISTENT, UNLAWFUL}


@functools.lru_cache(maxsize=4)
def described(text):
    """The description of a text, of which the last few are kept."""
    return Description(text)


def fetched(files, name, status, prefix, limit=LIMIT):
    """The bytes of a file that keeps the limit; where it doesn't, the refusal has this status and begins so."""
    text = files.get(os.fsdecode(name).removeprefix("./"))
    if text is None:
        raise Refusal(4, [b"read fault " + name])
    if len(text) > limit:
        raise Refusal(status, [prefix + b" " + name + b": TooLong"])
    return text


def graph(text, file, top, args):
    """The graph of a component of a description, or its faults."""
    found, faults, is_open = described(text).answers(top, args)
    if found is None:
        raise Refusal(2, [b"description " + file + b": " + fault.encode() for fault in faults], is_open)
    return found


def room(file, made, wanted):
    """Refuses a plan for which there is no room beside what was made."""
    fault = plans.room_fault(made, wanted)
    if fault:
        raise Refusal(2, [b"description " + file + b": " + fault])


def planned(file, old, new, made):
    """The plan between two graphs, where so many nodes and ports were made before."""
    plan = plans.Plan(old, new)
    room(file, made, plan.count_made())
    return plan


def usage(holds):
    """Refuses words of no form."""
    if not holds:
        raise Refusal(1, [b"usage"])


def called(words):
    """A component's name with its arguments."""
    usage(words and scripts.is_name(words[0]) and all(scripts.is_integer(word) for word in words[1:]))
    args = [scripts.integer(word) for word in words[1:]]
    usage(all(LEAST <= arg <= GREATEST for arg in args))
    return words[0].decode(), args


def flat(words, files):
    """`flat FILE NAME INT*`"""
    usage(len(words) >= 3 and words[1])
    top, args = called(words[2:])
    text = fetched(files, words[1], 2, b"description")
    return graphs.graph_text(graph(text, words[1], top, args))


class Side(NamedTuple):
    """A component with its arguments, in a file, or in that of the other side where none is named."""

    file: Optional[bytes]
    call: tuple


def is_file(word):
    """Whether a word of the second side is a file: no name of a component has such a sign."""
    return b"." in word or b"/" in word


def side(words):
    """A file and a component of it."""
    usage(words and words[0])
    return Side(words[0], called(words[1:]))


def sides(words):
    """The two sides that `--` parts, which stands behind the first file. In the second a component of the first file may stand."""
    usage(b"--" in words[1:])
    cut = words.index(b"--", 1)
    first, behind = side(words[:cut]), words[cut + 1 :]
    usage(behind)
    return first, side(behind) if is_file(behind[0]) else Side(None, called(behind))


def change_of(files, old, new):
    """The graphs of two sides, and the plan from the one to the other. A file that both share is fetched once."""
    text = fetched(files, old.file, 2, b"description")
    first = graph(text, old.file, *old.call)
    planned(old.file, graphs.EMPTY, first, (0, 0))
    file = new.file or old.file
    second = graph(fetched(files, file, 2, b"description") if new.file else text, file, *new.call)
    return first, second, planned(file, first, second, graphs.count_made(first))


def plan(words, files):
    """`plan FILE NAME INT* -- [FILE] NAME INT*`"""
    return change_of(files, *sides(words[1:]))[2].text()


def parts_of(words, files):
    """`parts FILE NAME INT* -- [FILE] NAME INT*`"""
    first, second, _ = change_of(files, *sides(words[1:]))
    return parts.parts_text(first, second)


def roll(words, files):
    """`roll FILE NUM NUM NAME INT* -- [FILE] NAME INT*`"""
    usage(len(words) >= 4 and all(scripts.is_number(word) for word in words[2:4]))
    count, within = (scripts.integer(word) for word in words[2:4])
    usage(max(count, within) <= scripts.NUMBER_LIMIT)
    first, second, _ = change_of(files, *sides(words[1:2] + words[4:]))
    last, pending = runs.rolled(first, count, within, parts.parts(first, second))
    end = b"done\n" if pending is None else b"pending %d\n" % pending
    return 0 if pending is None else 7, parts.parts_text(first, second) + end + graphs.graph_text(last)


def session_of(words, files):
    """The session that words of `apply` begin, or their refusal."""
    usage(len(words) >= 2 and scripts.is_number(words[1]))
    within = scripts.integer(words[1])
    usage(within <= scripts.NUMBER_LIMIT)
    old, new = sides(words[2:])
    first, second, plan = change_of(files, old, new)
    return sessions.Session(within, (call_text(*old.call), first), (call_text(*new.call), second), plan)


def apply(words, files):
    """`apply N FILE NAME INT* -- [FILE] NAME INT*`, where nothing comes"""
    return sessions.written(session_of(words, files), b"")


def replay(words, files):
    """`replay FILE EVENTS`"""
    usage(len(words) == 3 and words[1] and words[2])
    begun, events, fault = scripts.parse(fetched(files, words[2], 3, b"script"))
    if fault:
        raise Refusal(3, [b"script " + words[2] + b": " + fault.encode()])
    text = fetched(files, words[1], 2, b"description")
    found = graph(text, words[1], *begun)
    planned(words[1], graphs.EMPTY, found, (0, 0))
    status, answer = machine.replayed(machine.Machine(found), events)
    if status:
        raise Refusal(status, [answer[:-1]])
    return answer


def call_text(name, args):
    return name.encode() + b"(" + b",".join(b"%d" % arg for arg in args) + b")"


def used(files, name):
    """The text of a description that a script uses, without a fault of its tokens, its grammar or its names."""
    text = fetched(files, name, 2, b"description")
    faults = described(text).faults
    if faults:
        raise Refusal(2, [b"description " + name + b": " + fault.encode() for fault in faults])
    return text


def statements_of(said, files):
    """The statements of a script with their graphs and plans."""
    made, count, last, text, file = [], (0, 0), graphs.EMPTY, None, None
    for statement in said:
        name = statement[0]
        if name == "use":
            file, text = statement[1], used(files, statement[1])
        elif name == "start":
            last = graph(text, file, statement[1], statement[2])
            count = graphs.count_made(last)
            room(file, (0, 0), count)
            made.append(("start", call_text(*statement[1:3]), last))
        elif name == "change":
            _, top, args, within, moves = statement
            new = graph(text, file, top, args)
            fault = plans.move_fault(last, new, moves)
            if fault:
                raise Refusal(2, [b"description " + file + b": " + fault])
            plan = plans.Plan(last, new, moves)
            wanted = plan.count_made()
            room(file, count, wanted)
            count = count[0] + wanted[0], count[1] + wanted[1]
            made.append(("change", call_text(top, args), plan, new, within))
            last = new
        else:
            made.append(statement)
    return made


def script_of(file, files):
    """The statements of a script's file, with their graphs and plans."""
    said, fault = scripts.parse_script(fetched(files, file, 3, b"script"))
    if fault:
        raise Refusal(3, [b"script " + file + b": " + fault.encode()])
    return statements_of(said, files)


def step(words, files):
    """`step SCRIPT`"""
    usage(len(words) == 2 and words[1])
    return runs.report(script_of(words[1], files))


def counted(words, option, most):
    """The number behind an option, from 1 to the most."""
    usage(words[0] == option and scripts.is_number(words[1]) and 1 <= scripts.integer(words[1]) <= most)
    return scripts.integer(words[1])


def live_of(words, files):
    """The statements of `live SCRIPT`, with so many workers or without a word of them, and how many observers there are."""
    usage(len(words) in (2, 4, 6) and words[1])
    if len(words) > 2:
        counted(words[2:4], b"--workers", MOST_WORKERS)
    observers = counted(words[4:], b"--watch", MOST_OBSERVERS) if len(words) > 4 else 0
    return script_of(words[1], files), observers


def live(words, files):
    """`live SCRIPT [--workers W [--watch N]]`, by turns in any order: one of the reports that may come"""
    statements, observers = live_of(words, files)
    status, text = scattered.report(statements, random.Random())
    return status, text + watched.text(reports.parse(text)[0][1], observers, random)


def unlike_threads(statements, came, longest=None, observers=0):
    """Why a run on threads can't end so with these statements and so many observers, or None; and whether that was decided. Of a report of
    more bytes than `longest` the form alone is asked, and what stands behind it."""
    if came.fault():
        return came.fault(), True
    text, lines = watched.parted(came.text) if observers else (came.text, [])
    report, fault = reports.parse(text) if came.status in (0, 7, 8) else (None, "no status of a report")
    if fault or report[3][-1] != b"status %d" % came.status:
        return "a report of threads was wanted, %s; came status %s, %r" % (fault or "which has its own status", came.status, came.text[:80]), True
    why = watched.why_not(report[1], lines, observers)
    if why or longest is not None and len(text) > longest:
        return why, bool(why)
    try:
        return threads.why_not(statements, report, MOST_CUTS), True
    except consistent.Undecided:
        return None, False


LANES = b"""component source(int n) { require out; }
component map(int k) { provide in; require next; }
component buffer(int cap) { provide in; require next; }
component sink { provide in; }
component Lanes(int n, int k) {
  array s[n]:source(20); m[n]:map(k); b[n]:buffer(2); w[n]:map(3); t[n]:sink;
  forall i:0..n-1 {
    inst s[i]; m[i]; b[i]; w[i]; t[i];
    bind s[i].out -- m[i].in; m[i].next -- b[i].in; b[i].next -- w[i].in; w[i].next -- t[i].in;
  }
}
"""


def big(words, files):
    """`big N`, from the lines of a report"""
    usage(len(words) == 2 and words[1].isdigit() and 1 <= int(words[1]) <= 40)
    lanes = int(words[1])
    changes = b"run %d\nchange to Lanes(%d,2) within 100000\n" % (20 * lanes, lanes)
    script = b"use big.dar\nstart Lanes(%d,1)\n" % lanes + changes + b"finish within 100000\nend\n"
    status, text = step([b"step", b"big"], {"big": script, "big.dar": LANES})
    sinks, items, nodes, commits, slot = set(), 0, 0, 0, None
    for line in (line.split() for line in text.splitlines()):
        nodes += line[0] == b"make"
        commits += line[0] == b"commit"
        if line[0] == b"make" and line[3] == b"sink()":
            sinks.add(line[1])
        elif line[0] == b"log":
            slot = line[1]
        elif line[0] == b"state" and slot in sinks:
            items += len(line) - 1
    return status, b"big %d\nnodes %d\ncommits %d\nitems %d\nstatus %d\n" % (lanes, nodes, commits, items, status)


def report_of(file, files):
    """What a report says."""
    report, fault = reports.parse(fetched(files, file, 3, b"script", reports.LIMIT))
    if fault:
        raise Refusal(3, [b"script " + file + b": " + fault.encode()])
    return report


def upgrade(words, files):
    """`upgrade FILE`"""
    usage(len(words) == 2 and words[1])
    return reports.in_version_2(report_of(words[1], files))


def check(words, files):
    """`check SCRIPT REPORT`"""
    usage(len(words) == 3 and words[1] and words[2])
    said = script_of(words[1], files)
    try:
        is_one = consistent.is_consistent(said, report_of(words[2], files))
    except consistent.Undecided:
        raise Undecided()
    return CONSISTENT if is_one else UNLAWFUL


COMMANDS = {b"flat": flat, b"plan": plan, b"parts": parts_of, b"roll": roll, b"apply": apply, b"replay": replay, b"step": step, b"live": live, b"big": big, b"upgrade": upgrade, b"check": check}


# the form of each command
FORMS = {word: ("darwin_run %s\n" % command.__doc__.split("`")[1]).encode() for word, command in COMMANDS.items()}
HELP_FORM = b"darwin_run --help\n"


def hint(words):
    """The form that is nearest to words of no form: of the command whose word has most in common with the first of them."""
    first = words[0] if words and all(map(is_text, words)) else b""
    common = {word: len(os.path.commonprefix([first, word])) for word in FORMS}
    best = max(common.values())
    return FORMS[next(word for word in FORMS if common[word] == best)] if best else HELP_FORM


def helped(words):
    """The forms that words ask for, or None where they ask for no help."""
    if words in ([b"--help"], [b"-h"], [b"help"]):
        return [HELP_FORM, *FORMS.values()]
    return [FORMS[words[0]]] if words[1:] == [b"--help"] and words[0] in FORMS else None


def is_text(word):
    try:
        word.decode()
    except UnicodeDecodeError:
        return False
    return True


def may_come(words, files):
    """What the program may answer to words and files, as (status, text), and whether any other fault of an elaboration may be named in its place.
    Of the reports that `live` may write it is one."""
    try:
        usage(words and all(map(is_text, words)) and words[0] in COMMANDS)
        answer = COMMANDS[words[0]](words, files)
        return {answer if isinstance(answer, tuple) else (0, answer)}, False
    except Refusal as refusal:
        return refusal.answers, refusal.is_open


def judged(words, files, came):
    """Why this isn't how a run may end, or None; and whether that was decided."""
    words = [os.fsencode(word) for word in words]
    if words == [b"--version"]:
        return came.unlike((0, came.text)), True
    forms = helped(words)
    if forms:
        lines = (came.text or b"").splitlines(keepends=True)
        return came.unlike((0, came.text)) or (None if sorted(line for line in lines if line in forms) == sorted(forms) else "wanted %r; came %r" % (forms, lines)), True
    if came.status == 1 and came.errors != hint(words):
        return "noted %r; the nearest form is %r" % (came.errors, hint(words)), True
    if words[:1] == [b"live"] and all(map(is_text, words)):
        try:
            statements, observers = live_of(words, files)
            return unlike_threads(statements, came, None, observers)
        except Refusal as refusal:
            wanted, is_open = refusal.answers, refusal.is_open
    else:
        wanted, is_open = may_come(words, files)
    named = came.text.rsplit(b": ", 1)[-1].split()
    if is_open and not came.fault() and came.status == 2 and named and named[0].decode(errors="replace") in LATER:
        return None, True
    return came.unlike(*sorted(wanted)), wanted != Undecided().answers


def wrong(words, files, came):
    """Why this isn't how a run may end, or None."""
    return judged(words, files, came)[0]
