"""Pages of plans, reports and sessions: that nothing in them is from outside, that their moments are a run of the machine, and which texts
are refused."""
import html.parser
import json
import os
import random
import re
import shutil
import sys

import answers
import evolving
import graphs
import machine
import runs
import scattered
from tries import EMPTY, EXAMPLES, TOOLS, Came

EVENTS = ("begin", "call", "take", "more", "ask", "hear", "give", "end", "miss")
# how many random scripts are made
RANDOM = 40

# a session as the program and a runtime have it, which is told behind `>`
SESSION = """start Line(2)
make 0 b buffer(2)
make 1 s source(3)
make 2 t sink()
link 0 2 0
link 1 0 0
reopen 0
reopen 1
commit
change Line(3)
close 0
close 1
wait 20
> closed 0
> busy 1
> closed 1
> round
> idle 1
drained 0 0
drained 1 1
ready
> go
unlink 0
unlink 1
remove 0
make 3 b buffer(3)
link 1 3 0
link 2 2 0
reopen 1
reopen 2
commit
"""
GIVEN_UP = SESSION[: SESSION.index("> round")] + "> stop\npending 20\nopen 1 1\nreopen 0\nreopen 1\nabandon\n"
HOSTILE = """report 2
start L()
make 0 </script><img/src=x/onerror=alert(1)> source(1)
make 1 a"b&c sink()
link 0 1 0
reopen 0
commit
stop
close 0
drained 0 0
log 0 x
state 0
log 1 y
state
status 0
"""
# a thousand nodes in lanes, and how many values each source sends: a hundred thousand events
LANES, VALUES = 250, 34
DESCRIPTION = b"""component source(int n) { require out; }
component map(int k) { provide in; require next; }
component buffer(int cap) { provide in; require next; }
component sink { provide in; }
component Lane(int n, int k) { inst s:source(n); m:map(k); b:buffer(2); t:sink; bind s.out -- m.in; m.next -- b.in; b.next -- t.in; }
component Lanes(int n, int values, int changed) { array l[n]:Lane(0, 1); forall i:0..n-1 inst l[i](values, 1 + (i < changed)); }
"""
SCRIPT = b"use big.dar\nstart Lanes(%d,%d,0)\nrun 3000\nchange to Lanes(%d,%d,5) within 1000\nfinish within 100000\nend\n" % (LANES, VALUES, LANES, VALUES)


class Pages:
    """Pages that are made once, by their names, as files in a folder."""

    def __init__(self, tries, folder):
        self.tries, self.folder, self.files, self.data = tries, folder, {}, {}

    def make(self, name, *words, text=None):
        """The page of a text, or of words of the tool."""
        file = os.path.join(self.folder, name + ".html")
        if text is not None:
            source = os.path.join(self.folder, name)
            with open(source, "w") as out:
                out.write(text)
            words = [source]
        came = self.tries.asking("page", "-o", file, *words)
        self.tries.same("page of %s" % name, Came(0, "", ""), came)
        with open(file, encoding="utf-8") as made:
            self.files[name], self.data[name] = file, data_of(made.read())
        return file


def data_of(page):
    return json.loads(re.search(r'<script type="application/json" id="data">(.*?)</script>', page, re.S)[1])


class Reader(html.parser.HTMLParser):
    """What a page names that is elsewhere, and its elements."""

    def __init__(self):
        super().__init__()
        self.names, self.elements = [], []

    def handle_starttag(self, tag, attributes):
        self.elements.append(tag)
        self.names += [value for name, value in attributes if name in ("src", "href", "action", "data")]


def try_made(tries, pages):
    """Pages of all that the program writes; nothing in them is from outside."""
    between = ["--between", EXAMPLES + "table.dar", "Table", "3", "1", "9", "--", "Table", "3", "1", "0"]
    parted = ["--parts", "--between", EXAMPLES + "fan.dar", "Fan", "2", "1", "2", "--", "Fan", "2", "5", "2"]
    fan = [EXAMPLES + "fan.dar", "Fan", "2", "1", "2"]
    pages.make("grows", text=tries.report(EXAMPLES + "line-grows.txt") + "seen 0 2 3 2\nseen 1 1 3 2\nseen 1 2 3 2\n")
    pages.make("loses", text=tries.report(EXAMPLES + "line-loses.txt"))
    pages.make("fan", text=tries.report(EXAMPLES + "fan-changes.txt"))
    pages.make("plan", *between)
    pages.make("parts", *parted)
    pages.make("bare", text=tries.run([tries.program, "plan", *fan, "--", "Fan", "2", "5", "2"]).text)
    rolled = tries.run([tries.program, "roll", fan[0], "8", "0", *fan[1:], "--", "Fan", "2", "5", "2"]).text
    pages.make("roll", text=tries.run([tries.program, "flat", *fan]).text + rolled)
    pages.make("session", text=SESSION + GIVEN_UP)
    pages.make("log", text=log_of(SESSION, GIVEN_UP))
    tries.same("a log has what its sessions have", {**pages.data["session"], "title": "log"}, pages.data["log"])
    pages.make("hostile", text=HOSTILE)
    pages.make("empty", text=EMPTY)
    pages.make("mixed", text="freeze p\nremove p\ncreate p.x source(1)\ncreate t sink()\nlink p.x.out t.in\n")
    pages.make("stuck", text=tries.report(EXAMPLES + "line-grows.txt").replace("give 2 1 1\n", "give 2 1 1\ngive 2 1 1\n"))
    big = {"big": SCRIPT, "big.dar": DESCRIPTION}
    pages.make("big", text=answers.step([b"step", b"big"], big)[1].decode())
    for name, file in pages.files.items():
        with open(file, encoding="utf-8") as made:
            text = made.read()
        reader = Reader()
        reader.feed(text)
        tries.same("the page of %s names nothing" % name, [], reader.names)
        tries.want("the page of %s has no address but a name of SVG" % name, set(re.findall(r"https?://[^\"' ]*", text)) <= {"http://www.w3.org/2000/svg"}, re.findall("https?://[^\"' ]*", text))
        tries.want("the page of %s forbids what is outside" % name, "default-src 'none'" in text)
        tries.want("the page of %s is small" % name, len(text) < 20 << 20, len(text))
        tries.same("the page of %s has no element of a text" % name, 0, reader.elements.count("img"))
    try_syntax(tries, pages)


def try_syntax(tries, pages):
    """The script of a page, which all pages have, is one; so it is known where there is no browser too, if there is a node."""
    node = shutil.which("node")
    if node is None:
        return
    with open(pages.files["grows"], encoding="utf-8") as made:
        script = re.search(r"<script>\n(.*?)</script>", made.read(), re.S)[1]
    file = os.path.join(pages.folder, "script.js")
    with open(file, "w", encoding="utf-8") as out:
        out.write(script)
    tries.same("the script of pages", Came(0, "", ""), tries.run([node, "--check", file]))


def log_of(*sessions):
    """A log of sessions, as the package `tareslater` keeps it."""
    head = "session 2026-12-01T04:30:00 darwin_run apply 20 line.dar Line 2 -- Line 3\n"
    lines = ["".join("%.3f %s\n" % (at * 1.5, line) for at, line in enumerate(session.splitlines())) for session in sessions]
    return "".join(head + text + "end 0\n" for text in lines)


def moments_of(data):
    """The moments with their words and numbers."""
    return [(data["verbs"][code], *numbers) for code, *numbers in zip(*data["moments"])]


def event_of(data, moment):
    """The event of the machine that a moment is, or None."""
    verb, *numbers = moment
    if verb == "make":
        node = data["nodes"][numbers[0]]
        kind, argument = node["shown"][:-1].split("(")
        source = None if node["source"] < 0 else node["source"]
        return "make", numbers[0], node["path"].encode(), kind, argument.encode(), source
    counts = {"remove": 1, "link": 3, "unlink": 1, "close": 1, "reopen": 1, "miss": 1}
    counts.update(dict.fromkeys(EVENTS[:-1], 3))
    return (verb, *numbers[: counts[verb]]) if verb in counts else None


def unlawful(data, is_asked=lambda event: True):
    """The moments that are no run of the machine of the plain statements: events that it denies where they stand, `drained` and `open` lines
    that tell what isn't there."""
    system, wrong = machine.Machine(graphs.EMPTY), []
    for number, moment in enumerate(moments_of(data)):
        event = event_of(data, moment)
        if event:
            rule = system.denial(event) if is_asked(event) else None
            wrong += [(number, moment, rule)] if rule is not None else []
            system.apply(event)
        elif moment[0] == "drained":
            port = system.ports[moment[1]]
            if port.is_open or port.serial != moment[2] or port.phase != "idle" and port.within is None:
                wrong.append((number, moment, "not drained"))
        elif moment[0] == "open":
            port = system.ports[moment[1]]
            if port.serial != moment[2] or port.phase == "idle":
                wrong.append((number, moment, "not open"))
    return wrong


def try_runs(tries, pages):
    """The moments of a report are a run of the machine, and each event has one."""
    for name in ("grows", "loses", "fan", "big"):
        data = pages.data[name]
        # in a thousand nodes the search for what reaches one takes too long
        is_asked = (lambda event: event[0] not in ("remove", "unlink", "link")) if name == "big" else (lambda event: True)
        tries.same("the moments of %s are a run" % name, [], unlawful(data, is_asked)[:3])
        with open(os.path.join(pages.folder, name)) as file:
            events = re.findall(r"^(?:%s) " % "|".join(EVENTS), file.read(), re.M)
        tries.same("each event of %s has its moment" % name, len(events), sum(moment[0] in EVENTS for moment in moments_of(data)))


class Counted(runs.System):
    """A system that counts the rounds which each change waits."""

    def __init__(self):
        super().__init__()
        self.waits = []

    def passivate(self, ports, within):
        self.waits.append(0)
        return super().passivate(ports, within)

    def round(self, begins):
        if not begins:
            self.waits[-1] += 1
        return super().round(begins)


def random_reports(number):
    """The report of random statements in rounds, with how many rounds each change waited, and one by turns in any order; where there is one."""
    files = dict(zip(("a.dar", "s.txt"), evolving.script(random.Random("page %d" % number))))
    try:
        statements = answers.script_of(b"s.txt", files)
        system = Counted()
        yield runs.report(statements, system)[1].decode(), system.waits
        yield scattered.report(statements, random.Random(number))[1].decode(), None
    except (answers.Refusal, scattered.Endless):
        return


def try_random(tries, pages):
    """Of random reports of rounds and of threads too the moments are a run in which each event has its place, and waits are told right."""
    sys.path.append(TOOLS)
    import beside
    import page_data
    import texts

    tried = 0
    for number in range(RANDOM):
        for text, waits in random_reports(number):
            report, tried = texts.read_report(texts.lines_of(text)), tried + 1
            data = page_data.of_report(report, "random").plain()
            tries.same("random report %d, its moments are a run" % number, ([], False), (unlawful(data)[:3], "fit nowhere" in data["note"]))
            if waits is not None:
                found = [rounds for rounds, _ in beside.waits(report, texts.sections(report))]
                changes = text.split("\nstop\n")[0].count("\nchange ") - text.count("\nskipped\n")
                tries.same("random report %d, its waits" % number, waits[:changes], found[:changes])
    tries.want("some random reports were tried", tried > RANDOM // 2, tried)


def try_sections(tries, pages):
    """What is told of parts and changes."""
    rows = [
        ("grows", ["start Line(2)", "run 2 2", "change Line(3)", "finish 100 8", "stop"]),
        ("plan", ["before", "the plan"]),
        ("roll", ["before", "part 1", "part 2"]),
        ("session", ["start Line(2)", "change Line(3)", "start Line(2)", "change Line(3)"]),
    ]
    for name, words in rows:
        tries.same("the sections of %s" % name, words, [section["words"] for section in pages.data[name]["sections"]])
    tries.want("what fits nowhere is told", "fit nowhere" in pages.data["stuck"]["note"] and "fit nowhere" not in pages.data["grows"]["note"], pages.data["stuck"]["note"])
    waited = [section.get("waited") for section in pages.data["fan"]["sections"] if section["name"] == "change"]
    tries.same("the waits of fan", [2, 0, 5, 1], waited)
    tries.same("observers of grows", [[0, 2, 3, 2], [1, 1, 3, 2], [1, 2, 3, 2]], pages.data["grows"]["seen"])
    tries.same("what is lost", [0], [slot for slot, node in enumerate(pages.data["loses"]["nodes"]) if node.get("lost")])
    events = sum(moment[0] in EVENTS for moment in moments_of(pages.data["big"]))
    tries.want("there are a thousand nodes and a hundred thousand events", len(pages.data["big"]["nodes"]) > 1000 and events > 100000, events)


def try_refused(tries, pages):
    """Texts of which no page is made, and words that aren't understood."""
    rows = [
        ("", "the text is empty; a plan, a report or a session is wanted"),
        ("hello\n", "line 1 is none of a plan, report or session: hello"),
        ("description x.dar: NoTop L\n", "no plan, report or session came, but a refusal: description x.dar: NoTop L"),
        ("report 2\nstart L()\n", "the report ends behind line 2, before its status"),
        ("start L()\nmake 0 s source(1)\nclose 4\n", "line 3 is none of a session: close 4"),
        ("start L()\nmake 1 s source(1)\n", "line 2 is none of a session: make 1 s source(1)"),
        ("start L()\n> idle 0\n", "line 2 is none of a session: > idle 0"),
        ("start L()\nstatus 0\n", "line 2 is none of a session: status 0"),
        ("start L()\nrun 1 1\n", "line 2 is none of a session: run 1 1"),
        ("# nothing\n", "the session has no line but comments"),
        ("# a start is wanted\n\ncommit\n", "line 3 is none of a session: commit"),
        ("session x\n1.000 start L()\nhello\nend 0\n", "line 3 is none of a log: hello"),
        ("session x\n1.000 start L()\n2.000 close 4\nend 0\n", "line 3 is none of a session: close 4"),
        ("session x\nend 1\n", "the session has no line but comments"),
        ("report 2\ncommit\nstatus 0\n", "line 2 stands before a start"),
        ("freeze a\nunlink b\nfrob c\n", "line 3 is none of a plan: frob c"),
        ("part 1\nfreeze a\npart 2\nfrob\n", "line 4 is none of a plan: frob"),
        ("node s source(1)\nport s.out -\nfreeze t\n", "the plan names t, which isn't in the graph"),
        ("node s source(1)\nport s.out -\nunlink s.in\n", "the plan names s.in, which has no such port"),
        ("part 1\nfreeze a\npending 0\n", "line 3 is none of a plan: pending 0"),
        ("part 1\nfreeze a\ndone\nnode s source(1)\nport s.in -\n", "line 5 is none of a graph: port s.in -"),
    ]
    for text, error in rows:
        tries.same("page of %r" % text, Came(2, "", "page: %s\n" % error), tries.asking("page", text=text))
    tries.same("page of no file", Came(2, "", "page: nowhere.txt can't be read: No such file or directory\n"), tries.asking("page", "nowhere.txt"))
    came = tries.asking("page", "-o", "/nowhere/x.html", text=SESSION)
    tries.same("page into no folder", Came(2, "", "page: /nowhere/x.html can't be written: No such file or directory\n"), came)
    came = tries.asking("page", "--parts", text=SESSION)
    tries.same("--parts of a text", Came(2, "", "page: a text or --between is wanted, and --parts with --between alone\n"), came)


TRIED = (try_made, try_runs, try_random, try_sections, try_refused)
