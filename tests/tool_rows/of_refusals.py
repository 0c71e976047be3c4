"""What is said of refusals, and where their causes stand."""
import os
import re
import tempfile

from program import TOP, blocks
from tries import EXAMPLES, LINE, TOOLS

STATUS = {"usage": 1, "description": 2, "script": 3, "read": 4, "denied": 9, "unlawful": 10}


def try_explain(tries):
    """Each example of docs/refusals.md: its text and status are passed on, and the place that it names has a caret."""
    with open(os.path.join(TOP, "docs", "refusals.md")) as file:
        examples = blocks(file.read())
    with tempfile.TemporaryDirectory() as folder:
        for number, lines in examples:
            at = next(place for place, line in enumerate(lines) if line.startswith("$ "))
            for name, text in files_of(lines[:at]).items():
                with open(os.path.join(folder, name), "w") as file:
                    file.write(text)
            shown = lines[at + 1]
            shell = 'darwin_run() { "%s" --program "%s" "$@"; }; %s' % (os.path.join(TOOLS, "explain"), tries.program, lines[at][2:])
            came = tries.run(["bash", "-c", shell], folder=folder)
            status = STATUS[shown.split()[0]]
            tries.same("explain, line %d: status and text" % number, (status, shown), (came.status, (came.text if status in (9, 10) else came.errors).split("\n")[0]))
            tries.want("explain, line %d: a refusal is no answer" % number, (came.text == "") == (status not in (9, 10)), came)
            tries.want("explain, line %d: more than the line" % number, len(came.errors) > 20 and "Traceback" not in came.errors, came.errors)
            spot = re.search(r" (\d+):(\d+)$", shown)
            if spot:
                text = files_of(lines[:at])["bad.dar"].split("\n")[int(spot[1]) - 1]
                wanted = ["bad.dar:%s:%s" % spot.groups(), "  " + text, "  " + " " * (int(spot[2]) - 1) + "^"]
                told = came.errors.split("\n")
                tries.want("explain, line %d: the place" % number, any(told[at : at + 3] == wanted for at in range(len(told))), came.errors)


def files_of(lines):
    """The files that an example shows, by their names."""
    files, name = {}, None
    for line in lines:
        if re.fullmatch(r"[a-z]+\.(?:dar|txt)", line):
            name, files[line] = line, ""
        else:
            files[name] += line + "\n"
    return files


def try_places(tries):
    """Where the cause of a refusal without a place stands: behind which text a line is shown, and which name has the caret."""
    line = LINE + "component Line(int n) { inst s:source(3); b:buffer(n); t:sink; bind s.out -- b.in; b.next -- t.in; }\n"
    script = "use bad.dar\n# grows\nstart Line(2)\nchange to Line(%d) within 9 moving %s\nend\n"
    rows = [
        (line.replace("t:sink;", "t:sunk;"), None, ["flat", "bad.dar", "Line", "1"], "bad.dar:4:58", "sunk;"),
        (line.replace("-- t.in", "-- t.out"), None, ["flat", "bad.dar", "Line", "1"], "bad.dar:4:71", "out"),
        (line.replace("buffer(n)", "buffer"), None, ["flat", "bad.dar", "Line", "1"], "bad.dar:4:43", "b:buffer"),
        (line.replace("{ inst s", "{ inst s:source(1); s"), None, ["flat", "bad.dar", "Line", "1"], "bad.dar:4:30", "s:source(1)"),
        (line.replace("-- t.in;", "-- t.in; /* s.out */ s.out -- t.in;"), None, ["flat", "bad.dar", "Line", "1"], None, "s.out -- t.in;"),
        (line, None, ["flat", "bad.dar", "Line"], "bad.dar:4:11", "Line(int n)"),
        (line, None, ["flat", "bad.dar", "sink"], "bad.dar:3:11", "sink {"),
        (line.replace("sink { provide in", "sink { provide on"), None, ["flat", "bad.dar", "Line", "1"], "bad.dar:3:11", "sink {"),
        (line, script % (2, "b -> b"), ["step", "bad.txt"], "bad.txt:4:35", "b -> b"),
        (line, script % (3, "b -> c[0]"), ["step", "bad.txt"], "bad.txt:4:40", "c[0]"),
        (line, script % (3, "b -> b") + "run 1\n", ["step", "bad.txt"], "bad.txt:6", None),
        (line, "start Line(2)\n# twice\nbegin 1 1 1\n\nbegin 1 2 2\n", ["replay", "bad.dar", "bad.txt"], "bad.txt:5", None),
    ]
    with tempfile.TemporaryDirectory() as folder:
        for description, events, words, place, behind in rows:
            for name, text in (("bad.dar", description), ("bad.txt", events or "")):
                with open(os.path.join(folder, name), "w") as file:
                    file.write(text)
            came = tries.asking("explain", *words, folder=folder)
            lines = came.errors.split("\n")
            what = "explain %s of %r" % (words, came.text)
            tries.want(what + ", place", place is None or place in lines, came.errors)
            caret = next((number for number, shown in enumerate(lines) if shown.strip() == "^"), None)
            tries.want(what + ", caret", behind is None and caret is None or caret is not None and behind and lines[caret - 1][lines[caret].index("^") :].startswith(behind), came.errors)
        forms = [
            ("step", "start L(1\nend\n", "its form: start C [(INT, INT ..)]"),
            ("step", "change to L moving a -> a\nend\n", "its form: change to C [(INT, INT ..)] within NUM [moving PATH -> PATH, PATH -> PATH ..]"),
            ("step", "stop\nend\n", "a line begins with one of: use, start, run, change, finish, show, end"),
            ("replay", "start L\n", "its form: start C(INT, INT ..)"),
            ("replay", "start L()\nmake 0 a\n", "its form: make SLOT PATH KIND() or make SLOT PATH KIND(NUM)"),
        ]
        for command, text, form in forms:
            with open(os.path.join(folder, "bad.txt"), "w") as file:
                file.write(text)
            came = tries.asking("explain", command, *["bad.dar"] * (command == "replay"), "bad.txt", folder=folder)
            tries.has("explain of %r" % text, came.errors, [form])
        came = tries.asking("explain", "flat", "/dev/stdin", "L", text="component L { inst", folder=folder)
        tries.same("explain of standard input", (2, "", "description /dev/stdin: Expected 1:19"), (came.status, came.text, came.errors.split("\n")[0]))
        came = tries.asking("explain", "flat", EXAMPLES + "l.dar", "L")
        tries.same("explain of no refusal", tries.run([tries.program, "flat", EXAMPLES + "l.dar", "L"]), came)


def try_statements(tries):
    """Where a description is refused for a statement of a script, the statement's line is shown, with a caret below its component."""
    script = "use examples/line.dar\n\nstart Line(2)\nrun 3\n# first\nchange to Line(3) within 5 moving b -> b\nchange to %s within 5\nrun 4\nchange to Line(2) within 5\nfinish within 9\nend\n"
    rows = [
        ("Line(3, 4)", "TopArgs 1 2", 7, "Line(3, 4)"),
        ("None", "NoTop None", 7, "None"),
        ("sink", "TopIsKind sink", 7, "sink"),
        ("Line(-3)", "OutOfRange . 7:21", 7, "Line(-3)"),
        ("Line(4) within 5 moving c -> b", "NotRemoved c", 7, "c -> b"),
        ("Line(3) within 5 moving b -> b", "NotRemoved b", 7, "b -> b"),
    ]
    for call, fault, number, behind in rows:
        with tempfile.NamedTemporaryFile("w", suffix=".txt") as file:
            # a moving clause stands behind `within`
            text = script % call if "within" not in call else (script % call).replace(" within 5\nrun 4", "\nrun 4")
            file.write(text)
            file.flush()
            came = tries.asking("explain", "step", file.name)
            told = came.errors.split("\n")
            tries.want("explain of %s names its fault" % call, (came.status, came.text) == (2, "") and told[0].endswith(": " + fault), came)
            at = next((at for at, line in enumerate(told) if line.startswith("%s:%d:" % (file.name, number))), None)
            tries.want("explain of %s names its line" % call, at is not None and told[at + 1][told[at + 2].index("^") :].startswith(behind), came.errors)


DENIED = """component source(int n) { require out; }
component map(int k) { provide in; require next; }
component sink { provide in; }
component asker(int n) { require sum; }
component adder { provide sum; }
component D { inst a:adder; m:map(1); q:asker(1); s:source(3); t:sink; u:map(2); w:source(1); bind q.sum -- a.sum; s.out -- m.in; m.next -- t.in; }
"""
# ports: 0 m.next, 1 q.sum, 2 s.out, 3 u.next, 4 w.out; slots: 0 a, 1 m, 2 q, 3 s, 4 t, 5 u, 6 w
CAUSES = [
    ("begin 9 1 1", 1, "there is no port 9"),
    ("close 2\nbegin 2 1 1", 2, "port 2, s.out, is closed at serial 0, and nothing is under way there"),
    ("begin 4 1 1", 3, "port 4, w.out, is linked to nothing"),
    ("begin 2 1 1\nbegin 2 2 1", 4, "port 2, s.out, is open at serial 1, and a request is under way there"),
    ("begin 2 2 1", 5, "port 2, s.out, has serial 0"),
    ("begin 2 1 16777216", 6, "the value is 16777216"),
    ("call 0 1 1", 7, "m services nothing"),
    ("begin 2 1 1\ntake 2 1 1\ncall 0 1 2\ntake 0 1 2\ngive 0 1 1\nend 0 1 1\ncall 0 2 1", 8, "m, of kind map, made 1 in this service"),
    ("begin 2 1 1\ntake 2 1 1\nmiss 0", 9, "port 0, m.next, is linked to t"),
    ("take 2 1 1", 10, "port 2, s.out, is open at serial 0, and nothing is under way there"),
    ("begin 2 1 1\ntake 2 1 1\ntake 2 1 1", 11, "m services port 2, s.out"),
    ("begin 2 1 1\ntake 2 1 2", 13, "port 2, s.out, has serial 1 and value 1"),
    ("begin 2 1 1\ngive 2 1 1", 14, "m services nothing"),
    ("begin 2 1 1\ntake 2 1 1\ncall 0 1 2\ngive 2 1 1", 16, "port 0, m.next, is called in this service, and hasn't ended"),
    ("begin 2 1 1\nend 2 1 1", 17, "port 2, s.out, is open at serial 1, and a request is under way there"),
    ("make 3 x sink()", 18, "7 nodes and 5 ports were made"),
    ("make 7 t sink()", 19, "slot 4 has this path"),
    ("link 2 1 0", 20, "port 2, s.out, is linked to m"),
    ("link 4 4 3", 21, "t has no provision 3"),
    ("close 2\nunlink 0", 22, "m isn't settled: port 0, m.next, is open"),
    ("begin 2 1 1\nclose 2\nclose 0\nunlink 2", 22, "s isn't settled: at port 2, s.out, a request is under way"),
    ("close 3\nlink 3 5 0", 23, "u would lead back to itself by way of u"),
    ("remove 9", 24, "no node was made in slot 9"),
    ("close 4\nremove 6\nremove 6", 24, "w, slot 6, was removed"),
    ("close 2\nclose 0\nremove 1", 25, "port 0, m.next, is linked to t"),
    ("make 7 x map(1) from 5", 26, "u, slot 5, wasn't removed"),
    ("close 4\nremove 6\nmake 7 x map(1) from 6", 26, "w, slot 6, is a source, and no map"),
    ("ask 1 1 1", 27, "port 1, q.sum, is open at serial 0, and nothing is under way there"),
    ("begin 1 1 1\ntake 1 1 1\nmore 1 1 1\nask 1 1 1\nhear 1 1 1\nmore 1 1 1", 28, "a, of kind adder, made 1 in this service"),
    ("begin 1 1 1\ntake 1 1 1\nmore 1 1 1\nask 1 1 1\ngive 1 1 1", 29, "a hasn't heard the last message"),
    ("begin 1 1 1\ntake 1 1 1\nhear 1 1 1", 30, "a has heard the last message"),
]


def try_causes(tries):
    """Of a denied event the cause is named, and not its rule alone."""
    with tempfile.TemporaryDirectory() as folder:
        with open(os.path.join(folder, "d.dar"), "w") as file:
            file.write(DENIED)
        for events, rule, cause in CAUSES:
            with open(os.path.join(folder, "e.txt"), "w") as file:
                file.write("start D()\n%s\n" % events)
            came = tries.asking("explain", "replay", "d.dar", "e.txt", folder=folder)
            wanted = "denied %d %d\n" % (events.count("\n") + 1, rule)
            tries.same("explain of %r, text" % events, (9, wanted), (came.status, came.text))
            told = came.errors.split("\n")
            tries.want("explain of %r, cause" % events, told[0].startswith("rule %d asks that " % rule) and told[0].endswith("; but " + cause), came.errors)
            tries.same("explain of %r, line" % events, "  " + events.split("\n")[-1], told[2])


TRIED = (try_explain, try_places, try_statements, try_causes)
