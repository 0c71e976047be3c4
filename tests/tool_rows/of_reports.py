"""Tools that say in words what a report tells."""
import os
import random
import tempfile

import answers
import judged
from of_pictures import drawn
from tries import EMPTY, EXAMPLES, LINE, REST, SKIPPED, TABLE, Came


def try_summary(tries):
    rows = [
        (EXAMPLES + "line-grows.txt", ["change Line(3): committed, 3 nodes", "  made with a state: b buffer(3) from buffer(2)", "  t sink(), slot 2: 1 2 3", "status 0: no change was given up"], ["NOWHERE", "went nowhere"]),
        (EXAMPLES + "line-loses.txt", ["  ITS STATE WENT NOWHERE: b buffer(2), slot 0: 2", "  t sink(), slot 2: 1 3", "the state of 1 node went nowhere"], ["with a state"]),
        (EXAMPLES + "line-waits.txt", ["change Line(3): GIVEN UP, 3 nodes", "  waited for 0 rounds", "  still open: s.out, transaction 2 with b buffer(2)", "status 7: a change was given up"], ["removed", "made", "drained last"]),
        (REST, ["change Line(3): committed, 3 nodes", "  waited for nothing: all was found drained at once"], ["drained last", "waited for 0"]),
        (
            EXAMPLES + "fan-changes.txt",
            [
                "  held still: l[0..2].m.next, s[0..2].out (gates of 6 of 10 nodes)",
                "  made: l[3].b buffer(2), l[3].m map(5), s[3] source(10)",
                "  made with a state: l[0..3].b buffer(4) from buffer(2)",
                "  waited for 2 rounds",
                "  drained last: s[1].out, once its transaction 2 had ended",
                "  waited for 1 round",
                "  s[3] source(10), slot 15: 10",
            ],
            ["NOWHERE"],
        ),
        (TABLE, ["change Table(3,4,0): committed, 8 nodes", "  held still: ph[0,2].dine, pl[0,2].left, pl[0,2].right (gates of 4 of 9 nodes)", "  removed: f[0] fork()"], ["NOWHERE"]),
        (
            SKIPPED,
            [
                "change Line(4): SKIPPED, since a change before it was given up, 3 nodes",
                "finish 2: 2 rounds",
                "status 7: a change was given up, and b buffer(2), slot 0 isn't done",
            ],
            ["made"],
        ),
    ]
    for script, lines, absent in rows:
        came = tries.tool("report_summary", text=tries.report(script))
        tries.same("report_summary of %r" % script, (0, ""), (came.status, came.errors))
        tries.has("the summary of %r" % script, came.text, lines)
        for word in absent:
            tries.want("the summary of %r is without %r" % (script, word), word not in came.text, came.text)


def try_values_of_nothing(tries):
    """A buffer's value of 0 is lost with it; a balance of 0 is nothing to lose."""
    text = LINE + "component philosopher(int meals) { require dine; }\ncomponent account(int b) { provide post; }\n"
    text += "component L(int n) { inst p:philosopher(2); b:buffer(n); when n == 4 inst a:account(0); bind p.dine -- b.in; }\n"
    with tempfile.NamedTemporaryFile("w", suffix=".dar") as file:
        file.write(text)
        file.flush()
        came = tries.tool("report_summary", text=tries.report("use %s\nstart L(4)\nrun 2\nchange to L(5) within 9\nend\n" % file.name))
    lines = [line for line in came.text.split("\n") if "removed" in line or "NOWHERE" in line]
    tries.same("what of 0 is lost", ["  removed: a account(0), b buffer(4)", "  ITS STATE WENT NOWHERE: b buffer(4), slot 1: 0 0"], lines)


def try_empty(tries):
    """A report without nodes, and so without logs, is one."""
    came = tries.tool("report_summary", text=EMPTY)
    lines = ["start None(): committed, 0 nodes", "change None(1): committed, 0 nodes", "finish 9: 0 rounds", "at the end:", "status 0: no change was given up"]
    tries.same("the summary of no nodes", Came(0, "\n".join(lines) + "\n", ""), came)
    for name in ("report_overview", "report_to_svg"):
        drawn(tries, name, EMPTY)


# what is changed in the report of WAITS, and what is named
WAITS = EXAMPLES + "line-waits.txt"
NAMED = [
    ("status 7", "status 0", "57: status 0|  `status 7` has to stand here"),
    ("open 1 2\n", "", "17: reopen 0|  an `open` line has to stand here"),
    ("pending 0", "pending 1", "16: pending 1|  `pending 0` has to stand here"),
    ("take 0 2 2", "take 0 2 3", "56: state 1 2 3|  `state 1 3 3` has to stand here"),
    ("begin 0 2 2", "begin 0 2 3", "34: begin 0 2 3|  a buffer doesn't do this where it stands"),
    ("give 1 2 1", "give 1 3 1", "33: give 1 3 1|  rule 15 asks that the serial is the port's; but port 1, s.out, has serial 2"),
    (
        "drained 0 1",
        "drained 0 2",
        "these wait for one another:"
        "|15: drained 0 2|  it isn't drained; port 0, b.next, is closed at serial 2, and an answer is there"
        "|35: take 1 3 3|  rule 10 asks that the port is asked; but port 1, s.out, is closed at serial 2, and nothing is under way there"
        "|46: begin 1 3 3|  rule 2 asks that the gate is open; but port 1, s.out, is closed at serial 2, and nothing is under way there",
    ),
    ("open 1 2", "open 1 3", None),
]
RANDOM_REPORTS = 60


def try_explain_report(tries):
    """The line that is named of a report with one change; and whether one is named of random reports, beside the search for their order."""
    with tempfile.TemporaryDirectory() as folder:
        report = os.path.join(folder, "r.txt")
        for old, new, wanted in NAMED:
            with open(report, "w") as file:
                file.write(tries.report(WAITS).replace(old, new, 1))
            came = tries.tool("explain_report", WAITS, report)
            told = came.text.replace(report + ":", "").rstrip("\n").replace("\n", "|")
            tries.same("explain_report of %r" % new, (0, "", "the report can be one of the script") if wanted is None else (1, "", wanted), (came.status, came.errors, told))
        seen = "seen 0 1 3 2\n"
        for lines, wanted in ((seen, None), ("seen 0 1 3 1\n", "58: seen 0 1 3 1|  the graph behind no commit of this number is so large"), ("seen 0 0 0 0\n", "58: seen 0 0 0 0|  observer 0 doesn't see ever more commits, and all of them at last: [0]")):
            with open(report, "w") as file:
                file.write(tries.report(WAITS) + lines)
            came = tries.tool("explain_report", WAITS, report)
            told = came.text.replace(report + ":", "").rstrip("\n").replace("\n", "|")
            tries.same("explain_report of %r" % lines, (0, "", "the report can be one of the script") if wanted is None else (1, "", wanted), (came.status, came.errors, told))
        came = tries.tool("explain_report", WAITS, WAITS)
        tries.same("explain_report of no report", Came(2, "", "explain_report: script %s: BadLine 1\n" % WAITS), came)
        judged_reports(tries, folder)


def judged_reports(tries, folder):
    """Random reports, some of which no script writes: a line is named of those for which no order is found, and of no others."""
    named = 0
    for number in range(RANDOM_REPORTS):
        made = dict(zip(("a.dar", "s.txt", "r.txt"), judged.case(random.Random("report %d" % number))))
        for name, text in made.items():
            with open(os.path.join(folder, name), "wb") as file:
                file.write(text)
        wanted = {status for status, _ in answers.may_come([b"check", b"s.txt", b"r.txt"], made)[0]}
        came = tries.tool("explain_report", "s.txt", "r.txt", folder=folder)
        status = {0: 0, 1: 10}.get(came.status, came.status)
        tries.want("explain_report of report %d" % number, status in wanted or came.status == 2 and wanted & {2, 3}, (wanted, came))
        named += came.status == 1
    tries.want("some random reports can't be", 10 < named < RANDOM_REPORTS - 10, named)


def try_threads(tries):
    """What observers saw stands at its commit; how long a change of threads waited isn't known, and isn't told."""
    seen = "seen 0 2 3 2\nseen 1 1 3 2\nseen 1 2 3 2\n"
    report = tries.report(EXAMPLES + "line-grows.txt")
    came = tries.tool("report_summary", text=report + seen)
    tries.has("the summary of observers", came.text, ["  seen by observer 1: 3 nodes, 2 links", "  seen by observers 0..1: 3 nodes, 2 links", "  waited for 1 round"])
    # another order of the same turns, which no rounds have
    other = report.replace("drained 0 1\ndrained 1 2\n", "drained 1 2\ndrained 0 1\n", 1)
    came = tries.tool("report_summary", text=other)
    tries.has("the summary of threads", came.text, ["  drained last: b.next, at serial 1"])
    tries.want("the summary of threads tells of no wait", "waited" not in came.text, came.text)
    for name in ("report_overview", "report_to_svg"):
        tries.same("%s of observers" % name, tries.tool(name, text=report), tries.tool(name, text=report + seen))
    with tempfile.NamedTemporaryFile("w") as file:
        file.write(report)
        file.flush()
        tries.same("report_summary of a file", tries.tool("report_summary", text=report), tries.tool("report_summary", file.name))


TRIED = (try_summary, try_values_of_nothing, try_empty, try_threads, try_explain_report)
