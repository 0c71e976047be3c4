"""Pictures of reports: the overview of its changes, and each transaction."""
import os
import re
import shutil
import sys
import tempfile
import time
import xml.etree.ElementTree as elements

import tables
from tries import BYTES, EXAMPLES, REST, SKIPPED, TABLE, TOOLS, Came

SVG = "{http://www.w3.org/2000/svg}"


def drawn(tries, name, report):
    """A picture of a report, as the tree of its elements."""
    came = tries.tool(name, text=report)
    tries.same("%s, status and errors" % name, (0, ""), (came.status, came.errors))
    tries.want("%s, size" % name, len(came.text) < BYTES, len(came.text))
    return elements.fromstring(came.text)


def lanes_of(picture):
    """The paths of the lanes, by their places."""
    texts = [text for text in picture.findall(SVG + "text") if text.get("class") in (None, "small") and text.get("x") == "6"]
    return {float(text.get("y")) - (3 if text.get("class") else 4): text.text for text in texts}


def drawn_on(picture, kind):
    """The paths of the lanes on which shapes of a kind stand, in order: those of the paths of this class that aren't in the legend."""
    lanes = lanes_of(picture)
    paths = [path for path in picture.findall(SVG + "path") if path.get("class", "").split(" ")[0] == kind]
    places = [float(y) for path in paths for y in re.findall(r"M[-0-9.e]+ ([-0-9.e]+)", path.get("d"))]
    # a plus is two strokes
    found = sorted(lanes[min(lanes, key=lambda lane: abs(lane - y))] for y in places)
    return found[::2] if kind == "made" else found


class History:
    """What the lines of a report say of paths: told once more for the pictures, by change, with how many rounds each waited."""

    def __init__(self, report, rounds):
        self.paths, self.owners, self.changes = {}, [], []
        for words in (line.split(" ") for line in report.split("\nstop\n")[0].split("\n")):
            if words[0] in ("start", "change"):
                self.changes.append({"name": words[0], "made": [], "removed": [], "open": [], "state": [], "close": [], "drained": [], "lines": [], "end": None})
            elif words[0] == "make":
                self.paths[words[1]] = words[2]
                self.owners += [words[2]] * len(tables.KINDS[words[3].split("(")[0]][1])
                self.changes[-1]["made"].append(words[2])
                self.changes[-1]["state"] += [words[2]] * (len(words) > 4)
            elif words[0] == "remove":
                self.changes[-1]["removed"].append(self.paths[words[1]])
            elif words[0] in ("close", "open", "drained"):
                self.changes[-1][words[0]].append(self.owners[int(words[1])])
                self.changes[-1]["lines"].append((words[0], self.owners[int(words[1])]))
            elif words[0] in ("commit", "abandon", "skipped"):
                self.changes[-1]["end"] = words[0]
        self.changes = [change for change in self.changes if change["name"] == "change"]
        for change, waited in zip(self.changes, rounds):
            change["waited"] = waited

    def all(self, *names):
        return sorted(path for change in self.changes for name in names for path in change[name])

    def held(self, end, least=0):
        """The paths that each change held which ended so, and waited for so many rounds at least; that which was drained last stands last."""
        changes = [change for change in self.changes if change["end"] == end and change["drained"] and change["waited"] >= least]
        return [sorted(set(change["close"]), key=lambda path: path == change["drained"][-1]) for change in changes]

    def waits(self):
        """How many lines each path waited for in a committed change that waited: from its first close to its last drained."""
        found = []
        for change in self.changes:
            for path in sorted(set(change["close"])) if change["end"] == "commit" and change["waited"] else ():
                places = [number for number, line in enumerate(change["lines"]) if line[1] == path]
                found.append((path, places[-1] - places[0] + 1))
        return sorted(found)


def try_waits(tries, script, picture, history):
    """The bars of what was waited for are as long as that took."""
    lanes = lanes_of(picture)
    shapes = [re.findall(r"M[-0-9.e]+ ([-0-9.e]+)h([-0-9.e]+)v([-0-9.e]+)", path.get("d")) for path in picture.findall(SVG + "path") if path.get("class") == "waiting"]
    bars = sorted((lanes[min(lanes, key=lambda lane: abs(lane - float(y) - float(down) / 2))], float(across)) for y, across, down in sum(shapes, []))
    steps = {round(across / lines, 1) for (_, across), (_, lines) in zip(bars, history.waits())}
    tries.want("waits of %r" % script, [path for path, _ in bars] == [path for path, _ in history.waits()] and len(steps) <= 1, (bars, history.waits()))


# how many rounds each change waits that is drawn so, and what stands in its heading
DRAWN = [
    (TABLE, [(8, "Table(3,4,0): committed, waited 8 rounds")]),
    (SKIPPED, [(0, "Line(3): given up, waited 0 rounds"), (0, "Line(4): skipped")]),
    (REST, [(0, "Line(3): committed, waited for nothing")]),
    (EXAMPLES + "line-grows.txt", [(1, "Line(3): committed, waited 1 round")]),
    (EXAMPLES + "line-back.txt", [(1, "Line(3): committed, waited 1 round"), (2, "Line(2): committed, waited 2 rounds")]),
    (EXAMPLES + "line-waits.txt", [(0, "Line(3): given up, waited 0 rounds")]),
    (
        EXAMPLES + "fan-changes.txt",
        [
            *[(2, "Fan(3,5,2): committed, waited 2 rounds"), (0, "Fan(4,5,2): committed")],
            *[(5, "Fan(4,5,4): committed, waited 5 rounds"), (1, "Fan(4,9,4): given up, waited 1 round")],
        ],
    ),
]


def try_overview(tries):
    """The picture has a sign for each line of a change that it draws, bars of what was held and of what was waited for, a lane for each path,
    and headings that don't overlap."""
    for script, changes in DRAWN:
        report = tries.report(script)
        picture, history = drawn(tries, "report_overview", report), History(report, [waited for waited, _ in changes])
        for kind in ("made", "removed", "open", "state"):
            tries.same("%s of %r" % (kind, script), history.all(kind), drawn_on(picture, kind))
        try_waits(tries, script, picture, history)
        waited = history.held("commit", 1)
        bars = {"waiting": waited, "drained": [paths[:-1] for paths in waited], "closed": [], "held": history.held("commit"), "given-up": history.held("abandon")}
        for kind, paths in bars.items():
            tries.same("%s of %r" % (kind, script), sorted(sum(paths, [])), drawn_on(picture, kind))
        headings = [text.text[7:] for text in picture.findall(SVG + "text") if text.text.startswith("change ")]
        tries.same("how long changes of %r waited" % script, [heading for _, heading in changes], headings)
        tries.same("lanes of %r" % script, sorted(set(history.all("close", "made", "removed"))), sorted(lanes_of(picture).values()))
        try_headings(tries, script, picture, [line for line in report.split("\nstop\n")[0].split("\n") if re.match("(start|change|run|finish) ", line)])


def try_unknown(tries):
    """Where it can't be known how long a change waited, nothing is drawn or said of a wait: in an order that no rounds have, and without the
    plain statements."""
    report = tries.report(EXAMPLES + "line-grows.txt")
    other = report.replace("drained 0 1\ndrained 1 2\n", "drained 1 2\ndrained 0 1\n", 1)
    picture = drawn(tries, "report_overview", other)
    bars = {"waiting": [], "closed": ["b", "s"], "drained": ["s"], "held": ["b", "s"]}
    tries.same("bars of threads", bars, {kind: drawn_on(picture, kind) for kind in bars})
    headings = [text.text for text in picture.findall(SVG + "text") if text.text.startswith("change ")]
    tries.same("the heading of a change on threads", ["change Line(3): committed"], headings)
    with tempfile.TemporaryDirectory() as folder:
        shutil.copytree(TOOLS, os.path.join(folder, "tools"))
        shutil.copytree(os.path.join(os.path.dirname(TOOLS), "docs"), os.path.join(folder, "docs"))
        came = tries.run([sys.executable, os.path.join(folder, "tools", "report_overview")], report)
    tries.same("report_overview without the plain statements", (Came(0, "", ""), True), (came._replace(text=""), ">change Line(3): committed<" in came.text))


def try_headings(tries, script, picture, lines):
    headings = [text for text in picture.findall(SVG + "text") if re.match("(start|change|run|finish) ", text.text)]
    tries.same("number of headings of %r" % script, len(lines), len(headings))
    rows = {}
    for heading in headings:
        rows.setdefault(heading.get("y"), []).append((float(heading.get("x")), len(heading.text)))
    for row in rows.values():
        for (x, length), (behind, _) in zip(sorted(row), sorted(row)[1:]):
            tries.want("headings of %r don't overlap" % script, x + 6 * length <= behind, row)
    for tint, how in (("commit", "committed"), ("abandon", "given up"), ("skipped", "skipped")):
        tinted = [rect for rect in picture.findall(SVG + "rect") if rect.get("class") == tint]
        tries.same("%s of %r" % (tint, script), len([heading for heading in headings if re.search(": %s\\b" % how, heading.text)]), len(tinted))
    tries.want("%r is drawn within 1,000 pixels" % script, int(picture.get("width")) <= 1000, picture.get("width"))


def large_report(nodes):
    """A report of so many sources and sinks, of which a change replaces each source."""
    half = nodes // 2
    made = ["make %d s[%d] source(9)" % (slot, slot) for slot in range(half)] + ["make %d t[%d] sink()" % (half + slot, slot) for slot in range(half)]
    links = ["link %d %d 0" % (slot, half + slot) for slot in range(half)]
    each = [["close %d", "drained %d 0", "unlink %d", "remove %d"], range(half)]
    change = [form % slot for form in each[0] for slot in each[1]]
    change += ["make %d s[%d] source(8) from %d" % (nodes + slot, slot, slot) for slot in range(half)]
    change += ["link %d %d 0" % (half + slot, half + slot) for slot in range(half)] + ["reopen %d" % (half + slot) for slot in range(half)]
    logs = [line for slot in range(nodes + half) for line in ("log %d x" % slot, "moved %d" % (nodes + slot) if slot < half else "state 0")]
    starts = ["report 2", "start Many()", *made, *links, *["reopen %d" % slot for slot in range(half)], "commit", "change Many(1)"]
    return "\n".join([*starts, *change, "commit", "stop", *logs, "status 0"]) + "\n"


def try_large(tries):
    """A change of a thousand nodes is drawn in seconds, in less than a megabyte."""
    begun = time.monotonic()
    picture = drawn(tries, "report_overview", large_report(1000))
    tries.want("a large report is drawn in seconds", time.monotonic() - begun < 20, time.monotonic() - begun)
    tries.same("made in a large report", ["s[%d]" % slot for slot in range(500)], sorted(drawn_on(picture, "made"), key=lambda path: int(path[2:-1])))
    came = tries.tool("report_summary", text=large_report(1000))
    tries.has("the summary of a large report", came.text, ["  made with a state: s[0..499] source(8) from source(9)", "  held still: s[0..499].out (gates of 500 of 1000 nodes)"])


def try_report_to_svg(tries):
    """Each event is played, and what is given up can be told from what is committed."""
    for script in (TABLE, EXAMPLES + "line-grows.txt", EXAMPLES + "line-waits.txt", EXAMPLES + "fan-changes.txt"):
        report = tries.report(script)
        picture = drawn(tries, "report_to_svg", report)
        begun = re.findall(r"^(?:begin|call) ", report, re.M)
        lines = picture.findall(SVG + "polyline")
        tries.same("transactions of %r" % script, len(begun), len(lines))
        tries.same("events of %r" % script, len(re.findall(r"^(?:begin|call|take|more|ask|hear|give|end) ", report.split("\nstop\n")[1], re.M)), sum(len(line.get("points").split()) for line in lines))
        given_up = len(re.findall(r"^abandon$", report, re.M))
        tries.same("given up in %r" % script, given_up, len([rect for rect in picture.findall(SVG + "rect") if rect.get("class") == "given-up"]))
        for word, kind in (("commit", "good"), ("abandon", "bad")):
            marks = [text for text in picture.findall(SVG + "text") if text.text == word and text.get("class") == "mark " + kind]
            tries.same("%s in %r" % (word, script), len(re.findall(r"^%s$" % word, report, re.M)), len(marks))


TRIED = (try_overview, try_unknown, try_large, try_report_to_svg)
