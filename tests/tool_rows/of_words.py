"""What the tools take from the documents, their words, and texts that are none."""
import os
import re
import subprocess
import sys
import tempfile

import kinds
import tables
from program import TOP
from tries import EXAMPLES, TOOLS, Came


def try_pages(tries):
    """The kinds that the tools take from docs/kinds.md are those of the plain statements, and each refusal and rule has its words."""
    sys.path.insert(0, TOOLS)
    import pages

    found = pages.kinds()
    tries.same("names of kinds", list(tables.KINDS), list(found))
    for name, (provides, requires, has_argument) in tables.KINDS.items():
        wanted = provides, requires, sorted(tables.DEPENDS.get(name, ())), has_argument, name not in kinds.STATELESS
        kind = found[name]
        tries.same("kind " + name, wanted, (kind.provides, kind.requires, sorted(kind.calls), kind.has_argument, kind.keeps))
    tries.same("numbers of rules", list(range(1, 31)), list(pages.rules()))
    named = {name for refusal in pages.refusals() for name in refusal.names}
    with open(os.path.join(TOP, "docs", "refusals.md")) as file:
        text = file.read()
    explained = set(re.findall(r"\*\*`([A-Z][A-Za-z]+)[ `]", text)) | {"usage", "denied", "read fault", "no memory", "unlawful"}
    tries.same("names of refusals", sorted(explained), sorted(named))
    words = {refusal.names[0]: refusal.text for refusal in pages.refusals() if refusal.section != "Reports"}
    tries.same("words of two names", "NoStart, NoEnd: no line of a script is a start, or no line of a file of events says anything. The last line of a script isn't end.", words["NoStart"])
    tries.same("words of one name", "no component has the name that was asked for.", words["NoTop"])


def try_bad_texts(tries):
    graph = "node s source(3)\nport s.out t.in\nnode t sink()\n"
    report = tries.report(EXAMPLES + "line-grows.txt").split("\n")
    refused = "description x.dar: NoTop L\n"
    rows = [
        ("graph_to_dot", "", 0, ""),
        ("graph_to_dot", graph + "node u nothing(1)\n", 2, "line 4 is none of a graph: node u nothing(1)"),
        ("graph_to_dot", graph.replace("s.out t", "s.in t"), 2, "line 2 is none of a graph: port s.in t.in"),
        ("graph_to_dot", graph.replace("t.in", "x.in"), 2, "s.out is linked to x.in, which isn't in the graph"),
        ("graph_to_dot", refused, 2, "no graph came, but a refusal: description x.dar: NoTop L"),
    ]
    for name in ("report_summary", "report_overview", "report_to_svg"):
        changed = list(report)
        changed[12] = "close 9"
        rows += [
            (name, "", 2, "the text is empty, and no report"),
            (name, "\x1b" * 70 + "\n", 2, "line 1 is none of a report: %s .." % ("\\x1b" * 60)),
            (name, refused, 2, "no report came, but a refusal: description x.dar: NoTop L"),
            (name, "\n".join(report[:20]) + "\n", 2, "the report ends behind line 20, before its status"),
            (name, "\n".join(changed), 2, "line 13 is none of a report: close 9"),
            (name, "\n".join(report) + "status 0\n", 2, "line %d is none of a report: status 0" % len(report)),
            (name, "\n".join(report) + "seen 0 1 2\n", 2, "line %d is none of a report: seen 0 1 2" % len(report)),
        ]
    for name, text, status, error in rows:
        came = tries.tool(name, text=text)
        tries.same("%s, status of %r" % (name, text[-40:]), status, came.status)
        tries.same("%s, error of %r" % (name, text[-40:]), "%s: %s\n" % (name, error) if error else "", came.errors)


def try_help(tries):
    for name in sorted(name for name in os.listdir(TOOLS) if os.access(os.path.join(TOOLS, name), os.X_OK) and os.path.isfile(os.path.join(TOOLS, name))):
        came = tries.tool(name, "--help")
        tries.want("%s --help" % name, came.status == 0 and came.text.startswith("usage: %s" % name) and came.errors == "", came)


def try_bad_words(tries):
    line = EXAMPLES + "line.dar"
    for name in ("plan_to_dot", "suggest_moves"):
        rows = [
            ([line, "Line", "2"], "%s: between the two systems, each a component with its arguments behind a file, one `--` is wanted\n" % name),
            (["--program", "./no-program", line, "Line", "2", "--", "Line", "3"], "%s: the program ./no-program can't be run: No such file or directory\n" % name),
            ([line, "Line", "2", "--", "None"], "%s: %s plan %s Line 2 -- None ends with status 2: description %s: NoTop None\n" % (name, tries.program, line, line)),
            ([line, "Line", "2", "--", "examples/l.dar", "None"], "%s: %s plan %s Line 2 -- examples/l.dar None ends with status 2: description examples/l.dar: NoTop None\n" % (name, tries.program, line)),
        ]
        for words, error in rows:
            tries.same("%s %s" % (name, words), Came(2, "", error), tries.asking(name, *words))
    tries.same("lint without a component", Came(2, "", "lint: behind the file a component is wanted\n"), tries.asking("lint", line))
    tries.same("explain without a program", 2, tries.tool("explain", "--program", "./no-program", "flat").status)


def try_finding(tries):
    """Without --program a tool takes the program that the shell finds."""
    with tempfile.TemporaryDirectory() as folder:
        path = os.path.join(folder, "darwin_run")
        with open(path, "w") as file:
            file.write("#!/bin/sh\necho \"script $*: Order 7\"\nexit 3\n")
        os.chmod(path, 0o755)
        found = dict(os.environ, PATH=folder + os.pathsep + os.environ["PATH"])
        for name, words in (("lint", ["a.dar", "A"]), ("explain", ["flat", "a.dar", "A"]), ("least_wait", ["a.txt"]), ("suggest_moves", ["a.dar", "A", "--", "A"])):
            done = subprocess.run([sys.executable, os.path.join(TOOLS, name), *words], env=found, stdout=subprocess.PIPE, stderr=subprocess.PIPE, universal_newlines=True)
            tries.want("%s finds the program" % name, "Order 7" in done.stderr and done.stdout == "", done)


TRIED = (try_pages, try_help, try_bad_texts, try_bad_words, try_finding)
