"""Graphs and plans: their pictures, the moves that are suggested, and what is mostly a mistake."""
import os
import shutil
import tempfile

from program import HERE
from tries import EXAMPLES, LINE, Came

ODD = """component source(int n) { require out; }
component map(int k) { provide in; require next; }
component buffer(int cap) { provide in; require next; }
component sink { provide in; }
component Inner { array u[2]:sink; v[2]:sink; inst v[0]; }
component Odd {
  array m[2]:map(1); spare[3]:buffer(1); // inst spare[0];
  inst m[0 or 0]; s:source(1); a:buffer(1); b:buffer(1); lone:buffer(2); x:map(1); i:Inner; free:source(1);
  bind s.out -- a.in; a.next -- m[0].in; m[0].next -- b.in; b.next -- a.in; lone.next -- x.in;
}
"""
MOVES = LINE + """component Old { inst s:source(3); b:buffer(2); c:buffer(1); t:sink; bind s.out -- b.in; b.next -- c.in; c.next -- t.in; }
component Near { inst s:source(3); b:buffer(3); d:buffer(1); t:sink; bind s.out -- b.in; b.next -- d.in; d.next -- t.in; }
component Far { inst s:source(3); b:buffer(3); d:buffer(1); e:buffer(1); t:sink; bind s.out -- b.in; b.next -- d.in; d.next -- e.in; e.next -- t.in; }
component Other { inst s:source(3); b:sink; bind s.out -- b.in; }
component Less { inst s:source(3); b:buffer(2); t:sink; bind s.out -- b.in; b.next -- t.in; }
"""


def try_dot(tries, what, text):
    """Graphviz draws it, where it is to be found."""
    if shutil.which("dot"):
        came = tries.run(["dot", "-Tsvg"], text)
        tries.want("dot draws %s" % what, came.status == 0 and came.errors == "" and "</svg>" in came.text, came)


def try_graph_to_dot(tries):
    graph = tries.run([tries.program, "flat", EXAMPLES + "table.dar", "Table", "2", "1", "0"]).text
    came = tries.tool("graph_to_dot", text=graph)
    tries.same("graph_to_dot, status and errors", (0, ""), (came.status, came.errors))
    tries.has("a graph", came.text, ['  "ph[0]" -> "pl[0]";', '  "pl[0]" -> "f[1]" [taillabel="right"];', '  "pl[0]" -> "pl[0].left" [style=dashed, taillabel="left"];', '  "pl[0].left" [shape=point];'])
    try_dot(tries, "a graph", came.text)
    frames = tries.tool("graph_to_dot", text=tries.run([tries.program, "flat", EXAMPLES + "fan.dar", "Fan", "2", "1", "1"]).text)
    tries.has("a graph with frames", frames.text, ['  subgraph "cluster_l[1]" {', '    label="l[1]";', '    "l[1].b" [label="b\\nbuffer(1)"];'])
    try_dot(tries, "a graph with frames", frames.text)


def try_plan_to_dot(tries):
    came = tries.asking("plan_to_dot", EXAMPLES + "table.dar", "Table", "3", "1", "9", "--", "Table", "3", "1", "0")
    tries.same("plan_to_dot, status and errors", (0, ""), (came.status, came.errors))
    lines = [
        '  "f[0]" [label="f[0]\\nfork()", style="filled,dashed", fillcolor="#f4b6b6"];',
        '  "ph[2]" [label="ph[2]\\nphilosopher(1)", style=filled, fillcolor="#f9dfa5"];',
        '  "ph[1]" [label="ph[1]\\nphilosopher(1)"];',
        '  "pl[0]" -> "f[0]" [taillabel="left", color="#c00000", style=dashed];',
        '  "pl[0]" -> "f[1]" [taillabel="right", color="#555555"];',
    ]
    tries.has("a plan that removes", came.text, lines)
    try_dot(tries, "a plan that removes", came.text)
    came = tries.asking("plan_to_dot", EXAMPLES + "line.dar", "Line", "2", "--", "Line", "3")
    lines = [
        '  "+b" [label="b\\nbuffer(3)", style=filled, fillcolor="#b9e3b9"];',
        '  "s" -> "b" [color="#c00000", style=dashed];',
        '  "s" -> "+b" [color="#008000", penwidth=2];',
        '  "+b" -> "t" [color="#008000", penwidth=2];',
    ]
    tries.has("a plan that creates", came.text, lines)
    try_dot(tries, "a plan that creates", came.text)


def try_parts_to_dot(tries):
    """A picture for each part, on the graph that those before it left."""
    came = tries.asking("plan_to_dot", "--parts", EXAMPLES + "fan.dar", "Fan", "2", "1", "2", "--", "Fan", "2", "5", "2")
    tries.same("plan_to_dot --parts, status and errors", (0, ""), (came.status, came.errors))
    pictures = came.text.split("digraph {")[1:]
    tries.same("a picture for each part", 2, len(pictures))
    rows = [
        ('  "s[0]" -> "l[0].m" [color="#c00000", style=dashed];', '  "s[0]" -> "+l[0].m" [color="#008000", penwidth=2];', '  "s[1]" -> "l[1].m" [color="#555555"];'),
        ('  "s[1]" -> "l[1].m" [color="#c00000", style=dashed];', '  "s[1]" -> "+l[1].m" [color="#008000", penwidth=2];', '  "s[0]" -> "l[0].m" [color="#555555"];'),
    ]
    for number, lines in enumerate(rows):
        tries.has("the picture of part %d" % (number + 1), pictures[number] if number < len(pictures) else "", lines)
    tries.want("part 2 stands on part 1", 'label="m\\nmap(5)"];' in pictures[-1] and 'label="m\\nmap(5)"];' not in pictures[0], came.text)
    came = tries.asking("plan_to_dot", "--parts", EXAMPLES + "line.dar", "Line", "2", "--", "Line", "2")
    tries.same("no picture of no parts", Came(0, "", ""), came)
    try_dot(tries, "two pictures", "digraph {" + pictures[0])


def try_suggest_moves(tries):
    with tempfile.TemporaryDirectory() as folder:
        file = os.path.join(folder, "moves.dar")
        with open(file, "w") as written:
            written.write(MOVES)
        rows = [
            ([EXAMPLES + "line.dar", "Line", "2", "--", "Line", "3"], "moving b -> b\n", ""),
            ([EXAMPLES + "line.dar", "Line", "2", "--", "Line", "2"], "", ""),
            ([file, "Old", "--", "Near"], "moving b -> b, c -> d\n", "warning: c -> d: is this the same buffer with a new path?\n"),
            ([file, "Old", "--", "Far"], "moving b -> b\n", "warning: c buffer(1) is removed, and what it keeps goes nowhere, unless one of these takes it over: d, e\n"),
            (
                [file, "Old", "--", "Other"],
                "moving t -> b\n",
                "warning: t -> b: is this the same sink with a new path?\nwarning: b buffer(2) is removed, and what it keeps goes nowhere\n"
                "warning: c buffer(1) is removed, and what it keeps goes nowhere\n",
            ),
            ([file, "Old", "--", "Less"], "", "warning: c buffer(1) is removed, and what it keeps goes nowhere\n"),
            ([EXAMPLES + "pipe.dar", "Main", "2", "--", "Main", "1"], "", ""),
            ([file, "Old", "--", EXAMPLES + "line.dar", "Line", "2"], "", "warning: c buffer(1) is removed, and what it keeps goes nowhere\n"),
            ([EXAMPLES + "line.dar", "Line", "2", "--", file, "Near"], "moving b -> b\n", ""),
            ([EXAMPLES + "line.dar", "Line", "2", "--", EXAMPLES + "line.dar", "Line", "3"], "moving b -> b\n", ""),
        ]
        for words, clause, warnings in rows:
            tries.same("suggest_moves %s" % words, Came(0, clause, warnings), tries.asking("suggest_moves", *words))
        # texts of graphs in the place of components
        graph = os.path.join(folder, "now.graph")
        with open(graph, "w") as out:
            out.write(tries.run([tries.program, "flat", EXAMPLES + "line.dar", "Line", "2"]).text)
        for words in ([graph, "--", EXAMPLES + "line.dar", "Line", "3"], [EXAMPLES + "line.dar", "Line", "3", "--", graph]):
            tries.same("suggest_moves %s" % words, Came(0, "moving b -> b\n", ""), tries.asking("suggest_moves", *words))
        tries.same("suggest_moves of one graph", Came(0, "", ""), tries.asking("suggest_moves", graph, "--", graph))
        came = tries.asking("suggest_moves", file, "--", graph)
        tries.same("suggest_moves of no graph", Came(2, "", "suggest_moves: %s: line 1 is none of a graph: component source(int n) { require out; }\n" % file), came)
        between_files(tries, file, graph)
    # the program takes the clause, and then nothing is lost
    clause = tries.asking("suggest_moves", EXAMPLES + "fan.dar", "Fan", "4", "1", "2", "--", "Fan", "4", "1", "3").text.strip()
    script = "use examples/fan.dar\nstart Fan(4,1,2)\nrun 30\nchange to Fan(4,1,3) within 99 %s\nend\n"
    summaries = [tries.tool("report_summary", text=tries.report(script % words)).text for words in ("", clause)]
    tries.same("states that go nowhere, without the clause and with it", [True, False], ["NOWHERE" in summary for summary in summaries])


def between_files(tries, file, graph):
    """A plan between two files, or from a graph's text, is the one that the program makes of components of one file."""
    with open(file) as text, open(os.path.join(os.path.dirname(HERE), "examples", "line.dar")) as other:
        both = text.read() + "component Line" + other.read().split("component Line")[1]
    with tempfile.NamedTemporaryFile("w", suffix=".dar") as one:
        one.write(both)
        one.flush()
        wanted = tries.asking("plan_to_dot", one.name, "Line", "2", "--", "Near")
        tries.same("a plan of one file", 0, wanted.status)
        tries.same("a plan between two files", wanted, tries.asking("plan_to_dot", EXAMPLES + "line.dar", "Line", "2", "--", file, "Near"))
        tries.same("a plan from a graph's text", wanted, tries.asking("plan_to_dot", graph, "--", file, "Near"))
        parts = tries.asking("plan_to_dot", "--parts", one.name, "Line", "2", "--", "Near")
        tries.same("parts between two files", parts, tries.asking("plan_to_dot", "--parts", EXAMPLES + "line.dar", "Line", "2", "--", file, "Near"))


def try_lint(tries):
    with tempfile.TemporaryDirectory() as folder:
        with open(os.path.join(folder, "odd.dar"), "w") as file:
            file.write(ODD)
        wanted = [
            "free.out: it is bound to nothing, and its node waits for ever",
            "x.next: it is bound to nothing, and each call of it counts as answered with 0",
            "i.v[0].in: nobody uses it",
            "lone.in: nobody uses it",
            "a: its values come back to it, and never rest",
            "b: its values come back to it, and never rest",
            "array spare of Odd: no element of it is made",
            "array u of Inner: no element of it is made",
        ]
        came = tries.asking("lint", "odd.dar", "Odd", folder=folder)
        tries.same("lint of what is odd", (1, "", sorted(wanted)), (came.status, came.errors, sorted(came.text.split("\n")[:-1])))
        with open(os.path.join(folder, "odd.dar"), "w") as file:
            file.write(LINE + "component L { inst b:buffer(1); }\n")
        came = tries.asking("lint", "odd.dar", "L", folder=folder)
        tries.same("lint of a buffer", Came(1, "b.next: this buffer leads nowhere, and keeps what it is given\nb.in: nobody uses it\n", ""), came)
    for words in (["kinds.dar", "All"], ["line.dar", "Line", "2"], ["table.dar", "Table", "3", "1", "9"], ["fan.dar", "Fan", "2", "1", "1"], ["pipe.dar", "Main", "2"]):
        tries.same("lint of %s" % words, Came(0, "", ""), tries.asking("lint", EXAMPLES + words[0], *words[1:]))
    came = tries.asking("lint", EXAMPLES + "line.dar", "None")
    tries.same("lint of what is refused", (2, ""), (came.status, came.text))


TRIED = (try_graph_to_dot, try_plan_to_dot, try_parts_to_dot, try_suggest_moves, try_lint)
