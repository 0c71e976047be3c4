"""Tools about scripts: the least a change has to wait, a change as a script of parts, a shell; and a run that may never end."""
import os
import re
import tempfile

from program import HERE
from tries import EXAMPLES, LINE, Came

LEAST = [
    ("line-grows.txt", ["line 5: change to Line(3) within 1"]),
    ("line-waits.txt", ["line 5: change to Line(3) within 1, and 0 is too few"]),
    ("line-back.txt", ["line 5: change to Line(3) within 1", "line 7: change to Line(2) within 2"]),
    ("fan-changes.txt", ["line 5: change to Fan(3, 5, 2) within 2", "line 7: change to Fan(4, 5, 2) within 0", "line 9: change to Fan(4, 5, 4) within 5", "line 11: change to Fan(4, 9, 4) within 2, and 1 is too few"]),
]


def try_least_wait(tries):
    """The numbers are those from which on the program commits, and those that the summary finds by making the rounds once more."""
    for name, lines in LEAST:
        tries.same("least_wait of %s" % name, Came(0, "\n".join(lines) + "\n", ""), tries.asking("least_wait", EXAMPLES + name))
    with open(os.path.join(os.path.dirname(HERE), "examples", "fan-changes.txt")) as file:
        text = file.read()
    for changes, short in ((["2", "0", "5", "2"], None), (["1", "0", "5", "2"], 0), (["2", "0", "4", "2"], 2), (["2", "0", "5", "1"], 3)):
        numbers = iter(changes)
        report = tries.report(re.sub(r"within [0-9]+(?= moving|\n(?!end))", lambda _: "within " + next(numbers), text))
        ends = re.findall(r"^(commit|abandon|skipped)$", report.split("\nstop\n")[0], re.M)[1:]
        wanted = ["commit" if short is None or number < short else "abandon" if number == short else "skipped" for number in range(4)]
        tries.same("changes within %s" % changes, wanted, ends)
        if short is None:
            waited = re.findall(r"  waited for (\d+) round", tries.tool("report_summary", text=report).text)
            tries.same("the summary's waits", ["2", "5", "2"], waited)
    came = tries.asking("least_wait", EXAMPLES + "l-events.txt")
    tries.same("least_wait of no script", Came(2, "", "least_wait: script examples/l-events.txt: Order 2\n"), came)
    with tempfile.NamedTemporaryFile("w", suffix=".txt") as file:
        file.write("use examples/line.dar\nstart Line(2)\nrun 2\nchange to Line(3)within 0\nend\n")
        file.flush()
        tries.same("least_wait without blanks", Came(0, "line 4: change to Line(3) within 1, and 0 is too few\n", ""), tries.asking("least_wait", file.name))


STAGES = [
    (["fan.dar", "Fan", "2", "1", "2", "--", "Fan", "2", "5", "2"], 2, 0),
    (["fan.dar", "Fan", "2", "1", "2", "--", "Fan", "3", "5", "4"], 3, 2),
    (["table.dar", "Table", "3", "1", "9", "--", "Table", "3", "2", "0"], 4, 3),
    (["turn.dar", "Turn", "1", "--", "Turn", "0"], 2, 0),
    (["pipe.dar", "Main", "1", "--", "Main", "3"], 1, 0),
    (["bank.dar", "Bank", "5", "--", "Bank", "7"], 1, 1),
]


def try_stages(tries):
    """What is written leads from the one graph to the other by as many changes as `parts` has, with each state that can be kept."""
    examples = os.path.join(os.path.dirname(HERE), "examples")
    for words, count, moves in STAGES:
        words = [os.path.join(examples, words[0]), *words[1:]]
        cut = words.index("--")
        with tempfile.TemporaryDirectory() as folder:
            came = tries.asking("stages", "--name", "made", "--run", "2", "--within", "500", *words, folder=folder)
            tries.same("stages %s" % words[1:], (0, ""), (came.status, came.text))
            with open(os.path.join(folder, "made.txt")) as file:
                lines = file.read().split("\n")
            tries.same("stages %s, changes" % words[1:], (count, moves), (sum("change to" in line for line in lines), sum(line.count("->") for line in lines)))
            for stage, system in ((0, words[1:cut]), (count, words[cut + 1 :])):
                made = tries.run([tries.program, "flat", "made.dar", "Stage%d" % stage], folder=folder)
                tries.same("stages %s, graph %d" % (words[1:], stage), tries.run([tries.program, "flat", words[0], *system]), made)
            report = tries.run([tries.program, "step", "made.txt"], folder=folder)
            tries.same("stages %s, run" % words[1:], (count + 1, 0), (report.text.count("\ncommit\n"), report.text.count("\nabandon\n")))
            came = tries.asking("stages", "--name", "made", *words, folder=folder)
            tries.same("stages %s once more" % words[1:], Came(2, "", "stages: made.dar is there already\n"), came)
    try_no_stages(tries, examples)


def try_no_stages(tries, examples):
    """What no script or description can say is refused, and leaves no file."""
    file = os.path.join(examples, "line.dar")
    mixed = LINE.replace("sink {", "fork { provide hold; }\ncomponent sink {") + "component A(int n) { array t[2]:sink; inst t[0]; t[1]; }\ncomponent B(int n) { array t[2]:fork; inst t[0]; t[1]; }\n"
    with tempfile.TemporaryDirectory() as folder:
        with open(os.path.join(folder, "mixed.dar"), "w") as out:
            out.write(mixed)
        rows = [
            ([file, "Line", "2", "--", "Line", "2"], "nothing differs between the two systems"),
            (["mixed.dar", "A", "1", "--", "B", "1"], "between two parts not all under the name t is of one kind, or one array: no description can say that"),
            (["--name", "a b", file, "Line", "2", "--", "Line", "3"], "a name without blanks is wanted, since `use` takes one word"),
        ]
        for words, error in rows:
            tries.same("stages %s" % words, Came(2, "", "stages: %s\n" % error), tries.asking("stages", *words, folder=folder))
        tries.same("no file is left", ["mixed.dar"], os.listdir(folder))


TYPED = """use examples/line.dar
start Line(2)
run 2
change to Line(3, 4) within 5
use nowhere.dar
.state
change to Line(3) within 10 moving b -> b
.graph
.undo
.undo
.script
.nothing
run 2
finish within 100
end
.state
"""
SHOWN = """  start Line(2)
  make 0 b buffer(2)
  make 1 s source(3)
  make 2 t sink()
  commit
  run 2 2
  b buffer(2), slot 0: 2
  s source(3), slot 1: 2
  t sink(), slot 2: 1
  change Line(3)
  drained 0 1
  drained 1 2
  remove 0
  make 3 b buffer(3) from 0
  commit
  node b buffer(3)
  port b.next t.in
  node s source(3)
  port s.out b.in
  node t sink()
  without: change to Line(3) within 10 moving b -> b
  without: run 2
use examples/line.dar
start Line(2)
  run 2 2
  finish 100 8
  b buffer(2), slot 0: empty
  s source(3), slot 1: 3
  t sink(), slot 2: 1 2 3
"""
REFUSED = """description examples/line.dar: TopArgs 1 2
nowhere.dar can't be read: No such file or directory
there is no .nothing: .help tells what there is
"""


def try_shell(tries):
    """Statements are taken one by one; what is refused is told, and nothing is lost."""
    tries.same("a shell", Came(0, SHOWN, REFUSED), tries.asking("shell", text=TYPED))
    with tempfile.TemporaryDirectory() as folder:
        saved = os.path.join(folder, "s.txt")
        came = tries.asking("shell", text="use examples/line.dar\nstart Line(2)\n.save %s\n.save %s\n" % (saved, saved))
        tries.same("a shell that saves", "%s is there already\n" % saved, came.errors)
        came = tries.asking("shell", saved, text=".script\n.quit\nrun 1\n")
        tries.same("a shell that begins with a script", "use examples/line.dar\nstart Line(2)\n", came.text[came.text.index("use") :])


def try_endless(tries):
    """The plain statements say of a run on threads that it may never end."""
    with tempfile.TemporaryDirectory() as folder:
        for name, text in (("never.dar", LINE + "component Never { inst s:source(3); }\n"), ("never.txt", "use never.dar\nstart Never\nrun 5\nend\n")):
            with open(os.path.join(folder, name), "w") as file:
                file.write(text)
        came = tries.run([os.path.join(HERE, "plain"), "live", "never.txt"], folder=folder)
        tries.same("a run that never ends", Came(11, "", "the run may never end: after 200,000 turns some node isn't done, or a transaction is open\n"), came)


TRIED = (try_least_wait, try_stages, try_shell, try_endless)
