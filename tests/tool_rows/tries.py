"""How the tools are tried: the program beside them, what came of a tool, and how many rows failed."""
import os
import subprocess
import sys
import tempfile
from typing import NamedTuple

from program import TOP

TOOLS = os.path.join(TOP, "tools")
FOLDER = TOP
EXAMPLES = "examples/"
SECONDS, BYTES = 300, 1 << 20
LINE = "component source(int n) { require out; }\ncomponent buffer(int cap) { provide in; require next; }\ncomponent sink { provide in; }\n"
# a fork is taken from a table while meals are under way
TABLE = "use examples/table.dar\nstart Table(3,4,9)\nrun 5\nchange to Table(3,4,0) within 50\nfinish within 500\nend\n"
# a system of no nodes, whose report has no logs
EMPTY = "report 2\nstart None()\ncommit\nchange None(1)\ncommit\nfinish 9 0\nstop\nstatus 0\n"
# a change of a system in which nothing is under way
REST = "use examples/line.dar\nstart Line(2)\nchange to Line(3) within 0\nfinish within 99\nend\n"
# a change behind one that is given up, and an end before all is done
SKIPPED = "use examples/line.dar\nstart Line(2)\nrun 2\nchange to Line(3) within 0\nchange to Line(4) within 9\nfinish within 2\nend\n"


class Came(NamedTuple):
    """How a tool ended: its status, and what it wrote to standard output and standard error."""

    status: int
    text: str
    errors: str


class Tries:
    """The program with which the tools are tried, and how many rows were tried and failed."""

    def __init__(self, program):
        self.program, self.tried, self.failed, self.reports = program, 0, 0, {}

    def run(self, command, text="", folder=FOLDER):
        done = subprocess.run(command, cwd=folder, input=text.encode(), stdout=subprocess.PIPE, stderr=subprocess.PIPE, timeout=SECONDS)
        return Came(done.returncode, done.stdout.decode(), done.stderr.decode())

    def tool(self, name, *words, text="", folder=FOLDER):
        return self.run([sys.executable, os.path.join(TOOLS, name), *words], text, folder)

    def asking(self, name, *words, text="", folder=FOLDER):
        """The same of a tool that runs the program."""
        return self.tool(name, "--program", self.program, *words, text=text, folder=folder)

    def report(self, script):
        """The report of a script, which is a file's name or a text."""
        if script not in self.reports:
            with tempfile.NamedTemporaryFile("w", suffix=".txt") as file:
                file.write(script)
                file.flush()
                self.reports[script] = self.run([self.program, "step", file.name if "\n" in script else script]).text
        return self.reports[script]

    def want(self, what, holds, shown=""):
        self.tried += 1
        if not holds:
            self.failed += 1
            print("FAILED %s%s" % (what, ": " + str(shown)[:600] if shown != "" else ""))

    def same(self, what, wanted, came):
        self.want(what, wanted == came, "wanted %r; came %r" % (wanted, came))

    def has(self, what, came, lines):
        """Each of these is one of the lines that came."""
        for line in lines:
            self.want("%s has %r" % (what, line), line in came.split("\n"), came)
