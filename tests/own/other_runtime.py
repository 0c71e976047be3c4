"""The runtime in another language: its own run, and one whose manager dies within its last line."""
import os
import shutil
import subprocess
import sys

from program import TOP

RUNTIME = os.path.join(TOP, "examples", "other-runtime", "runtime.js")
CUT = os.path.join(os.path.dirname(os.path.abspath(__file__)), "cut.py")
SECONDS = 300
# the lines of a session up to `commit`
LINES = 29


def ran(*manager):
    done = subprocess.run(["node", RUNTIME, *manager], stdout=subprocess.PIPE, stderr=subprocess.PIPE, timeout=SECONDS)
    return done.returncode, done.stdout.decode(), done.stderr.decode()


def tries(tries):
    if not shutil.which("node"):
        print("there is no node: the runtime in another language wasn't tried")
        return
    with open(RUNTIME) as file:
        tries.want("at most 150 lines", len(file.read().splitlines()) <= 150)
    status, text, errors = ran(*tries.manager)
    tries.want("ten changes", status == 0 and text.startswith("10 changes, held "), (status, text, errors))
    cut = [sys.executable, CUT, "1000", "1", *tries.manager]
    tries.same("behind a manager that doesn't die", 0, ran(*cut)[0])
    cut = [sys.executable, CUT, str(LINES), "0", *tries.manager]
    status, text, errors = ran(*cut)
    tries.want("a manager that dies within `commit`", status == 1 and "the change to version 1 wasn't made" in errors, (status, text, errors))
