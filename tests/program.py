"""What the scripts of this folder share: which program they try, how they run it, and how they end."""
import argparse
import os
import re
import subprocess
import sys
from typing import NamedTuple, Optional

HERE = os.path.dirname(os.path.abspath(__file__))
TOP = os.path.dirname(HERE)
BUILT = os.path.join(TOP, "crates", "darwin_run", "out", "darwin_run")
SECONDS = 20
SHOWN = 300
FORM = re.compile(rb"darwin_run [^\n]+\n")
MOST = 4


def share_modules(*folders):
    """Lets a script import what folders below this one hold, and leaves no compiled files there."""
    sys.dont_write_bytecode = True
    sys.path[1:1] = [os.path.join(HERE, folder) for folder in ("oracle", "make", *folders)]


def parser(document):
    """A parser of command lines that has the option which each script has."""
    made = argparse.ArgumentParser(description=document, formatter_class=argparse.RawDescriptionHelpFormatter)
    made.add_argument("--program", default=BUILT, help="the program, which `rt run` in crates/darwin_run leaves in its folder out/")
    return made


def path_of(given):
    """The whole path of the program that a command line names."""
    program = os.path.abspath(given.program)
    if not os.access(program, os.X_OK):
        sys.exit("there is no program %s: make it with `rt run -- --version` in crates/darwin_run, or name another by --program" % program)
    return program


class Ran(NamedTuple):
    """How a run ended: its status, None where it had no end in time; what it wrote, None where its output went elsewhere; and what it
    wrote to standard error."""

    status: Optional[int]
    text: Optional[bytes]
    errors: bytes

    def fault(self):
        """Why no run may end so, or None. Behind `usage` a form may be noted."""
        if self.status is None:
            return "no end within %d seconds" % SECONDS
        if self.status < 0:
            return "ended by signal %d" % -self.status
        noted = self.status == 1 and FORM.fullmatch(self.errors)
        return "wrote %r to standard error" % self.errors[:SHOWN] if self.errors and not noted else None

    def unlike(self, *wanted):
        """Why no run may end so, or what was wanted, each as (status, text), and what came, where that is none of them; else None."""
        if self.fault():
            return self.fault()
        if self[:2] in wanted:
            return None
        at = max(parting(text or b"", self.text or b"") for _, text in wanted)
        return "wanted %s; came %s" % (" or ".join(shown(*answer, at) for answer in wanted[:MOST]), shown(*self[:2], at))


def parting(one, other):
    """Where two texts part."""
    return len(os.path.commonprefix([one, other]))


def shown(status, text, at=0):
    """A status and a text as they are shown: a short one whole, of a longer one a piece round this place."""
    if text is None or len(text) <= SHOWN:
        return "status %d, %r" % (status, text)
    first = max(0, at - SHOWN // 2)
    return "status %d, %r at byte %d of %d" % (status, text[first : first + SHOWN], first, len(text))


def write(folder, files):
    """Leaves these files in a folder, and no others."""
    for name in os.listdir(folder):
        os.remove(os.path.join(folder, name))
    for name, text in files.items():
        with open(os.path.join(folder, name), "wb") as file:
            file.write(text if isinstance(text, bytes) else text.encode("utf-8", "surrogateescape"))


def ran(program, folder, words, files=None, stdout=subprocess.PIPE, environment=None, before=None, said=None, stdin=subprocess.DEVNULL):
    """A run in a folder, in which these files alone are left first where some are given. `before` is called in the run's own process. Its
    input is what is said, where something is."""
    if files is not None:
        write(folder, files)
    source = {"stdin": stdin} if said is None else {"input": said}
    try:
        done = subprocess.run([program] + words, cwd=folder, env=environment, stdout=stdout, stderr=subprocess.PIPE, timeout=SECONDS, preexec_fn=before, **source)
    except subprocess.TimeoutExpired:
        return Ran(None, b"", b"")
    return Ran(done.returncode, done.stdout, done.stderr)


def blocks(text):
    """The blocks of code of a document, each with the number of its first line and its lines."""
    found, inside = [], False
    for number, line in enumerate(text.split("\n"), 1):
        if line.startswith("```"):
            inside = not inside
            if inside:
                found.append((number + 1, []))
        elif inside:
            found[-1][1].append(line)
    return found


def documented():
    """The commands that docs/darwin_run.1 names, in order."""
    with open(os.path.join(TOP, "docs", "darwin_run.1")) as page:
        return re.findall(r"^\.B darwin_run ([a-z]+)$", page.read(), re.M)


def want(program, commands):
    """Fails where the program's help doesn't name each of these commands: their rows must not be passed over."""
    came = ran(program, HERE, ["--help"])
    if came.status != 0 or came.errors:
        sys.exit("--help: %s" % (came.fault() or shown(came.status, came.text)))
    forms = [line.split() for line in came.text.decode().splitlines()]
    named = [form[1] for form in forms if form[:1] == ["darwin_run"]]
    missing = [command for command in commands if command not in named]
    if missing:
        sys.exit("the program's help doesn't name %s" % ", ".join(missing))


def end(tried, failed):
    """Prints how many passed and failed, and ends with status 1 where one failed or none was tried."""
    print("%d passed, %d failed" % (tried - failed, failed) if tried else "nothing was tried")
    sys.exit(0 if tried and not failed else 1)
