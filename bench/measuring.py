"""How the scripts of this folder measure: the least processor time (user and system) of a few runs of the whole program, start-up included, and the
peak of its resident memory, which is never less than some 12 MiB, those of the script itself. Other work on the machine shows less in processor time than in wall time."""
import argparse
import os
import statistics
import subprocess
import sys
import tempfile
import time

PROGRAM = "crates/darwin_run/out/darwin_run"
TRIES = 3
TURNS = 15


def parser(document, program=PROGRAM):
    """A parser of command lines that may name the program that is measured."""
    made = argparse.ArgumentParser(description=document, formatter_class=argparse.RawDescriptionHelpFormatter)
    made.add_argument("program", nargs="?", default=program, help="%s where nothing is said" % program)
    return made


def path_of(given):
    """The whole path of the program that a command line names."""
    program = os.path.abspath(given.program)
    if not os.access(program, os.X_OK):
        sys.exit("there is no program %s: `rt run` in its crate makes it" % program)
    return program


def has(program, command):
    """Whether the program's help names a command."""
    told = subprocess.run([program, "--help"], stdout=subprocess.PIPE).stdout.decode()
    return any(line.split()[:2] == ["darwin_run", command] for line in told.splitlines())


def measured(program, folder, words, files, status):
    """The least processor time in seconds of a few runs, and the peak resident bytes of the last."""
    for name, text in files.items():
        with open(os.path.join(folder, name), "w") as file:
            file.write(text)
    runs = [ran(program, folder, words, status) for _ in range(TRIES)]
    return min(seconds for seconds, _, _ in runs), runs[-1][2]


def ran(program, folder, words, status, said=os.devnull):
    """The processor time and the wall time of a run in seconds, and its peak resident bytes. Its input is a file."""
    start = time.monotonic()
    with open(said, "rb") as source:
        child = subprocess.Popen([program] + words, cwd=folder, stdin=source, stdout=subprocess.DEVNULL)
    _, ended, usage = os.wait4(child.pid, 0)
    child.returncode = os.waitstatus_to_exitcode(ended)
    wall = time.monotonic() - start
    if child.returncode != status:
        sys.exit("%s: the program ended with status %d in place of %d: %s" % (sys.argv[0], child.returncode, status, " ".join(words)))
    return usage.ru_utime + usage.ru_stime, wall, usage.ru_maxrss * 1024


def medians(program, folder, words, count):
    """The medians of the processor time and of the wall time of so many runs, in seconds."""
    runs = [ran(program, folder, words, 0) for _ in range(count)]
    return statistics.median(run[0] for run in runs), statistics.median(run[1] for run in runs)


def table(program, folder, title, sizes, make, status=0):
    """Prints a line for each size; `make` gives the words and the files of a run. The rate and the peak are those by the bytes of all files."""
    print("\n%s" % title)
    print("%10s %10s %10s %10s %12s %12s %8s" % ("size", "bytes", "ms", "MB/s", "peak KiB", "peak/byte", "t(2n)/t"))
    before = None
    for size in sizes:
        words, files = make(size)
        length = sum(len(text) for text in files.values())
        seconds, peak = measured(program, folder, words, files, status)
        growth = "" if before is None else "%.2f" % (seconds / before)
        print("%10d %10d %10.1f %10.2f %12d %12.1f %8s" % (size, length, seconds * 1000, length / seconds / 1e6, peak // 1024, peak / length, growth))
        before = seconds


def beside(folder, title, files, ours, theirs):
    """Prints the least processor times of two commands that do the same work, run in turn. What they write has to be the same."""
    for name, text in files.items():
        with open(os.path.join(folder, name), "w") as file:
            file.write(text)
    wrote = [subprocess.run(command, cwd=folder, stdout=subprocess.PIPE, check=True).stdout for command in (ours, theirs)]
    if wrote[0] != wrote[1]:
        sys.exit("%s: the two programs write different texts: %s" % (sys.argv[0], title))
    turns = [[ran(command[0], folder, command[1:], 0)[0] for command in (ours, theirs)] for _ in range(TURNS)]
    mine, other = (min(turn[at] for turn in turns) * 1000 for at in (0, 1))
    print("%-40s %10.1f %10.1f %8.2f" % (title, mine, other, mine / other))


def in_a_folder(program, run):
    """Runs this with the program and a folder that is gone afterwards."""
    with tempfile.TemporaryDirectory() as folder:
        run(program, folder)
