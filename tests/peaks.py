"""Runs of the program whose time and memory are told.

What Linux tells of a child's memory is never less than what its parent held when the child began, which here may be hundreds of MiB. So a launcher
that holds next to nothing, made by a C compiler, `cc`, begins the program and writes down what it took.
"""
import os
import subprocess
import time
from typing import NamedTuple

from program import Ran, ran

LAUNCHER = r"""
#include <signal.h>
#include <stdio.h>
#include <sys/prctl.h>
#include <sys/resource.h>
#include <sys/wait.h>
#include <unistd.h>
static double seconds(struct timeval time) { return time.tv_sec + time.tv_usec / 1e6; }
int main(int count, char **words) {
    struct rusage used;
    int ended;
    pid_t child = count > 2 ? fork() : -1;
    if (child == 0) {
        prctl(PR_SET_PDEATHSIG, SIGKILL);
        execv(words[2], words + 2);
        _exit(127);
    }
    if (child < 0 || wait4(child, &ended, 0, &used) != child) return 126;
    FILE *file = fopen(words[1], "w");
    if (!file) return 126;
    fprintf(file, "%ld %f\n", used.ru_maxrss, seconds(used.ru_utime) + seconds(used.ru_stime));
    fclose(file);
    if (WIFSIGNALED(ended)) {
        signal(WTERMSIG(ended), SIG_DFL);
        raise(WTERMSIG(ended));
    }
    return WEXITSTATUS(ended);
}
"""


class Peak(NamedTuple):
    """How a run ended; its wall time and its processor time, in seconds; and the greatest memory that it held, in bytes, None where it had no end in time."""

    came: Ran
    wall: float
    processor: float
    memory: int

    def seconds(self):
        """What it takes on a machine that does nothing else, or less: of one thread the processor time, of several the wall time."""
        return min(self.wall, self.processor)


class Launcher:
    """Runs a program in a folder. What the launcher needs stands in another folder, which is empty before."""

    def __init__(self, program, folder, own):
        self.program, self.folder = program, folder
        self.command, self.told = os.path.join(own, "launch"), os.path.join(own, "told")
        source = self.command + ".c"
        with open(source, "w") as file:
            file.write(LAUNCHER)
        subprocess.run(["cc", "-O1", "-o", self.command, source], check=True)

    def run(self, words, files=None, before=None):
        """A run, before which these files alone are left in the folder where some are given. `before` is called in the launcher's own process."""
        with open(self.told, "w") as file:
            file.write("0 0\n")
        begun = time.monotonic()
        came = ran(self.command, self.folder, [self.told, self.program] + words, files, before=before)
        wall = time.monotonic() - begun
        with open(self.told) as file:
            kibibytes, processor = file.read().split()
        return Peak(came, wall, float(processor), int(kibibytes) << 10)
