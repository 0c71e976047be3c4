"""Which program is the manager: what its user names, else `darwin_run` as the shell finds it, else what a clone of the project has.

This is the one place where it is chosen. Of those that nobody named it takes the first whose help has the command `apply`; a clone has the
built program and, without a build, the plain statements of it.
"""
import functools
import os
import re
import shutil
import subprocess
import sys
from typing import List, Optional

CLONE = os.path.dirname(os.path.dirname(os.path.dirname(os.path.abspath(__file__))))
BUILT = os.path.join(CLONE, "crates", "darwin_run", "out", "darwin_run")
PLAIN = os.path.join(CLONE, "tests", "plain")
SECONDS = 20


def words_of(program: str) -> List[str]:
    """The words that run a program. A script of Python is run by this one, without a look for another."""
    try:
        with open(program, "rb") as file:
            is_script = file.readline().rstrip().endswith(b"python3")
    except OSError:
        return [program]
    return [sys.executable, program] if is_script else [program]


@functools.lru_cache(maxsize=None)
def has_sessions(program: str) -> bool:
    """Whether the help of a program has `apply`."""
    try:
        done = subprocess.run([program, "--help"], stdin=subprocess.DEVNULL, stdout=subprocess.PIPE, stderr=subprocess.DEVNULL, timeout=SECONDS)
    except (OSError, subprocess.SubprocessError):
        return False
    return bool(re.search(rb"(?m)^\s*darwin_run apply\b", done.stdout))


def manager(program: Optional[str] = None) -> List[str]:
    """The command of the manager."""
    if program is not None:
        return words_of(program)
    found = next((path for path in (shutil.which("darwin_run"), BUILT) if path and has_sessions(path)), None)
    if found is None and os.path.exists(PLAIN):
        found = PLAIN
    return words_of(found or "darwin_run")
