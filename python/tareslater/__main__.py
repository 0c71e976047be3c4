"""python -m tareslater describe FILE [MODULE:CLASSES]: writes a description with its own components, as a plain `darwin_run plan` takes it.
python -m tareslater board [--port PORT] MODULE:SYSTEM CALL: starts a system and serves a page that follows it, until Ctrl-C.

describe: FILE wires the components. CLASSES is a list of classes in the module, as `shop:COMPONENTS`, or their names, as
`shop:Front,Stock`. A note in the text that comes names it; a FILE with such a note needs no CLASSES, and what stands behind the note is
written anew.

board: SYSTEM is a System in the module that isn't started yet, or a function without arguments that gives one. CALL is the first system,
as "Shop(1)". The address of the page is printed, with a token behind its #: who knows it may see the system and change it.

Modules are looked for in this folder first.
"""
import asyncio
import contextlib
import importlib
import os
import re
import signal
import sys
from typing import Callable, List, Optional

from .board import Board
from .darwin import NOTE, Undescribable, call_of, description, words_of
from .outcomes import ManagerDied, Refused
from .remote import named, serve
from .system import System

SAID = re.compile(r"(?m)^%s (\S+)$" % re.escape(NOTE))
USAGE = "usage: python -m tareslater describe FILE [MODULE:CLASSES]\n       python -m tareslater board [--port PORT] MODULE:SYSTEM CALL"
FAULTS = (OSError, ImportError, AttributeError, TypeError, ValueError)


def described(file: str, said: str) -> str:
    """The text of a file, with the components."""
    with open(file) as read:
        text = read.read()
    noted = SAID.search(text)
    if not said and not noted:
        raise ValueError("%s has no note of its components: name them behind it, as shop:COMPONENTS" % file)
    said = said or (noted[1] if noted else "")
    return description(text, named(said)).replace(NOTE, "%s %s" % (NOTE, said), 1)


def system_of(said: str) -> System:
    """The system that `module:NAME` names, or that its function gives."""
    module, _, name = said.partition(":")
    found = getattr(importlib.import_module(module), name)
    if callable(found):
        found = found()
    if not isinstance(found, System):
        raise TypeError("%s is no System, and no function that gives one" % said)
    return found


async def follow(system: System, call: str, port: int) -> None:
    """A system with its board, until the process is asked to end."""
    board, ended = Board(system, port), asyncio.Event()
    for number in (signal.SIGINT, signal.SIGTERM):
        asyncio.get_running_loop().add_signal_handler(number, ended.set)
    async with contextlib.AsyncExitStack() as stack:
        try:
            await stack.enter_async_context(board)
        except OSError as fault:
            raise Refused("port %d: %s" % (port, fault.strerror))
        await system.start(call)
        stack.push_async_callback(system.stop)
        print(board.address, flush=True)
        await ended.wait()


def wanted(words: List[str]) -> Optional[Callable[[], object]]:
    """What the words ask for, or None where they have no form."""
    if len(words) == 4 and words[0] == "serve":  # a process of remote.Spread
        return lambda: asyncio.run(serve(words[1], words[2], int(words[3])))
    sys.path.insert(0, os.getcwd())
    port = 0
    if len(words) == 5 and words[:2] == ["board", "--port"] and re.fullmatch(r"[0-9]{1,5}", words[2]):
        port, words = min(int(words[2]), 65535), ["board", *words[3:]]
    if len(words) == 3 and words[0] == "board":
        system, call = system_of(words[1]), call_of(words_of(words[2]))
        return lambda: asyncio.run(follow(system, call, port))
    if len(words) in (2, 3) and words[0] == "describe":
        text = described(words[1], words[2] if len(words) == 3 else "")
        return lambda: sys.stdout.write(text)
    return None


def main() -> int:
    words = sys.argv[1:]
    if words in (["--help"], ["-h"]):
        print(__doc__.strip())
        return 0
    try:
        work = wanted(words)
    except FAULTS as fault:
        return failed(words, fault)
    if work is None:
        print(USAGE, file=sys.stderr)
        return 2
    try:
        work()
    except (Refused, ManagerDied, Undescribable) as fault:  # what one's own code raises is shown whole
        return failed(words, fault)
    return 0


def failed(words: List[str], fault: Exception) -> int:
    """Says why nothing was done."""
    print("tareslater %s: %s" % (words[0], fault), file=sys.stderr)
    return 2


if __name__ == "__main__":
    sys.exit(main())
