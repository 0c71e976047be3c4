"""A session with the manager: one process of `darwin_run apply` for each change, and the system as it tells it."""
import asyncio
import contextlib
import functools
import time
from typing import Dict, List, Optional, Sequence, Set, TextIO, Tuple

from .darwin import PORTS, Graph
from .outcomes import ManagerDied, Refused

PIPE = asyncio.subprocess.PIPE
GRACE = 10.0  # so many seconds the manager may be silent while gates are closed, where nothing else is said
PATIENCE = 60.0  # and so many while none is
ENDINGS = ("pending", "denied", "bad")
GATES = ("reopen", "commit")  # lines of the history that say nothing of the graph


async def started(command: Sequence[str]) -> asyncio.subprocess.Process:
    """A process of the manager."""
    try:
        return await asyncio.create_subprocess_exec(*command, stdin=PIPE, stdout=PIPE)
    except OSError as fault:
        raise ManagerDied("%s can't be started: %s" % (command[0], fault.strerror)) from None


async def answer(command: Sequence[str]) -> str:
    """What the manager writes, for a question without a dialogue."""
    process = await started(command)
    try:
        text, _ = await asyncio.wait_for(process.communicate(), PATIENCE)
    except asyncio.TimeoutError:
        await ended(process, 0)
        raise ManagerDied("silent for %g seconds" % PATIENCE) from None
    if process.returncode:
        raise Refused(text.decode().strip() or "%s ends with status %d" % (command[0], process.returncode))
    return text.decode()


async def ended(process: asyncio.subprocess.Process, seconds: float) -> None:
    """Waits for the end of a process, and then makes it end."""
    try:
        await asyncio.wait_for(process.wait(), seconds)
    except asyncio.TimeoutError:
        with contextlib.suppress(ProcessLookupError):  # it may end meanwhile
            process.kill()
        await process.wait()


class Session:
    """A dialogue, line by line. It keeps the lines in order, and adds them to a log with the milliseconds since its start."""

    process: Optional[asyncio.subprocess.Process] = None
    input: asyncio.StreamWriter
    output: asyncio.StreamReader

    def __init__(self, command: Sequence[str], grace: float, log: Optional[str]) -> None:
        self.command, self.grace, self.log_name = command, grace, log
        self.lines: List[str] = []
        self.log: Optional[TextIO] = None
        self.loop, self.start = asyncio.get_running_loop(), time.monotonic()

    async def begin(self) -> None:
        """Starts the manager."""
        self.process = await started(self.command)
        assert self.process.stdin and self.process.stdout
        self.input, self.output = self.process.stdin, self.process.stdout
        if self.log_name:
            self.log = open(self.log_name, "a")
            self.log.write("session %s %s\n" % (time.strftime("%Y-%m-%dT%H:%M:%S"), " ".join(self.command)))

    async def end(self) -> None:
        """Ends the manager, if it hasn't ended."""
        if self.process:
            self.input.close()
            await ended(self.process, 1)
        if self.log:
            self.log.write("end %s\n" % (self.process and self.process.returncode))
            self.log.close()

    def keep(self, line: str) -> None:
        """Notes a line; one that was said to the manager begins with `> `."""
        self.lines.append(line)
        if self.log and not self.log.closed:
            self.log.write("%.3f %s\n" % ((time.monotonic() - self.start) * 1e3, line))

    async def read(self, seconds: float = PATIENCE) -> List[str]:
        """The words of the next line, for which it waits so many seconds."""
        try:
            line = await asyncio.wait_for(self.output.readline(), seconds)
        except asyncio.TimeoutError:
            raise ManagerDied("silent for %g seconds" % seconds) from None
        except ValueError:
            raise ManagerDied("its line has no end") from None
        if not line.endswith(b"\n"):
            raise ManagerDied("its output ends behind %r" % (self.lines[-1] if self.lines else ""))
        self.keep(line.decode("utf-8", "replace")[:-1])
        return str(self.lines[-1]).split(" ")

    def say(self, line: str) -> None:
        """Says a line, from any thread; from others it comes behind what the loop says meanwhile."""
        if asyncio._get_running_loop() is self.loop:
            self.put(line)
        else:
            self.loop.call_soon_threadsafe(functools.partial(self.put, line))

    def put(self, line: str) -> None:
        """Says a line, from the loop."""
        self.keep("> " + line)
        if not self.input.is_closing():
            self.input.write(line.encode() + b"\n")


class Told:
    """The system as the manager tells it: nodes and ports by their numbers, in the order in which they are made."""

    def __init__(self) -> None:
        self.nodes: List[Tuple[str, str]] = []
        self.ports: List[str] = []
        self.owners: List[int] = []  # of the ports
        self.live: Set[int] = set()
        self.links: Dict[int, int] = {}

    def take(self, words: List[str]) -> None:
        """Takes in a line that makes or changes the system."""
        try:
            if words[0] == "make":
                self.make(words[2], words[3])
            elif words[0] == "remove":
                self.live.remove(int(words[1]))
            elif words[0] == "link":
                self.link(int(words[1]), int(words[2]))
            elif words[0] == "unlink":
                del self.links[int(words[1])]
            elif words[0] not in GATES:
                raise ValueError
        except (IndexError, KeyError, ValueError):
            raise ManagerDied("it says %r, which can't be" % " ".join(words))

    def make(self, path: str, node: str) -> None:
        """Makes a node, and its ports."""
        slot, names = len(self.nodes), PORTS[node.partition("(")[0]]
        self.live.add(slot)
        self.nodes.append((path, node))
        self.ports += ["%s.%s" % (path, name) for name in names]
        self.owners += [slot] * len(names)

    def link(self, port: int, slot: int) -> None:
        """Lets a port that was made lead to a node that was."""
        if not (0 <= port < len(self.ports) and 0 <= slot < len(self.nodes)):
            raise IndexError
        self.links[port] = slot

    def port(self, number: str) -> str:
        """The path of a port, by its number."""
        if not number.isdigit() or int(number) >= len(self.ports):
            raise ManagerDied("it names port %s, which isn't made" % number)
        return self.ports[int(number)]

    def is_graph(self, graph: Graph) -> bool:
        """Whether it is the graph that `flat` wrote."""
        links = {self.ports[port]: self.nodes[slot][0] for port, slot in self.links.items() if self.owners[port] in self.live}
        wanted = {port: target.rpartition(".")[0] for port, target in graph.ports.items() if target != "-"}
        return {self.nodes[slot] for slot in self.live} == set(graph.nodes.items()) and links == wanted
