"""Systems of several processes on this machine. Each process has components and their gates; one of them speaks with the manager.

    system = Spread(text, "shop:COMPONENTS", place=lambda path, instance: "store" if path == "stock" else "here")

Processes are started when a component is placed in them, and ended when none is left there. A call to another process keeps its root open
until that process has said that all is done that was done for the call, also where the answer came before or the caller has gone. Where a
process dies, its callers hear `Lost`, and their roots stay open: what the dead process had called may still be under way elsewhere. Who
knows that it isn't says so by `Spread.over`.
"""
import asyncio
import importlib
import itertools
import os
import pickle
import re
import shutil
import signal
import sys
import tempfile
from typing import Any, Callable, Dict, Iterable, List, Mapping, Optional, Sequence, Set, Tuple, Type

from .components import Component, End, Target, in_loop, outside
from .darwin import Instance, Key
from .gates import Root
from .session import GRACE, ended
from .sites import THREADS, AnySite, Seen, Site, Switch
from .system import HERE, System

HEAD = 8  # bytes of a message's length
ENDING = 5.0  # so many seconds a process has to end by itself


class Lost(ConnectionError):
    """The process that served a call has gone. Whether the call was carried out isn't known."""


class Wire:
    """A connection on which both sides send whole messages."""

    def __init__(self, reader: asyncio.StreamReader, writer: asyncio.StreamWriter) -> None:
        self.reader, self.writer, self.loop = reader, writer, asyncio.get_running_loop()

    def send(self, *message: Any) -> None:
        """Sends a message from any thread; one that can't be said raises, and nothing of it is sent."""
        text = pickle.dumps(message)
        framed = len(text).to_bytes(HEAD, "big") + text
        if asyncio._get_running_loop() is self.loop:
            self.write(framed)
        else:
            self.loop.call_soon_threadsafe(self.write, framed)

    def write(self, framed: bytes) -> None:
        """Sends bytes, unless nobody is there to hear them."""
        if not self.writer.is_closing():
            self.writer.write(framed)

    async def hear(self) -> Optional[Tuple[Any, ...]]:
        """The next message, or None behind the last."""
        try:
            head = await self.reader.readexactly(HEAD)
            return tuple(pickle.loads(await self.reader.readexactly(int.from_bytes(head, "big"))))
        except (asyncio.IncompleteReadError, ConnectionError):
            return None

    def reply(self, number: int, has_answered: bool, value: Any) -> None:
        """Sends an answer, or what was raised; what can't be sent is told by its text."""
        try:
            text = pickle.dumps(value)
        except Exception as fault:
            has_answered, text = False, pickle.dumps(RuntimeError(repr(fault if has_answered else value)))
        self.send("answer", number, has_answered, text)


class Peer:
    """Another process, as a caller sees it: questions under way by their numbers, each with the root that it keeps open."""

    def __init__(self, address: str) -> None:
        self.address, self.numbers = address, itertools.count()
        self.wire: Optional[Wire] = None
        self.connecting: Optional["asyncio.Task[Any]"] = None
        self.answers: Dict[int, "asyncio.Future[Any]"] = {}
        self.roots: Dict[int, Root] = {}
        self.is_lost = False
        self.tell: Callable[[int, str], None] = lambda session, line: None

    async def connected(self) -> Wire:
        """The connection, which is made once."""
        if self.is_lost or (self.wire and self.wire.writer.is_closing()):
            raise Lost(self.address)
        if self.wire is None:
            if self.connecting is None:
                # it belongs to no root, least of all to that which happens to be the first to call
                self.connecting = outside(asyncio.get_running_loop(), self.connect())
            await asyncio.shield(self.connecting)
        assert self.wire
        return self.wire

    async def connect(self) -> Wire:
        """Makes the connection."""
        try:
            self.wire = Wire(*await asyncio.open_unix_connection(self.address))
        except OSError as fault:
            self.is_lost = True
            raise Lost("%s: %s" % (self.address, fault.strerror))
        self.listening = asyncio.ensure_future(self.listen(self.wire))
        return self.wire

    async def listen(self, wire: Wire) -> None:
        """Hears answers and ends, until the process has gone."""
        while (message := await wire.hear()) is not None:
            word, number, *rest = message
            if word == "answer":
                settle(self.answers.pop(number), *rest)
            elif word == "ended":
                self.roots.pop(number).release()
            else:
                self.tell(number, rest[0])
        self.is_lost = True
        for answer in self.answers.values():
            settle(answer, False, pickle.dumps(Lost(self.address)))

    async def ask(self, word: str, *words: Any, root: Optional[Root] = None) -> Any:
        """Asks, and waits for the answer. The root stays open until `ended` comes, whatever becomes of who waits."""
        wire = await self.connected()
        number, answer = next(self.numbers), asyncio.get_running_loop().create_future()
        if root:
            root.hold()
        try:
            wire.send(word, number, pickle.dumps(words))
        except BaseException:
            if root:
                root.release()
            raise
        self.answers[number] = answer
        if root:
            self.roots[number] = root
        await wire.writer.drain()
        return await answer

    def over(self) -> None:
        """Ends the roots of calls to a process that has gone."""
        roots, self.roots = self.roots, {}
        for root in roots.values():
            root.release()


def settle(answer: "asyncio.Future[Any]", has_answered: bool, text: bytes) -> None:
    """Hands an answer to who waits, if anybody does."""
    try:
        value = pickle.loads(text)
    except Exception as fault:
        has_answered, value = False, RuntimeError("an answer can't be read here: %r" % fault)
    if answer.done():
        return
    if has_answered:
        answer.set_result(value)
    else:
        answer.set_exception(value)
        answer.exception()


class Far:
    """A service of a component of another process, to which a requirement leads."""

    __slots__ = ("peer", "end", "loop", "is_plain")

    def __init__(self, peer: Peer, end: End, loop: asyncio.AbstractEventLoop) -> None:
        self.peer, self.end, self.loop, self.is_plain = peer, end, loop, False

    async def serve(self, root: Root, args: Tuple[Any, ...], words: Dict[str, Any]) -> Any:
        """Asks the other process to serve."""
        root.must_be_open()
        return await self.peer.ask("call", self.end, args, words, root=root)

    def serve_from_thread(self, root: Root, args: Tuple[Any, ...], words: Dict[str, Any]) -> Any:
        """The same for a caller in a thread."""
        return in_loop(self.loop, self.serve(root, args, words))


class Reachable(Site):
    """The components of this process, which other processes call."""

    address = ""

    def __init__(self, classes: Sequence[Type[Component]], threads: int) -> None:
        super().__init__(classes, threads)
        self.peers: Dict[str, Peer] = {}
        self.working: Set["asyncio.Task[None]"] = set()

    async def listen(self, address: str) -> None:
        """Lets other processes in."""
        self.address = address
        self.server = await asyncio.start_unix_server(self.serve, address)

    async def serve(self, reader: asyncio.StreamReader, writer: asyncio.StreamWriter) -> None:
        """Serves another process until it has gone."""
        wire = Wire(reader, writer)
        try:
            while (message := await wire.hear()) is not None:
                word, number, text = message
                work = self.call(wire, number, text) if word == "call" else self.do(wire, number, word, text)
                task = asyncio.ensure_future(work)
                self.working.add(task)
                task.add_done_callback(self.working.discard)
        except asyncio.CancelledError:
            pass  # at the end of this process
        writer.close()

    async def call(self, wire: Wire, number: int, text: bytes) -> None:
        """Serves a call, by a root of this process that stands for the caller's, and says when it has ended."""
        root = Root(lambda: wire.send("ended", number))
        try:
            end, args, words = pickle.loads(text)
            answer = await Target(self.components[end.path], end).serve(root, args, words)
            wire.reply(number, True, answer)
        except Exception as fault:
            wire.reply(number, False, fault)
        except BaseException as fault:  # a task of the service was cancelled, or this process ends
            wire.reply(number, False, RuntimeError(repr(fault)))
            raise
        finally:
            root.release()

    async def do(self, wire: Wire, number: int, word: str, text: bytes) -> None:
        """Does what a change asks of this site."""
        try:
            words = list(pickle.loads(text))
            if word == "close_gates":
                gates, session = words
                words = [gates, lambda line: wire.send("tell", session, line)]
            wire.reply(number, True, await getattr(self, word)(*words))
        except Exception as fault:
            wire.reply(number, False, fault)

    def peer(self, address: str) -> Peer:
        """A process by its address."""
        if address not in self.peers:
            self.peers[address] = Peer(address)
        return self.peers[address]

    def leads_to(self, target: Any, end: Optional[End], switch: Switch) -> bool:
        """Whether a requirement leads there already."""
        if isinstance(target, Far) and end is not None:
            return target.end == end and target.peer.address == switch.addresses[end.path]
        return super().leads_to(target, end, switch)

    def target(self, end: End, switch: Switch) -> Any:
        """A service, by its place in the new system."""
        address = switch.addresses[end.path]
        return super().target(end, switch) if address == self.address else Far(self.peer(address), end, asyncio.get_running_loop())

    async def over(self, address: str) -> None:
        """Ends the roots of calls to a process that has gone."""
        if address in self.peers:
            self.peers.pop(address).over()


class There(AnySite):
    """A site of another process, as the one sees it that speaks with the manager."""

    def __init__(self, address: str, classes: str, threads: int) -> None:
        self.address, self.classes, self.threads, self.peer = address, classes, threads, Peer(address)
        self.session, self.is_over = 0, False

    async def begin(self) -> None:
        """Starts the process, and waits until it can be reached."""
        command = [sys.executable, "-m", "tareslater", "serve", self.address, self.classes, str(self.threads)]
        pipe = asyncio.subprocess.PIPE
        environment = dict(os.environ, PYTHONPATH=os.pathsep.join(filter(None, [os.getcwd(), *sys.path])))
        self.process = await asyncio.create_subprocess_exec(*command, stdin=pipe, stdout=pipe, env=environment)
        assert self.process.stdout
        if await self.process.stdout.readline() != b"there\n":
            raise Lost("%s: the process can't be started" % self.address)

    async def end(self) -> None:
        """Ends the process."""
        assert self.process.stdin
        self.process.stdin.close()
        await ended(self.process, ENDING)

    async def make(self, instances: Mapping[str, Instance]) -> None:
        await self.peer.ask("make", dict(instances))

    async def close_gates(self, gates: Mapping[int, Key], tell: Callable[[str], None]) -> None:
        self.session += 1
        self.peer.tell = lambda session, line: tell(line) if session == self.session else None
        if self.is_over:
            for number in gates:
                tell("closed %d" % number)
        else:
            await self.peer.ask("close_gates", dict(gates), self.session)

    async def states(self, paths: Sequence[str]) -> Dict[str, Any]:
        return dict(await self.peer.ask("states", list(paths)))

    async def take(self, states: Mapping[str, Any]) -> None:
        await self.peer.ask("take", dict(states))

    # ---- what is no work where the process has gone

    async def done(self, word: str, *words: Any) -> Any:
        """Asks for what is no work where there is no process."""
        try:
            return await self.peer.ask(word, *words)
        except Lost:
            return None

    async def reopen(self, keys: Iterable[Key]) -> None:
        self.session += 1
        await self.done("reopen", list(keys))

    async def engaged(self, paths: Sequence[str], keys: Iterable[Key]) -> List[str]:
        return list(await self.done("engaged", list(paths), list(keys)) or ())

    async def seen(self) -> Seen:
        return await self.done("seen") or Seen({}, {})

    async def halt(self, paths: Sequence[str], seconds: float) -> None:
        await self.done("halt", list(paths), seconds)

    async def switch(self, switch: Switch) -> None:
        await self.done("switch", switch)

    async def finish(self, made: Sequence[str], moved: Iterable[str]) -> None:
        await self.done("finish", list(made), list(moved))

    async def undo(self) -> None:
        await self.done("undo")

    async def rest(self) -> None:
        await self.done("rest")

    async def stop(self, seconds: float) -> None:
        await self.done("stop", seconds)

    async def over(self, address: str) -> None:
        self.is_over = self.is_over or address == self.address
        await self.done("over", address)


class Spread(System):
    """A system of several processes. `classes` names them as `module:LIST` or `module:Class,Class`; `place` gives by path and integers the
    name of the process in which a component is, of which `here` is this one."""

    def __init__(
        self,
        text: str,
        classes: str,
        manager: Sequence[str] = (),
        *,
        place: Callable[[str, Instance], str],
        log: Optional[str] = None,
        threads: int = THREADS,
        grace: float = GRACE,
    ) -> None:
        super().__init__(text, named(classes), manager, log=log, threads=threads, grace=grace, place=place)
        self.named, self.threads = classes, threads
        self.here = self.reachable = Reachable(self.classes, threads)
        self.sites = {HERE: self.here}
        self.folder = tempfile.mkdtemp()  # which only its owner may enter
        self.numbers = itertools.count()

    async def start(self, call: str) -> None:
        """Starts processes, components and gates."""
        try:
            await self.reachable.listen(os.path.join(self.folder, HERE))
            await super().start(call)
        except BaseException:
            await self.left()
            raise

    async def site(self, name: str) -> AnySite:
        """The site of a name, of which a process is started where there is none."""
        if not re.fullmatch(r"\w{1,40}", name):
            raise ValueError("%r is no name of a process: letters, digits and _, at most 40" % name)
        if name not in self.sites:
            address = os.path.join(self.folder, "%s.%d" % (name, next(self.numbers)))  # never that of a process which has gone
            site = There(address, self.named, self.threads)
            await site.begin()
            self.sites[name] = site
        return self.sites[name]

    async def tidy(self) -> None:
        """Ends processes in which no component is left."""
        used = {id(site) for site in self.placed.sites.values()}
        for name, site in list(self.sites.items()):
            if isinstance(site, There) and id(site) not in used:
                del self.sites[name]
                await self.ended(site)

    async def ended(self, site: There) -> None:
        """Ends a process, whatever its components make of it: no change fails by that."""
        try:
            await site.stop(1)
        except Exception as fault:
            self.faults.append(fault)
        await site.end()

    async def stop(self, within: float = 5.0) -> None:
        """Ends all processes."""
        await super().stop(within)
        await self.left()

    async def left(self) -> None:
        """Ends what was started beside the components."""
        await self.tidy()
        self.reachable.server.close()
        shutil.rmtree(self.folder)

    async def over(self, name: str) -> None:
        """Says of a process that has died that nothing which it had called is under way any more. Its components stand until a change
        removes them; one that is placed by this name gets a new process."""
        gone = self.sites.pop(name)
        assert isinstance(gone, There)
        for site in (*self.sites.values(), gone):
            await site.over(gone.address)
        await gone.end()


def named(said: str) -> List[Type[Component]]:
    """The classes that `module:LIST` or `module:Class,Class` names."""
    name, _, members = said.partition(":")
    module = importlib.import_module(name)
    found = [getattr(module, member) for member in members.split(",")]
    if len(found) == 1 and isinstance(found[0], (list, tuple)):
        found = list(found[0])
    for cls in found:
        if not (isinstance(cls, type) and issubclass(cls, Component)):
            raise TypeError("%r is no class of a component" % (cls,))
    return found


async def serve(address: str, classes: str, threads: int) -> None:
    """A process with components of these classes, up to the end of its standard input."""
    site = Reachable(named(classes), threads)
    await site.listen(address)
    signal.signal(signal.SIGINT, signal.SIG_IGN)  # the process that started this one ends it
    print("there", flush=True)
    reader = asyncio.StreamReader()
    await asyncio.get_running_loop().connect_read_pipe(lambda: asyncio.StreamReaderProtocol(reader), sys.stdin)
    await reader.read()
