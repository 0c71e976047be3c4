"""Gates and roots: all that a change has to know of the traffic, and whether it is told truly.

A *root* is a transaction that a component begins by itself, with everything that is done for it: the services that it calls, those that
they call, and so on. Roots are begun at a *gate*. A change closes some gates and waits until each is idle; it touches a component only
then. Whether that is safe rests on four premises, and this file keeps them:

A1  After a gate is closed no root begins there: `Gate.try_enter` and `Gate.close` hold one lock.
A2  A gate is busy from its first root to the end of its last: `Gate.count`, changed under that lock alone.
A3  A root ends after all that was done for it: `Root.open` counts its blocks and services, and a call after the end is `Misuse`.
A4  A service calls only what its declaration names: `may_call` looks it up in RUNNING, which each service and block sets.

A3 and A4 hold for calls by requirements. A reference to another object, a global or a shared file is not seen here.
"""
import asyncio
import contextvars
import functools
import threading
from typing import Any, Callable, FrozenSet, List, NamedTuple, Optional


class Misuse(RuntimeError):
    """A component does what its declaration doesn't say, so that a change might find it in the middle of something."""


class Unlinked(RuntimeError):
    """The requirement is bound to nothing in the system that stands."""


class Removed(RuntimeError):
    """The component was removed while it waited to begin a root. `heir` is the component that took its state over, if one did."""

    def __init__(self, name: str, heir: Any = None) -> None:
        super().__init__(name)
        self.heir = heir


class Gate:
    """The gate of a requirement at which its owner begins roots. Any thread may use it; it is closed and unlinked at first."""

    __slots__ = ("name", "lock", "count", "begun", "is_open", "is_linked", "removed", "on_idle", "waiting")

    def __init__(self, name: object) -> None:
        self.name, self.lock = name, threading.Lock()
        self.count = 0  # how many roots are under way
        self.begun = 0  # and how many have begun, for those who watch
        self.is_open = self.is_linked = False
        self.removed: Optional[Removed] = None
        self.on_idle: Optional[Callable[[], object]] = None
        self.waiting: List[Callable[[], object]] = []

    def try_enter(self) -> bool:
        """Begins a root where the gate is open."""
        with self.lock:
            if self.is_open:
                self.count += 1
                self.begun += 1
            return self.is_open

    def leave(self) -> None:
        """Ends a root. The last one of a closed gate tells that it is idle."""
        with self.lock:
            self.count -= 1
            told = self.on_idle if self.count == 0 else None
            if told:
                self.on_idle = None
        if told:
            told()

    def close(self, on_idle: Callable[[], object]) -> bool:
        """Closes the gate. Whether it is busy; then `on_idle` is called once it no longer is, by whoever ends the last root."""
        with self.lock:
            self.is_open = False
            self.on_idle = on_idle if self.count else None
            return self.count > 0

    def reopen(self) -> None:
        """Opens the gate, if it leads anywhere: a root at an unlinked requirement is none."""
        with self.lock:
            self.is_open, self.on_idle = self.is_linked, None
            waiting, self.waiting = self.waiting, []
        for wake in waiting:
            wake()

    def remove(self, heir: Any) -> None:
        """Closes the gate for good, as its owner was removed."""
        self.is_linked, self.removed = False, Removed(str(self.name), heir)
        self.reopen()

    def must_wait(self, wake: Callable[[], object]) -> bool:
        """Whether the gate is closed, so that `wake` will be called when it may be open again."""
        with self.lock:
            if self.removed:
                raise Removed(str(self.name), self.removed.heir)
            if not self.is_linked:
                raise Unlinked(str(self.name))
            if not self.is_open:
                self.waiting.append(wake)
            return not self.is_open

    async def enter(self) -> None:
        """Begins a root, when the gate is open."""
        loop = asyncio.get_running_loop()
        while not self.try_enter():
            opened = loop.create_future()
            if self.must_wait(functools.partial(loop.call_soon_threadsafe, settle, opened)):
                await opened

    def enter_from_thread(self) -> None:
        """Begins a root, when the gate is open."""
        while not self.try_enter():
            opened = threading.Event()
            if self.must_wait(opened.set):
                opened.wait()


def settle(future: "asyncio.Future[None]") -> None:
    """Ends the wait for a future, unless who waited has gone."""
    if not future.done():
        future.set_result(None)


class Root:
    """A root under way, with how many of its blocks and services are; `ended` is called when none is any more."""

    __slots__ = ("ended", "lock", "open")

    def __init__(self, ended: Callable[[], None]) -> None:
        self.ended, self.lock, self.open = ended, threading.Lock(), 1

    def hold(self) -> None:
        """Keeps the root open for a service."""
        with self.lock:
            self.must_be_open()
            self.open += 1

    def must_be_open(self) -> None:
        """Refuses a call for a root that has ended."""
        if self.open == 0:
            raise Misuse("a call comes after the end of the root to which it belongs: a task that outlives its service has to be spawned")

    def release(self) -> None:
        """Lets go of what `hold`, or the root's begin, kept open."""
        with self.lock:
            self.open -= 1
            has_ended = self.open == 0
        if has_ended:
            self.ended()


class Running(NamedTuple):
    """What runs in a context: a root, the component that serves or began it, and the names of the requirements that may be called."""

    root: Root
    owner: object
    calls: FrozenSet[str]


RUNNING: "contextvars.ContextVar[Optional[Running]]" = contextvars.ContextVar("tareslater_running", default=None)


def may_begin(name: object) -> None:
    """Refuses a root inside a root: the outer one would wait for the inner one's gate."""
    if RUNNING.get() is not None:
        raise Misuse("%s is begun inside another root, which would wait for its gate" % name)


def may_call(owner: object, requirement: str, name: object) -> Root:
    """The root for which a service of this owner calls a requirement, if its declaration names it."""
    running = RUNNING.get()
    if running is None or running.owner is not owner or requirement not in running.calls:
        raise Misuse("%s is called by no service that declares it" % name)
    return running.root
