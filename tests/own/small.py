"""A small system for tries: a client that never rests, a server, a store with a state, and a caller that begins what it is told to."""
import asyncio
import contextlib
import threading
import time

from tareslater import Begins, Component, Requires, System, provides


class Client(Component):
    """Begins four roots at once, all the time, and counts what ended."""

    out = Begins()

    def __init__(self, version):
        self.done = 0

    async def run(self):
        while True:
            await asyncio.gather(*(self.one() for _ in range(4)))

    async def one(self):
        await self.out(self.done)
        self.done += 1


class Caller(Component):
    """Begins only what a try tells it to."""

    undeclared = Begins()
    detached = Begins()
    slowly = Begins()
    asking = Begins()
    loose = Begins()
    nested = Begins()


class Server(Component):
    """Asks the store, and breaks rules in some of its services."""

    store = Requires()
    other = Requires()
    back = Begins()

    @provides(store, other)
    async def ask(self, value):
        await asyncio.sleep(0.0005)
        return await self.store(value)

    @provides(other)
    async def undeclared(self, value):
        return await self.store(value)

    @provides(store)
    async def detached(self, value):
        async def late():
            await asyncio.sleep(0.01)
            return await self.store(value)

        self.late = asyncio.create_task(late())

    @provides()
    async def nested(self, value):
        return await self.back(value)


class Store(Component):
    """Counts, and fails where a try says so."""

    fails = ""

    def __init__(self, version):
        self.count, self.written = 0, 0

    async def open(self):
        if self.fails == "open" and self.path == "t":
            raise OSError("no room")

    @provides()
    def put(self, value):
        self.count += 1
        return self.count

    @provides(thread=True)
    def write(self, event):
        event.wait(LONG)
        self.written += 1

    def state(self):
        if self.fails == "state":
            raise ValueError("not at hand")
        return self.count, self.written

    def take(self, state):
        if self.fails == "take":
            raise ValueError("not of mine")
        self.count, self.written = state


CLASSES = [Client, Caller, Server, Store]
TEXT = """component Small(int v) {
  inst c:Client(0); r:Caller(0); s:Server(0); t:Store(v);
  bind c.out -- s.ask; s.store -- t.put; s.other -- t.put;
       r.undeclared -- s.undeclared; r.detached -- s.detached; r.slowly -- t.write; r.asking -- s.ask; r.nested -- s.nested;
}
"""


GRACE = 60  # seconds for managers that are slow, as the plain statements are on a busy machine
LONG = 600  # and so many nothing here lasts


@contextlib.asynccontextmanager
async def running(manager, text=TEXT, classes=CLASSES, call="Small(0)", **words):
    """A system that is stopped at the end."""
    system = System(text, classes, manager, **{"grace": GRACE, **words})
    await system.start(call)
    await asyncio.sleep(0.02)
    try:
        yield system
    finally:
        await system.stop()


async def ends(work):
    """How a piece of work ends: `answered ..`, or the name of what is raised and its text."""
    try:
        return "answered %r" % (await work,)
    except Exception as fault:
        return "%s: %s" % (type(fault).__name__, fault)


async def changed(system, call="Small(1)", **words):
    """How a change ends: `made`, or what is raised; and then the system has to be the one before, to go on, and to have lost nothing."""
    placed, store = system.placed, system["t"]
    try:
        await system.change(call, **{"within": 0.3, "moving": {"t": "t"}, **words})
    except Exception as fault:
        return "%s: %s; %s" % (type(fault).__name__, fault, await goes_on(system, placed, store))
    return "made"


async def goes_on(system, placed, store):
    """Whether the system is that which it was, its traffic goes on, all gates are open, and nothing is lost."""
    before = system["c"].done
    is_going = await until(lambda: system["c"].done > before)
    if system.placed is not placed or system["t"] is not store:
        return "ANOTHER SYSTEM STANDS"
    return "goes on as before" if is_going else "NOTHING GOES ON"


async def until(holds):
    """Waits until this holds; whether it does."""
    end = time.monotonic() + GRACE
    while not holds() and time.monotonic() < end:
        await asyncio.sleep(0.002)
    return holds()


async def closing(system, change, *paths):
    """Waits until a change that was begun has closed the gates of these requirements, or has ended."""
    gates = [system[path]._handles[name].gate for path, name in (path.split(".") for path in paths)]
    await until(lambda: change.done() or not any(gate.is_open for gate in gates))


@contextlib.asynccontextmanager
async def writing(system):
    """A write by the store is under way, in a thread, until the event that is given is set, or to the end of the block."""
    event = threading.Event()
    work = asyncio.ensure_future(system["r"].slowly(event))
    await asyncio.sleep(0.02)
    try:
        yield event
    finally:
        event.set()
        await asyncio.wait([work])


@contextlib.contextmanager
def planted(*changes):
    """Puts faults in the place of what is right, each as (where, name, fault)."""
    kept = [(where, name, where.__dict__[name]) for where, name, _ in changes]
    for where, name, fault in changes:
        setattr(where, name, fault)
    try:
        yield
    finally:
        for where, name, right in kept:
            setattr(where, name, right)
