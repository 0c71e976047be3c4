"""Roots that are begun in threads and in the loop, services in both, and ten changes meanwhile."""
import asyncio
import contextlib
import threading
import time

from small import LONG, ends, running, until
from tareslater import Begins, Component, Requires, provides


class Crowd(Component):
    """Four threads, and four tasks."""

    out = Begins()

    def __init__(self, version):
        self.lock, self.done, self.going, self.faults = threading.Lock(), 0, True, []

    def ended(self):
        with self.lock:
            self.done += 1

    def thread(self):
        while self.going:
            try:
                self.out.sync(1)
                self.ended()
            except Exception as fault:
                self.faults.append(fault)

    async def task(self):
        while self.going:
            await self.out(1)
            self.ended()

    async def run(self):
        self.threads = [threading.Thread(target=self.thread) for _ in range(4)]
        for thread in self.threads:
            thread.start()
        await asyncio.gather(*(self.task() for _ in range(4)))


class Adder(Component):
    """Adds in two steps, so that what is cut off between them shows. One is a service of the loop."""

    store = Requires()
    log = Requires()

    @provides(store, log, thread=True)
    def add(self, value):
        self.store.sync(value)
        self.log.sync(value)


class Store(Component):
    """Reads, waits, and writes: two writers at once would lose one. So it locks."""

    def __init__(self, version):
        self.lock, self.sum = threading.Lock(), 0

    @provides(thread=True)
    def put(self, value):
        with self.lock:
            seen = self.sum
            time.sleep(0.0002)
            self.sum = seen + value

    def state(self):
        return self.sum

    def take(self, state):
        self.sum = state


class Log(Component):
    """A `def` of the loop, without a lock: threads that call it come to the loop."""

    def __init__(self, version):
        self.sum, self.thread = 0, threading.get_ident()

    @provides()
    def put(self, value):
        assert threading.get_ident() == self.thread
        self.sum += value


TEXT = """component Line(int v) { inst c:Crowd(0); a:Adder(v); s:Store(v); l:Log(0);
  bind c.out -- a.add; a.store -- s.put; a.log -- l.put; }"""


async def try_crowd(tries):
    async with running(tries.manager, TEXT, [Crowd, Adder, Store, Log], "Line(0)") as system:
        for turn in range(1, 11):
            await asyncio.sleep(0.05)
            await system.change("Line(%d)" % turn, within=20, moving={"s": "s"})
        crowd = system["c"]
        crowd.going = False
        await asyncio.get_running_loop().run_in_executor(None, lambda: [thread.join() for thread in crowd.threads])
        await until(lambda: crowd.out.gate.count == 0)
        counts = crowd.done, system["s"].sum, system["l"].sum
        tries.want("eight at once over ten changes: %d each" % crowd.done, len(set(counts)) == 1 and crowd.done > 100, counts)
        tries.same("faults of threads", [], crowd.faults + system.faults)


class Kept(Component):
    out = Begins()


class Stuck(Component):
    """Asks for more threads than there are."""

    last = Requires()

    @provides(last, thread=True)
    def first(self, barrier):
        return self.last.sync(barrier)


class Waits(Component):
    def __init__(self, version):
        self.begun = 0

    @provides(thread=True)
    def last(self, event):
        self.begun += 1
        event.wait(LONG)
        return self.begun


async def try_cancelled(tries):
    """Clients go while their services wait for a thread: these are done all the same, and then the root has ended."""
    text = "component S(int v) { inst k:Kept(0); s:Stuck(0); w:Waits(v); bind k.out -- s.first; s.last -- w.last; }"
    async with running(tries.manager, text, [Kept, Stuck, Waits], "S(0)", threads=2) as system:
        event = threading.Event()
        waits = system["w"]
        clients = [asyncio.ensure_future(system["k"].out(event)) for _ in range(6)]
        await until(lambda: waits.begun == 2)
        for client in clients:
            client.cancel()
        await until(lambda: all(client.done() for client in clients))
        came = await ends(system.change("S(1)", within=0.1))
        tries.same("services whose clients went are waited for", "GivenUp: still under way: k.out", came)
        tries.same("two have threads, four wait for one", 2, waits.begun)
        event.set()
        await system.change("S(1)", within=9)
        tries.same("each was done before the change was made", 6, waits.begun)


async def try_blocks(tries):
    """A block in a thread."""
    text = "component S(int v) { inst k:Kept(0); s:Store(v); bind k.out -- s.put; }"
    async with running(tries.manager, text, [Kept, Store], "S(0)") as system:
        kept = system["k"]

        def work():
            with kept.out.begin() as out:
                for _ in range(3):
                    out.sync(2)
            with contextlib.suppress(AttributeError):
                return kept.out.gate.count

        loop = asyncio.get_running_loop()
        tries.same("a block in a thread has ended", 0, await loop.run_in_executor(None, work))
        tries.same("what it did", 6, system["s"].sum)


def tries(tries):
    for each in (try_crowd, try_cancelled, try_blocks):
        asyncio.run(each(tries))
