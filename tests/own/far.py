"""Components for several processes, and where each is."""
import asyncio
import contextlib
import os
import threading

from tareslater import Begins, Component, Requires, provides
from tareslater.remote import Lost


class Front(Component):
    """Eight roots at once, all the time."""

    out = Begins()

    def __init__(self, version):
        self.done = 0

    async def run(self):
        await asyncio.gather(*(self.again() for _ in range(8)))

    async def again(self):
        with contextlib.suppress(Lost):
            while True:
                got = await self.out(1)
                self.done += got

    def state(self):
        return self.done


class Asker(Component):
    """Begins what a try tells it to."""

    store = Begins()
    wait = Begins()
    waits = Begins()
    go = Begins()
    late = Begins()
    odd = Begins()


class Server(Component):
    store = Requires()
    slow = Requires()

    @provides(store)
    async def serve(self, value):
        return await self.store(value)

    def __init__(self, version):
        self.event, self.waiting = asyncio.Event(), 0

    @provides(store)
    async def wait(self):
        """Waits until `go` is called."""
        self.waiting += 1
        await self.event.wait()
        return await self.store(0)

    @provides()
    def waits(self):
        """How many have begun to wait."""
        return self.waiting

    @provides()
    def go(self):
        self.event.set()

    @provides(store, slow)
    async def late(self, file):
        """Answers before what it began is done."""
        await self.store(0)  # so that the store is connected
        self.rest = asyncio.ensure_future(self.slow(file))
        await asyncio.sleep(0)


class Store(Component):
    """Reads, waits, and writes, under a lock."""

    def __init__(self, version):
        self.sum, self.lock = 0, asyncio.Lock()

    @provides()
    async def put(self, value):
        async with self.lock:
            seen = self.sum
            await asyncio.sleep(0)
            self.sum = seen + value
        return value

    @provides()
    async def slow(self, file):
        """Lasts until there is a file of this name."""
        while not os.path.exists(file):
            await asyncio.sleep(0.005)
        self.sum += 1000000

    @provides(thread=True)
    def sum_of(self):
        return self.sum, os.getpid()

    @provides()
    def odd(self, how):
        if how == "raise":
            raise KeyError("odd")
        if how == "cancel":
            raise asyncio.CancelledError()
        return threading.Lock()

    def state(self):
        return self.sum

    def take(self, state):
        self.sum = state


CLASSES = [Front, Asker, Server, Store]
TEXT = """component All(int v, int w) {
  array f[2]:Front(0);
  inst a:Asker(0); s:Server(w); t:Store(v);
  forall i:0..1 { inst f[i]; bind f[i].out -- s.serve; }
  bind s.store -- t.put; s.slow -- t.slow; a.store -- t.sum_of; a.wait -- s.wait; a.waits -- s.waits; a.go -- s.go; a.late -- s.late; a.odd -- t.odd;
}"""


def place(path, instance):
    """The server and the stores are processes of their own, and one front."""
    return {"t": "store%d" % instance.integers[0], "s": "server", "f[1]": "front"}.get(path, "here")
