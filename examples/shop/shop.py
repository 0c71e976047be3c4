"""A shop: eight components with sockets, a database, a file that is synced, and a process of their own."""
import asyncio
import collections
import hashlib
import json
import os
import sqlite3
import sys
import threading
import time

from load import UNLUCKY
from tareslater import Begins, Component, Requires, provides

ON_SHELF = 100000


class Front(Component):
    """Serves clients over TCP. Each line is a request, in JSON, and a root of its own."""

    search = Begins()
    order = Begins()
    report = Begins()

    async def open(self):
        self.server = await asyncio.start_server(self.client, "127.0.0.1", 0)
        self.port = self.server.sockets[0].getsockname()[1]

    async def client(self, reader, writer):
        roots = {"search": self.search, "order": self.order, "report": self.report}
        while line := await reader.readline():
            request = json.loads(line)
            try:
                answer = await roots[request["do"]](**request["with"])
            except Exception as fault:  # a service failed: an answer all the same
                answer = {"fault": repr(fault)}
            writer.write(json.dumps(answer).encode() + b"\n")
        writer.close()

    async def close(self, owns):
        self.server.close()


class Catalog(Component):
    """What clients ask for."""

    cache = Requires()
    stock = Requires()
    scan = Requires()
    journal = Requires()
    mail = Requires()
    audit = Requires()

    @provides(cache)
    async def search(self, item):
        return {"item": item, "price": await self.cache(item), "by": self.version}

    @provides(stock, journal, mail, audit)
    async def order(self, number, item, count):
        if count == UNLUCKY:
            raise ValueError("unlucky")
        if not await self.stock(number, item, count):
            return {"ok": False}
        audited = self.audit.linked
        await asyncio.gather(self.journal(number, item, count, audited), self.mail(number))
        if audited:
            await self.audit(number)
        return {"ok": True}

    @provides(scan)
    async def report(self, seconds):
        return await self.scan(seconds)


class Cache(Component):
    """Prices, of which it keeps what was asked for."""

    prices = Requires()

    def __init__(self, version):
        self.kept = {}

    @provides(prices)
    async def get(self, item):
        if item not in self.kept:
            self.kept[item] = await self.prices(item)
        return self.kept[item]


class Stock(Component):
    """What is sold of each item, and a database into which it writes orders a batch at a time: until then it keeps them."""

    file = "orders.db"

    def __init__(self, version, batch):
        self.batch, self.lock = batch, threading.Lock()
        self.sold, self.unwritten = collections.Counter(), []

    async def open(self):
        self.database = sqlite3.connect(self.file, check_same_thread=False, isolation_level=None)
        self.database.execute("create table if not exists orders (number integer, item integer, count integer)")

    def write(self, rows):
        self.database.execute("begin")
        self.database.executemany("insert into orders values (?, ?, ?)", rows)
        self.database.execute("commit")

    @provides()
    def price(self, item):
        return 100 + item

    @provides(thread=True)
    def reserve(self, number, item, count):
        with self.lock:
            if self.sold[item] + count > ON_SHELF:
                return False
            self.sold[item] += count
            self.unwritten.append((number, item, count))
            if len(self.unwritten) >= self.batch:
                rows, self.unwritten = self.unwritten, []
                self.write(rows)
            return True

    @provides(thread=True)
    def scan(self, seconds):
        time.sleep(seconds)
        return {"sold": sum(self.sold.values())}

    def state(self):
        return self.sold.copy(), list(self.unwritten)

    def take(self, state):
        self.sold, self.unwritten = state

    async def close(self, owns):
        if owns:
            self.write(self.unwritten)
        self.database.close()


class Journal(Component):
    """A file with a line for each order, which is on the disk when it answers."""

    file = "journal.txt"

    async def open(self):
        self.handle = os.open(self.file, os.O_WRONLY | os.O_CREAT | os.O_APPEND)

    @provides(thread=True)
    def append(self, number, item, count, audited):
        os.write(self.handle, b"%d %d %d %d\n" % (number, item, count, audited))
        os.fdatasync(self.handle)

    async def close(self, owns):
        os.close(self.handle)


class Mail(Component):
    """Mails that are to be sent, several at a time."""

    post = Begins()

    def __init__(self, version, batch):
        self.batch, self.queue, self.filled = batch, collections.deque(), asyncio.Event()

    @provides()
    def put(self, number):
        self.queue.append(number)
        self.filled.set()

    async def run(self):
        while True:
            if not self.queue:
                self.filled.clear()
                await self.filled.wait()
            async with self.post.begin() as post:  # what is at hand is taken and dropped within the root
                batch = list(self.queue)[: self.batch]
                if batch and await post(batch):
                    self.sent(len(batch))

    def sent(self, count):
        for _ in range(count):
            self.queue.popleft()

    def state(self):
        return list(self.queue)

    def take(self, state):
        self.queue.extend(state)
        self.filled.set()


class Post(Component):
    """Gives mails to a process of its own, and waits until that has written them down."""

    file = "mailbox.txt"
    program = "import sys\nfor line in sys.stdin:\n    open(sys.argv[1], 'a').write(line)\n    print('taken', flush=True)\n"

    async def open(self):
        pipe = asyncio.subprocess.PIPE
        self.process = await asyncio.create_subprocess_exec(sys.executable, "-c", self.program, self.file, stdin=pipe, stdout=pipe)

    @provides()
    async def send(self, numbers):
        self.process.stdin.write(" ".join(map(str, numbers)).encode() + b"\n")
        return await self.process.stdout.readline() == b"taken\n"

    async def close(self, owns):
        self.process.stdin.close()
        await self.process.wait()


class Audit(Component):
    """Counts what it is told, and keeps a sum of it."""

    def __init__(self, version):
        self.count, self.digest = 0, hashlib.sha256()

    @provides()
    def note(self, number):
        self.count += 1
        self.digest.update(b"%d\n" % number)

    def state(self):
        return self.count, self.digest.copy()

    def take(self, state):
        self.count, self.digest = state


COMPONENTS = [Front, Catalog, Cache, Stock, Journal, Mail, Post, Audit]
