"""A front that holds a socket hands it over: clients stay connected, and each line is answered."""
import asyncio

from small import running, until
from tareslater import Begins, Component, Removed, provides


class Front(Component):
    """Answers lines. Its successor gets the socket on which it listens; a connection goes over when its next line is refused here."""

    out = Begins()

    def __init__(self, version):
        self.version, self.listening = version, None

    async def run(self):
        if self.listening is None:
            server = await asyncio.start_server(self.client, "127.0.0.1", 0)
        else:
            server = await asyncio.start_server(self.client, sock=self.listening)
        self.server, self.listening = server, server.sockets[0]

    async def client(self, reader, writer):
        front = self
        while line := await reader.readline():
            while True:
                try:
                    answer = await front.out(int(line))
                    break
                except Removed as removed:
                    front = removed.heir
            writer.write(b"%d by %d\n" % (answer, front.version))
        writer.close()

    def state(self):
        return self.listening.dup()

    def take(self, state):
        self.listening = state

    async def close(self, owns):
        if hasattr(self, "server"):
            self.server.close()


class Echo(Component):
    def __init__(self, version):
        self.count = 0

    @provides()
    async def put(self, value):
        await asyncio.sleep(0.001)
        self.count += 1
        return value


async def client(port, told, going):
    """Asks over one connection, and another for each tenth line."""
    reader, writer = await asyncio.open_connection("127.0.0.1", port)
    for number in range(1, 100000):
        if not going:
            break
        if number % 10 == 0:
            writer.close()
            reader, writer = await asyncio.open_connection("127.0.0.1", port)
        writer.write(b"%d\n" % number)
        answer, _, by = (await reader.readline()).decode().split()
        assert int(answer) == number
        told.append(int(by))
    writer.close()


async def try_front(tries):
    text = "component S(int v) { inst f:Front(v); e:Echo(0); bind f.out -- e.put; }"
    async with running(tries.manager, text, [Front, Echo], "S(0)") as system:
        port = system["f"].listening.getsockname()[1]
        told, going = [], [True]
        clients = [asyncio.ensure_future(client(port, told, going)) for _ in range(20)]
        for version in range(1, 6):
            await until(lambda: version - 1 in told)
            await system.change("S(%d)" % version, within=20, moving={"f": "f"})
        await until(lambda: version in told)
        going.clear()
        ended = await asyncio.gather(*clients, return_exceptions=True)
        tries.same("what clients met", [], [fault for fault in ended if fault])
        tries.same("each line was answered once", len(told), system["e"].count)
        tries.same("by each front in its turn", [0, 1, 2, 3, 4, 5], sorted(set(told)))
        tries.same("faults", [], system.faults)


def tries(tries):
    asyncio.run(try_front(tries))
