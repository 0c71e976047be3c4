"""A system of four processes: a store is replaced by another process again and again, calls outlive their callers, a process dies."""
import asyncio
import contextlib
import os
import pickle
import signal
import tempfile

import far
from small import GRACE, closing, ends, planted, until
from tareslater import sites
from tareslater.remote import Lost, Spread

HELD = ["a.late", "a.odd", "a.store", "a.wait", "f[0].out", "f[1].out"]  # all but a.go and a.waits, which come to no store


@contextlib.asynccontextmanager
async def running(manager):
    path = os.environ.get("PYTHONPATH")
    os.environ["PYTHONPATH"] = os.path.dirname(os.path.abspath(far.__file__))
    system = Spread(far.TEXT, "far:CLASSES", manager, place=far.place, grace=GRACE)
    await system.start("All(0, 0)")
    try:
        yield system
    finally:
        await system.stop()
        os.environ.pop("PYTHONPATH") if path is None else os.environ.update(PYTHONPATH=path)


async def state(system, name, path):
    """The state of a component of another process."""
    return (await system.sites[name].states([path]))[path]


async def waiting_there(asker):
    """A call that the server has taken up, in its process, and which waits there."""
    waiting = asyncio.ensure_future(ends(asker.wait()))
    while not await asker.waits():
        await asyncio.sleep(0.005)
    return waiting


async def try_replaced(tries):
    """A new store by another process, five times under load."""
    async with running(tries.manager) as system:
        pids = set()
        for version in range(1, 6):
            await asyncio.sleep(0.05)
            made = await system.change("All(%d, 0)" % version, within=60, moving={"t": "t"})
            tries.same("what is held over processes", HELD, sorted(made.held))
            pids.add((await system["a"].store())[1])
        tries.same("each store is another process", 5, len(pids))
        tries.same("processes that are left", ["front", "here", "server", "store5"], sorted(system.sites))
        while await state(system, "front", "f[1]") < 20:
            await asyncio.sleep(0.01)
        await until(lambda: system["f[0]"].done > 20)
        for site in system.sites.values():
            await site.rest()
        counts = system["f[0]"].done, await state(system, "front", "f[1]")
        tries.same("what fronts got is in the store", sum(counts), await state(system, "store5", "t"))
        tries.want("both fronts worked", min(counts) >= 20, counts)


async def try_calls(tries):
    """What is raised and what can't be sent; a caller that goes; a service that answers before all is done for it."""
    async with running(tries.manager) as system:
        asker = system["a"]
        tries.same("what is raised there", "KeyError: 'odd'", await ends(asker.odd("raise")))
        tries.same("a task of the service that is cancelled", "RuntimeError: CancelledError()", await ends(asker.odd("cancel")))
        tries.want("an answer that can't be sent", "cannot pickle" in await ends(asker.odd("lock")))
        tries.want("a word that can't be sent", "pickle" in await ends(asker.odd(lambda: 1)))
        (await waiting_there(asker)).cancel()
        came = await ends(system.change("All(1, 0)", within=0.2, moving={"t": "t"}))
        tries.same("a call whose caller has gone is waited for", "GivenUp: still under way: a.wait", came)
        await asker.go()
        await system.change("All(1, 0)", within=60, moving={"t": "t"})
        with tempfile.TemporaryDirectory() as folder:
            file = os.path.join(folder, "go")
            await asker.late(file)
            tries.same("its root is open behind the answer", 1, asker.late.gate.count)
            change = asyncio.ensure_future(system.change("All(2, 0)", within=60, moving={"t": "t"}))
            await closing(system, change, "a.late")
            open(file, "w").close()
            await change
        tries.same("and has ended before the change is made", (0, True), (asker.late.gate.count, (await asker.store())[0] >= 1000000))


async def try_dead(tries):
    """A process that dies: its callers hear that, their roots stay open, until somebody says that they are over."""
    async with running(tries.manager) as system:
        asker = system["a"]
        waiting = await waiting_there(asker)
        os.kill(system.sites["server"].process.pid, signal.SIGKILL)
        tries.want("who waits for a process that dies", (await waiting).startswith("Lost: "))
        tries.want("who calls it then", (await ends(asker.go())).startswith("Lost: "))
        tries.same("the root is open", 1, asker.wait.gate.count)
        came = await ends(system.change("All(1, 0)", within=0.2, moving={"t": "t"}))
        tries.want("a change is given up", came.startswith("GivenUp: still under way: ") and "a.wait" in came, came)
        tries.want("no process has such a name", "is no name of a process" in await ends(system.site("../x")))
        await system.over("server")
        tries.same("it is over", 0, asker.wait.gate.count)
        await system.change("All(1, 1)", within=60, moving={"t": "t"})
        await asker.go()
        tries.same("a new process has its place", 0, await asker.wait())


async def try_haste(tries):
    """A process whose gates say that they are idle at once: its callers' counts show it."""

    async def at_once(site, gates, tell):
        for number, key in gates.items():
            site.roots(key).gate.close(lambda: None)
            tell("closed %d" % number)

    async with running(tries.manager) as system:
        waiting = await waiting_there(system["a"])
        with planted((sites.Site, "close_gates", at_once)):
            came = await ends(system.change("All(1, 0)", within=60, moving={"t": "t"}))
        tries.want("a process that doesn't wait", came.startswith("NotQuiescent: "), came)
        await system["a"].go()
        await waiting


def tries(tries):
    tries.same("what is lost can be told over processes", "gone", str(pickle.loads(pickle.dumps(Lost("gone")))))
    for each in (try_replaced, try_calls, try_dead, try_haste):
        asyncio.run(each(tries))
