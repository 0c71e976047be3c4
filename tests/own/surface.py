"""What a component and its user can do, and what each misuse comes to."""
import asyncio
import contextvars
import threading

from small import CLASSES, changed, closing, ends, running, until, writing
from tareslater import Begins, Component, Misuse, Removed, Requires, System, provides

LEAST = """component Small(int v) { inst c:Client(0); r:Caller(0); s:Server(0); t:Store(v); bind c.out -- s.ask; s.store -- t.put; s.other -- t.put; }
"""


async def try_changes(tries):
    """A store is replaced by the next version, with its count, again and again, and each root is there."""
    async with running(tries.manager) as system:
        client = system["c"]
        for version in (1, 2, 3):
            await asyncio.sleep(0.05)
            made = await system.change("Small(%d)" % version, moving={"t": "t"})
            tries.same("what is held", ["c.out", "r.asking", "r.detached", "r.slowly", "r.undeclared"], sorted(made.held))
            tries.want("times", 0 < made.waited_seconds <= made.held_seconds <= made.seconds, made[:4])
        tries.want("work goes on", await until(lambda: client.done > 10), client.done)
        store = system["t"]
    tries.same("nothing is cut off, also at the end", client.done, store.count)


async def try_plan(tries):
    async with running(tries.manager) as system:
        plan = await system.plan("Small(1)")
        held = ["c.out", "r.asking", "r.detached", "r.slowly", "r.undeclared"]
        tries.same("a plan", (held, ["t"], ["t"], [], [], ["t"]), tuple(plan))
        tries.same("what it moves", (["t"], []), (await system.plan("Small(1)", moving={"t": "t"}))[4:])
        made = await system.change("Small(1)", moving={"t": "t"})
        tries.same("the change holds what the plan says", sorted(plan.held), sorted(made.held))
        tries.same("a plan of nothing", ([], [], [], [], [], []), tuple(await system.plan("Small(1)")))
        nothing = await system.change("Small(1)")
        tries.same("a change of nothing", ([], 0, 0), nothing[:3])


async def try_misuses(tries):
    async with running(tries.manager) as system:
        caller, server = system["r"], system["s"]
        tries.same("undeclared", "Misuse: s.store is called by no service that declares it", await ends(caller.undeclared(1)))
        await caller.detached(1)
        late = "Misuse: a call comes after the end of the root to which it belongs: a task that outlives its service has to be spawned"
        tries.same("a task that outlives its service", late, await ends(server.late))
        tries.same("a root inside a root", "Misuse: s.back is begun inside another root, which would wait for its gate", await ends(caller.nested(1)))
        tries.same("nothing is bound", "Unlinked: r.loose", await ends(caller.loose(1)))
        tries.same("a call outside of any service", "Misuse: s.store is called by no service that declares it", await ends(server.store(1)))
        async with caller.asking.begin() as asking:
            tries.same("within a block", "Misuse: a change is asked for inside a root, for whose end it might wait", await ends(system.change("Small(1)")))
            tries.want("a block's call", isinstance(await asking(1), int))
        tries.same("behind the block", late, await ends(asking(1)))
        try:
            caller.asking.sync(1)
            tries.want("sync in the loop", False)
        except Misuse as fault:
            tries.same("sync in the loop", "r.asking.sync is called in the loop, which it would stop: `await r.asking(..)`", str(fault))
        other = await asyncio.get_running_loop().run_in_executor(None, lambda: asyncio.run(ends(caller.asking(1))))
        tries.same("another loop", "Misuse: r.asking is begun in another loop than its component's", other)
        tries.same("all of these have ended", "made", await changed(system))


async def try_refusals(tries):
    async with running(tries.manager, LEAST) as system:
        rows = [
            ("a state would be lost", "Small(1)", {"moving": {}}, "WouldLose: t"),
            ("no such component", "Nothing(1)", {}, "Refused: description FILE: NoTop Nothing"),
            ("too few integers", "Small", {}, "Refused: description FILE: TopArgs 1 0"),
            ("no call", "Small(", {}, "ValueError: 'Small(' is no call of a component, as `Shop(2)`"),
            ("who stays can't hand over", "Small(1)", {"moving": {"s": "t"}}, "Refused: moving s -> t: the first has to be removed, and the second to be made"),
            ("to whom isn't made", "Small(1)", {"moving": {"t": "s"}}, "Refused: moving t -> s: the first has to be removed, and the second to be made"),
        ]
        for name, call, words, wanted in rows:
            came = (await changed(system, call, **words)).replace(system.file, "FILE")
            tries.same(name, wanted + "; goes on as before", came)
        tries.same("what may be lost is named", "made", await changed(system, moving={}, losing=["t"]))


async def try_given_up(tries):
    """A root that lasts longer than the change may take; then time enough. A client that goes leaves its thread to be waited for."""
    async with running(tries.manager) as system:
        event, loop, store = threading.Event(), asyncio.get_running_loop(), system["t"]
        work = asyncio.ensure_future(system["r"].slowly(event))
        await until(lambda: store._serving)
        work.cancel()
        await asyncio.sleep(0)
        tries.same("too short", "GivenUp: still under way: r.slowly; goes on as before", await changed(system, within=0.1))
        loop.call_later(1, event.set)
        tries.same("long enough", "made", await changed(system, within=20))
        tries.same("the write is there", 1, system["t"].written)
        async with writing(system):
            change = asyncio.ensure_future(changed(system, "Small(2)", within=60))
            await closing(system, change, "r.slowly")
            tries.want("cancelled while it waits", not change.done() and not system["r"].slowly.gate.is_open and change.cancel())
            await asyncio.wait([change])
        tries.same("after a change that was cancelled", "made", await changed(system, "Small(3)"))


async def try_sessions(tries):
    """What was told is told once more, all at once: the manager says the same."""
    async with running(tries.manager) as system:
        old = system.call
        for within, call in ((9, "Small(1)"), (20, "Small(2)")):
            async with writing(system) as event:
                changing = asyncio.ensure_future(system.change(call, within=within, moving={"t": "t"}))
                await closing(system, changing, "r.slowly")
                await until(lambda: changing.done() or "> round" in system.under_way.change.session.lines)
                event.set()
                made = await changing
            said = "".join(line[2:] + "\n" for line in made.lines if line.startswith("> "))
            process = await asyncio.create_subprocess_exec(
                *tries.manager, "apply", "20", system.file, *old, "--", *system.call, stdin=asyncio.subprocess.PIPE, stdout=asyncio.subprocess.PIPE
            )
            text, _ = await process.communicate(said.encode())
            tries.same("a session said once more", [line for line in made.lines if not line.startswith("> ")], text.decode().splitlines())
            old = system.call


# ---- arrays


class Spread(Component):
    """Begins by turns at as many requirements as it has."""

    out = Begins(size="n")

    def __init__(self, version, n):
        self.n = n

    async def run(self):
        while True:
            for out in self.out:
                await out(1)
            await asyncio.sleep(0.001)


class Pool(Component):
    workers = Requires(size="n")
    log = Requires()

    def __init__(self, version, n):
        self.first = n * 100

    @provides(workers, log, size="n")
    async def pick(self, index, value):
        await self.log(value)
        return await self.workers[index](value)


class Worker(Component):
    def __init__(self, version):
        self.count = 0

    @provides()
    def work(self, value):
        self.count += 1

    def state(self):
        return self.count

    def take(self, state):
        self.count = state


ROWS = """component Row(int n) {
  inst s:Spread(1, n); p:Pool(1, n); l:Worker(9); array w[n]:Worker(1);
  bind p.log -- l.work;
  forall i:0..n - 1 { inst w[i]; bind s.out[i] -- p.pick[i]; p.workers[i] -- w[i].work; }
}"""


def counted(system, count):
    """How often that of so many workers has worked which did least."""
    return min(system["w[%d]" % index].count for index in range(count))


async def try_arrays(tries):
    async with running(tries.manager, ROWS, [Spread, Pool, Worker], "Row(3)") as system:
        await until(lambda: counted(system, 3) > 1)
        plan = await system.plan("Row(5)")
        tries.same("a longer row", (["s.out[0]", "s.out[1]", "s.out[2]"], ["p", "s"], ["p", "s", "w[3]", "w[4]"]), (plan[0], sorted(plan[1]), sorted(plan[2])))
        await system.change("Row(5)")
        tries.same("integers of its own", (500, 5, 5), (system["p"].first, len(system["p"].workers), len(system["s"].out)))
        await until(lambda: counted(system, 5) > 0)
        rows = [system["w[%d]" % index].count for index in range(5)]
        tries.want("each worker works, the old ones longer", min(rows) > 0 and min(rows[:3]) > max(rows[3:]), rows)
        tries.same("a shorter row would lose", ["w[2]", "w[3]", "w[4]"], sorted((await system.plan("Row(2)")).lost))
        log = system["l"].count
        await system.change("Row(2)", losing=["w[2]", "w[3]", "w[4]"])
        tries.want("and goes on", system["l"].count >= log and len(system["s"].out) == 2)
        await system.change("Row(0)", losing=["w[0]", "w[1]"])
        tries.same("a row of nothing", ["l", "p", "s"], sorted(system.components))
    tries.same("no fault of `run`", [], system.faults)


# ---- in parts


class Lane(Component):
    """Begins all the time; its own version doesn't matter."""

    out = Begins()

    def __init__(self, version):
        self.done = 0

    async def run(self):
        while True:
            await self.out(1)
            self.done += 1
            await asyncio.sleep(0.001)


class Works(Component):
    """Works for a lane, by a store of its own."""

    store = Requires()
    log = Requires()

    @provides(store, log)
    async def work(self, value):
        await self.log(value)
        return await self.store(value)


LANES = """component Lanes(int v) {
  inst l:Worker(0); array lane[3]:One(v, 0);
  forall i:0..2 { inst lane[i](v, i); bind lane[i].log -- l.work; }
}
component One(int v, int i) {
  require log;
  inst f:Lane(0); w:Works(v); array s[2]:Worker(v); inst s[i % 2];
  bind f.out -- w.work; w.store -- s[i % 2].work; w.log -- log;
}"""


async def try_parts(tries):
    """Three lanes that share a log are changed one after the other, each with its store."""
    classes = [Lane, Works, Worker]
    stores = ["lane[%d].s[%d]" % (at, at % 2) for at in range(3)]
    lanes = ["lane[%d].f" % at for at in range(3)]
    async with running(tries.manager, LANES, classes, "Lanes(1)") as system:
        whole = await system.plan("Lanes(2)")
        tries.same("at once all lanes are held", [lane + ".out" for lane in lanes], whole.held)
        made = await system.change("Lanes(2)", within=5, moving=dict(zip(stores, stores)), by_parts=True)
        changes = [line for line in made.lines if line.startswith("change ")]
        tries.same("three changes, to systems between", ["change between_0()", "change between_1()", "change Lanes(2)"], changes)
        tries.same("held in all", [lane + ".out" for lane in lanes], made.held)
        tries.same("one gate at once", [1, 1, 1], held_at_once(made.lines))
        tries.same("the system that was asked for", ["Lanes", "2"], system.call)
        held = await system.change("Lanes(3)", within=5, moving={stores[0]: stores[1], stores[1]: stores[0], stores[2]: stores[2]}, by_parts=True)
        tries.same("states that go crosswise keep two lanes together", [2, 1], sorted(held_at_once(held.lines), reverse=True))
        tries.want("refused as a whole", (await ends(system.change("Lanes(4)", by_parts=True))).startswith("WouldLose: "))
        await system.here.rest()
        done = sum(system[lane].done for lane in lanes)
        tries.same("nothing is lost", (done, done), (sum(system[store].count for store in stores), system["l"].count))


def held_at_once(lines):
    """How many gates each session closed: ports at which something was begun, so that it isn't closed at once."""
    counts = []
    for line in lines:
        if line.startswith("start "):
            sources, counts = {}, counts + [0]
            ports = 0
        words = line.split(" ")
        if words[0] == "make":
            names = {"source": 1, "map": 1, "place": 2}.get(words[3].split("(")[0], 0)
            sources.update({str(ports + at): words[3].startswith("source") for at in range(names)})
            ports += names
        if words[0] == "close" and sources[words[1]]:
            counts[-1] += 1
    return counts


# ---- side by side


class Old(Component):
    @provides()
    async def fast(self):
        return "old"

    @provides()
    async def slow(self, event):
        await event.wait()
        return "old"


class New(Component):
    @provides()
    async def fast(self):
        return "new"

    @provides()
    async def slow(self, event):
        return "new"


class Asker(Component):
    fast = Begins()
    slow = Begins()


BOTH = """component Way(int v) {
  inst a:Asker(0);
  when v < 3 { inst o:Old(0); bind a.slow -- o.slow; }
  when v < 2 bind a.fast -- o.fast;
  when v > 1 { inst n:New(0); bind a.fast -- n.fast; }
  when v > 2 bind a.slow -- n.slow;
}"""


async def try_side_by_side(tries):
    async with running(tries.manager, BOTH, [Asker, Old, New], "Way(1)") as system:
        asker = system["a"]
        event = asyncio.Event()
        slow = asyncio.ensure_future(asker.slow(event))
        await asyncio.sleep(0.02)
        way = asyncio.ensure_future(system.side_by_side("Way(2)", "Way(3)", within=0.3))
        while not way.done() and await asker.fast() == "old":
            await asyncio.sleep(0.005)
        tries.want("fast ones are served by the new one while the slow one is under way", not slow.done() and not way.done())
        event.set()
        first, second = await way
        tries.same("what each step held", (["a.fast"], ["a.slow"]), (first.held, second.held))
        tries.same("the slow one ended where it was", "old", await slow)
        tries.same("and then all is new", ("new", "new", ["a", "n"]), (await asker.fast(), await asker.slow(event), sorted(system.components)))


# ---- a removed component


async def try_removed(tries):
    """Who waits at the gate of a component that is removed hears that, and of whom took over."""
    text = "component Pair(int v) { inst k:Keeper(v); t:Store(0); bind k.out -- t.put; }"

    class Keeper(Component):
        out = Begins()

        def state(self):
            return 0

        def take(self, state):
            self.taken = state

    async with running(tries.manager, text, [Keeper, CLASSES[3]], "Pair(1)") as system:
        old = system["k"]
        async with old.out.begin():
            change = asyncio.ensure_future(asyncio.shield(outside(system.change("Pair(2)", within=9, moving={"k": "k"}))))
            while old.out.gate.is_open:
                await asyncio.sleep(0.01)
            waiting = asyncio.ensure_future(outside(old.out(1)))
            await asyncio.sleep(0.02)
        await change
        try:
            await waiting
            tries.want("a gate of what is removed", False)
        except Removed as removed:
            tries.want("a gate of what is removed", removed.heir is system["k"] and str(removed) == "k.out" and old.heir is system["k"], removed)
            tries.same("the heir begins", 1, await removed.heir.out(1))


async def try_ends(tries):
    """Before the start, after the end, and in a description with nodes of other kinds."""
    system = System(ROWS, [Spread, Pool, Worker], tries.manager)
    tries.same("a change before the start", "RuntimeError: the system isn't started, or it is stopped", await ends(system.change("Row(1)")))
    came = await ends(system.start("None_such"))
    tries.want("a start that fails", came.startswith("Refused: description ") and came.endswith(": NoTop None_such"), came)
    await system.start("Row(1)")
    spread = system["s"]
    await system.here.rest()
    waiting = asyncio.ensure_future(ends(spread.out[0](1)))
    await asyncio.sleep(0.02)
    await system.stop()
    tries.same("who waits at a gate when all ends", "Removed: s.out[0]", await waiting)
    tries.same("a plan after the end", "RuntimeError: the system isn't started, or it is stopped", await ends(system.plan("Row(1)")))
    again = "RuntimeError: the system was started before: a further one is a System of its own"
    tries.same("a second start", again, await ends(system.start("Row(1)")))
    text = "component sink { provide in; } component Odd { inst s:sink; }"
    odd = System(text, [Worker], tries.manager)
    tries.same("a node of another kind", "Undescribable: s sink() is no node of one's own components", await ends(odd.start("Odd")))


def outside(work):
    """A task of no root."""
    return contextvars.Context().run(asyncio.get_running_loop().create_task, work)


TRIES = [try_changes, try_plan, try_misuses, try_refusals, try_given_up, try_sessions, try_arrays, try_parts, try_side_by_side, try_removed, try_ends]


def tries(tries):
    for each in TRIES:
        asyncio.run(each(tries))
