"""Faults that are planted in the package, in a small system, and what catches each.

Each is met for certain, on a busy machine too: a write that a row began ends when the row says so, and not after a time.
"""
import asyncio
import contextlib
import os
import sys
import tempfile
import threading

from small import Client, Store, changed, closing, ends, planted, running, until, writing
from tareslater import Begins, Component, Requires, changes, components, gates, provides, session, sites
from tareslater.gates import RUNNING, Running


def leaking(gate):
    """A gate that holds nobody."""
    with gate.lock:
        gate.count += 1
        return True


def close_without_waiting(site, roots, number, tell):
    """Says that a gate is closed, and not that it is busy."""
    roots.gate.close(lambda: None)
    tell("closed %d" % number)


def left_out(word):
    """Says everything but lines of this word."""
    say = session.Session.say
    return lambda self, line: None if line.startswith(word) else say(self, line)


def told_twice(self, line):
    """Says each closed gate twice."""
    for _ in range(2 if line.startswith("closed") else 1):
        self.loop.call_soon_threadsafe(self.put, line)


def idle_at_once(site, roots, number, tell):
    """Says at once that a busy gate is idle."""
    if roots.gate.close(lambda: None):
        tell("busy %d" % number)
        tell("idle %d" % number)
    tell("closed %d" % number)


def said(tries, name, wanted, came):
    """How a change ended: it was made, or began with one of these, and then all goes on as before."""
    tries.want(name, any(came.startswith(one) for one in wanted) and (came == "made" or came.endswith("; goes on as before")), came)


async def with_slow_root(tries, name, faults, wanted):
    """A change while a write is under way, which it touches, and which lasts longer than it; how it ends, and that the write isn't cut off."""
    with planted(*faults):
        async with running(tries.manager) as system:
            async with writing(system):
                came = await changed(system)
    said(tries, name, wanted, came)


async def with_root_that_ends(tries, name, faults, wanted, within):
    """The same, and the write ends once its gate is closed."""
    with planted(*faults):
        async with running(tries.manager) as system:
            async with writing(system) as event:
                changing = asyncio.ensure_future(changed(system, within=within))
                await closing(system, changing, "r.slowly")
                event.set()
                came = await changing
    said(tries, name, wanted, came)


async def with_root_behind(tries, name, faults, wanted, within):
    """The same, and another write begins then, before the first one ends: where the gate holds, it waits until the change was made."""
    with planted(*faults):
        async with running(tries.manager) as system:
            async with writing(system) as first:
                changing = asyncio.ensure_future(changed(system, within=within))
                await closing(system, changing, "r.slowly")
                async with writing(system):
                    first.set()
                    came = await changing
    said(tries, name, wanted, came)


async def with_root_at_last(tries, name, faults, wanted):
    """A write begins once the manager has said `ready`, right before the package counts: where the gate holds, it waits."""
    count, has_begun = changes.Change.judge, False
    async with running(tries.manager) as system:
        async with contextlib.AsyncExitStack() as stack:

            async def late(change):
                nonlocal has_begun
                if not has_begun:
                    has_begun = True
                    await stack.enter_async_context(writing(system))
                await count(change)

            with planted((changes.Change, "judge", late), *faults):
                came = await changed(system, within=20)
    said(tries, name, wanted, came)


async def try_gates(tries):
    rows = [
        ("nothing is wrong", [], ["GivenUp: still under way: r.slowly"]),
        ("a close isn't waited for", [(sites.Site, "close_gate", close_without_waiting)], ["NotQuiescent: t, "]),
        ("`idle` comes at once", [(sites.Site, "close_gate", idle_at_once)], ["NotQuiescent: t, "]),
        ("`busy` is left out", [(session.Session, "say", left_out("busy"))], ["NotQuiescent: t, ", "Refused: denied "]),
        ("`closed` comes twice", [(session.Session, "say", told_twice)], ["Refused: bad "]),
        ("a gate isn't closed", [(gates.Gate, "close", lambda gate, on_idle: False)], ["NotQuiescent: "]),
    ]
    for name, faults, wanted in rows:
        await with_slow_root(tries, name, faults, wanted)
    rows = [
        ("all is told", [], ["made"], 20),
        ("`idle` is left out", [(session.Session, "say", left_out("idle"))], ["GivenUp: still under way: "], 0.5),
        ("`closed` is left out", [(session.Session, "say", left_out("closed"))], ["GivenUp: "], 0.5),
    ]
    for row in rows:
        await with_root_that_ends(tries, *row)
    leak = [(gates.Gate, "try_enter", leaking)]
    await with_root_behind(tries, "the gate holds", [], ["made"], 20)
    await with_root_behind(tries, "the gate doesn't hold", leak, ["GivenUp: still under way: r.slowly"], 0.5)
    await with_root_at_last(tries, "the gate holds at last", [], ["made"])
    await with_root_at_last(tries, "the gate doesn't hold at last", leak, ["NotQuiescent: t, "])


def counted_in(target, root):
    """Counts a service, and doesn't keep its root open."""
    with target.owner._lock:
        target.owner._serving += 1
    return RUNNING.set(Running(root, target.owner, target.calls))


def counted_out(target, root):
    with target.owner._lock:
        target.owner._serving -= 1


class Sly(Component):
    """A service that calls more than it declares."""

    store = Requires()
    other = Requires()
    out = Begins()

    @provides(other)
    async def sly(self, event):
        return await self.store(event)

    @provides(store)
    async def open_handed(self, event):
        return await self.store(event)


async def try_premises(tries):
    """A root that ends with its caller (A3), and calls that aren't declared (A4): the package's count finds the store in the middle."""
    early = [(components.Target, "count_in", counted_in), (components.Target, "count_out", counted_out)]
    with planted(*early):
        async with running(tries.manager) as system:
            event = threading.Event()
            store = system["t"]
            work = asyncio.ensure_future(system["r"].slowly(event))
            await until(lambda: store._serving)
            work.cancel()
            came = await changed(system)
            event.set()
            await until(lambda: not store._serving)
    tries.same("a root ends with its caller", "NotQuiescent: t; goes on as before", came)
    text = "component Small(int v) { inst c:Client(0); s:Sly(0); t:Store(v); bind s.out -- s.sly; s.store -- t.write; c.out -- t.put; }"
    for faults, first, wanted in [
        ([], "Misuse: s.store is called by no service that declares it", "made"),
        ([(components, "may_call", lambda owner, requirement, name: RUNNING.get().root)], None, "NotQuiescent: t; goes on as before"),
    ]:
        with planted(*faults):
            async with running(tries.manager, text, [Client, Sly, Store]) as system:
                event, store = threading.Event(), system["t"]
                work = asyncio.ensure_future(ends(system["s"].out(event)))
                await until(lambda: work.done() or store._serving)
                tries.same("a call that isn't declared, %s" % ("looked up" if first else "not looked up"), wanted, await changed(system))
                event.set()
                tries.want("and its caller", first is None or await work == first)
                await work


async def try_parts(tries):
    """What fails of a component itself undoes the change."""
    rows = [("open", "OSError: no room"), ("take", "ValueError: not of mine"), ("state", "ValueError: not at hand")]
    for fails, wanted in rows:
        async with running(tries.manager) as system:
            with planted((Store, "fails", fails)):
                tries.same("`%s` fails" % fails, wanted + "; goes on as before", await changed(system))
            tries.same("and then it doesn't", "made", await changed(system))


# says what it has, and behind `go` the rest; a patient one waits before `ready` until all that is busy was told idle
SAYS = """import sys
def heard(is_enough):
    lines = []
    while not is_enough(lines) and (line := sys.stdin.readline()): lines.append(line.split())
def count(lines, word): return sum(line[0] == word for line in lines)
have, _, ready = open(sys.argv[1]).read().partition("wait 20\\n")
print(have + "wait 20", flush=True)
if PATIENT: heard(lambda lines: count(lines, "closed") == have.count("\\nclose ") and count(lines, "busy") == count(lines, "idle"))
print(ready, flush=True)
heard(lambda lines: ["go"] in lines)
print(sys.argv[2], flush=True)
"""
SILENT = SAYS.replace("PATIENT", "True").replace("print(sys.argv[2]", "import time; time.sleep(600); print(sys.argv[2]")
HASTY, PATIENT = SAYS.replace("PATIENT", "False"), SAYS.replace("PATIENT", "True")


async def with_hasty(tries, system, name, first, last, wanted, *named):
    """A manager that says this at once, while a write is under way. What is under way beside it may be named too."""
    async with writing(system):
        with talking(system, HASTY, first, last):
            came = await changed(system)
    why, _, after = came.partition("; ")
    tries.want(name, why.startswith(wanted) and after == "goes on as before" and set(named) <= set(why[len(wanted) :].split(", ")), came)


async def try_managers(tries):
    """Managers that are silent, hasty, of another mind, or aren't there."""
    async with running(tries.manager) as system:
        right = (await system.change("Small(1)", moving={"t": "t"})).lines
        heard = [line for line in right if not line.startswith("> ")]
        start, wait = heard[: heard.index("wait 20") + 1], heard.index("ready")
        drained, acts = heard[len(start) : wait + 1], heard[wait + 1 :]
        await system.change("Small(0)", moving={"t": "t"})
        rows = [
            ("it waits for nothing", start + drained, acts, "NotQuiescent: ", "t", "r.slowly"),
            ("it forgets a link", start + drained, [line for line in acts if not line.startswith("link")], "NotQuiescent: ", "t", "r.slowly"),
            ("it begins elsewhere", start[:4] + start[5:] + drained, acts, "ManagerDied: it "),
            ("it asks for no gate", [line for line in start if not line.startswith("close")] + ["ready"], acts, "NotQuiescent: ", "t"),
            ("it says what isn't known", start[:9] + ["nonsense"] + start[9:], acts, "ManagerDied: it "),
            ("it names a port that isn't", [line.replace("close ", "close 9") for line in start], acts, "ManagerDied: it names port 9"),
        ]
        for row in rows:
            await with_hasty(tries, system, *row)
        with talking(system, PATIENT, start + drained, [line for line in acts if not line.startswith("link")]):
            tries.same("it leads elsewhere", "ManagerDied: it leads to another system than that which was asked for; goes on as before", await changed(system))
        grace, system.grace = system.grace, 5
        with talking(system, SILENT, start + drained, acts):
            tries.same("it is silent", "ManagerDied: silent for 5 seconds; goes on as before", await changed(system))
        system.grace = grace
        with talking(system, PATIENT, start + drained, acts):
            tries.same("it says what is right", "made", await changed(system))
        system.manager = ["./no_such_manager"]
        tries.same("it isn't there", "ManagerDied: ./no_such_manager can't be started: No such file or directory; goes on as before", await changed(system, "Small(2)"))


class talking:
    """Puts a program in the place of the manager, for `apply` alone."""

    def __init__(self, system, program, first, last):
        self.system, self.program, self.right = system, program, system.manager
        self.first, self.last = "\n".join(first), "\n".join(last)

    def __enter__(self):
        with tempfile.NamedTemporaryFile("w", suffix=".txt", delete=False) as file:
            file.write(self.first)
        self.name = file.name
        choose = "import os, sys\nif 'apply' not in sys.argv[3:]: os.execvp(sys.argv[3], sys.argv[3:])\n"
        self.system.manager = [sys.executable, "-c", choose + self.program, self.name, self.last, *self.right]

    def __exit__(self, *_):
        self.system.manager = self.right
        os.unlink(self.name)


async def try_killed(tries):
    """A manager that dies behind each line, and within each: all or nothing."""
    cut = [sys.executable, os.path.join(os.path.dirname(os.path.abspath(__file__)), "cut.py")]
    async with running(tries.manager) as system:
        count = len([line for line in (await system.change("Small(1)", moving={"t": "t"})).lines if not line.startswith("> ")])
        made, step = [], 9 if tries.quick else 1
        places = [(lines, keeps) for keeps in (1, 0) for lines in sorted({*range(1, count + 1, step), count})]
        for lines, keeps in places:
            system.manager = [*cut, str(lines), str(keeps), *tries.manager]
            came = await changed(system, "Small(%d)" % (100 * keeps + lines + 2))
            if came == "made":
                made.append((lines, keeps))
            else:
                fine = came.startswith("ManagerDied: its output ends") and came.endswith("; goes on as before")
                tries.want("%s line %d" % ("behind" if keeps else "within", lines), fine, came)
        system.manager = tries.manager
        tries.same("made only behind the whole of `commit`", [(count, 1)], made)
        tries.same("and after all of that", "made", await changed(system))
        client, store = system["c"], system["t"]
    tries.same("no root was lost or came twice", client.done, store.count)


def tries(tries):
    for each in (try_gates, try_premises, try_parts, try_managers, try_killed):
        asyncio.run(each(tries))
