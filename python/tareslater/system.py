"""A system of one's own components: started, changed while it runs, and stopped."""
import asyncio
import collections
import os
import tempfile
import time
from typing import Any, Callable, Deque, Dict, List, Mapping, Optional, Sequence, Tuple, Type

from .changes import ROUNDS, Change, Placed, UnderWay, lost
from .components import Component
from .darwin import Graph, Instance, call_of, description, words_of
from .gates import RUNNING, Misuse
from .manager import manager as manager_of
from .outcomes import Changed, GivenUp, Past, Plan, Refused, WouldLose
from .session import GRACE, Session, answer, started
from .parts import Described, between
from .sites import THREADS, AnySite, Site

HERE = "here"
GLANCE = 0.02  # so many seconds lie between two looks at whether a component still serves
KEPT = 100  # so many of the last changes are remembered


class System:
    """`text` wires the components, in Darwin; `classes` are theirs. `manager` is the command of darwin_run, which is looked for where none is
    named. `log` names a file to which each session with it is added; `threads` is how many services may wait in threads at once, `grace` how many seconds
    the manager may be silent while gates are closed. `place` is for systems of several processes."""

    def __init__(
        self,
        text: str,
        classes: Sequence[Type[Component]],
        manager: Sequence[str] = (),
        *,
        log: Optional[str] = None,
        threads: int = THREADS,
        grace: float = GRACE,
        place: Optional[Callable[[str, Instance], str]] = None,
    ) -> None:
        self.classes, self.manager = list(classes), list(manager) or manager_of()
        self.text = description(text, self.classes)
        self.here = Site(self.classes, threads)
        self.sites: Dict[str, AnySite] = {HERE: self.here}
        self.place = place or (lambda path, instance: HERE)
        self.log, self.grace = log, grace
        self.placed = Placed(Graph("", self.classes), {})
        self.call: List[str] = []
        self.file = ""
        self.parts = 0  # so many systems between two have been described
        self.changing: Optional[asyncio.Lock] = None  # held by a change; there is none before the start and after the end
        self.under_way: Optional[UnderWay] = None
        self.past: Deque[Past] = collections.deque(maxlen=KEPT)

    def __getitem__(self, path: str) -> Any:
        """A component of this process."""
        return self.here.components[path]

    @property
    def components(self) -> Mapping[str, Component]:
        """The components of this process, by their paths."""
        return self.here.components

    @property
    def faults(self) -> List[BaseException]:
        """What `run` and `close` of components of this process raised."""
        return self.here.faults

    # ---- start and stop

    @property
    def turn(self) -> asyncio.Lock:
        """What a change holds, of a system that was started."""
        if self.changing is None:
            raise RuntimeError("the system isn't started, or it is stopped")
        return self.changing

    async def start(self, call: str) -> None:
        """Makes the components of a call, as `Shop(1)`, and opens their gates."""
        if self.file:
            raise RuntimeError("the system was started before: a further one is a System of its own")
        changing = asyncio.Lock()
        async with changing:
            handle, self.file = tempfile.mkstemp(suffix=".dar")
            with os.fdopen(handle, "w") as file:
                file.write(self.text)
            try:
                words = words_of(call)
                placed = await self.flat(words)
                change = Change(self.placed, placed, {})
                await self.made(change)
                await change.switch()
            except BaseException:
                os.unlink(self.file)
                self.file = ""
                raise
            self.call, self.placed, self.changing = words, placed, changing

    async def flat(self, words: List[str]) -> Placed:
        """A system by its call, with the sites of its components."""
        graph = Graph(await answer([*self.manager, "flat", self.file, *words]), self.classes)
        return Placed(graph, {path: await self.site(self.place(path, instance)) for path, instance in graph.instances.items()})

    async def site(self, name: str) -> AnySite:
        """The site of a name."""
        return self.sites[name]

    async def tidy(self) -> None:
        """Ends what no component needs any more."""

    async def made(self, change: Change) -> None:
        """Makes what a change needs, before any gate is closed."""
        try:
            for site, paths in change.new.by_site(change.made):
                await site.make({path: change.new.graph.instances[path] for path in paths})
        except BaseException:
            await change.undo()
            raise

    async def stop(self, within: float = 5.0) -> None:
        """Begins nothing more, waits for what is under way, and closes all."""
        async with self.turn:
            self.changing = None
            for site in self.sites.values():
                await site.rest()
            for site in self.sites.values():
                await site.stop(within)
            self.placed = Placed(Graph("", self.classes), {})
            os.unlink(self.file)

    # ---- changes

    async def change(
        self,
        call: str,
        within: float = 5.0,
        moving: Optional[Mapping[str, str]] = None,
        losing: Sequence[str] = (),
        by_parts: bool = False,
    ) -> Changed:
        """Makes the system that of another call while it runs, or raises, and then nothing was changed. What is to be held has `within`
        seconds to end. `moving` says, by paths, which components that are removed hand their state to which that are made, and `losing`
        which may take it with them. With `by_parts` less is held at once: parts are changed one after the other, and where one fails, those
        before it stay made."""
        if RUNNING.get() is not None:
            raise Misuse("a change is asked for inside a root, for whose end it might wait")
        async with self.turn:
            words = words_of(call)
            change = Change(self.placed, await self.flat(words), moving or {})
            self.judge(change, losing)
            if by_parts:
                return await self.in_parts(change, words, within)
            return await self.step(change, words, within)

    async def step(self, change: Change, words: List[str], within: float) -> Changed:
        """A change that was judged."""
        began, call = time.monotonic(), call_of(words)
        self.under_way, ended, said = UnderWay(change, call, within), "made", ""
        try:
            await self.made(change)
            await self.carried_out(change, words, within)
        except BaseException as fault:
            if self.placed is not change.new:  # else it was made all the same
                ended, said = type(fault).__name__, str(fault)
            raise
        finally:
            self.under_way = None
            self.past.append(change.past(call, ended, said))
        await self.tidy()
        return change.changed(began)

    async def in_parts(self, change: Change, words: List[str], within: float) -> Changed:
        """A change that was judged, part by part."""
        text = await answer([*self.manager, "parts", self.file, *self.call, "--", *words])
        graphs = between(change.old.graph, change.new.graph, text, change.moving)
        calls = [["between_%d" % (self.parts + at)] for at in range(len(graphs) - 1)]
        self.parts += len(calls)
        self.text += "".join(Described(graph, call[0]).text() for graph, call in zip(graphs, calls))
        with open(self.file, "w") as file:
            file.write(self.text)
        steps: List[Changed] = []
        for graph, call in zip(graphs, [*calls, words]):
            new = await self.flat(call)
            if (new.graph.nodes, new.graph.ports) != (graph.nodes, graph.ports):
                raise Refused("%s isn't the system between" % call[0])
            step = Change(self.placed, new, change.moving)
            step.moving = {source: to for source, to in change.moving.items() if source in step.gone and to in step.made}
            steps.append(await self.step(step, call, within))
        held = dict.fromkeys(name for step in steps for name in step.held)
        longest = max(step.held_seconds for step in steps), max(step.waited_seconds for step in steps)
        return Changed(list(held), *longest, sum(step.seconds for step in steps), [line for step in steps for line in step.lines])

    def judge(self, change: Change, losing: Sequence[str]) -> None:
        """Refuses moves that can't be made, and a change that would lose a state."""
        for source, to in change.moving.items():
            if source not in change.gone or to not in change.made:
                raise Refused("moving %s -> %s: the first has to be removed, and the second to be made" % (source, to))
        if len(set(change.moving.values())) < len(change.moving):
            raise Refused("moving: two go to one")
        missing = [path for path in lost(self.gone(change), change.moving) if path not in losing]
        if missing:
            raise WouldLose(", ".join(missing))

    def gone(self, change: Change) -> Dict[str, Type[Component]]:
        """The classes of what a change removes."""
        instances = change.old.graph.instances
        return {path: self.classes[instances[path].number] for path in change.gone}

    async def carried_out(self, change: Change, words: List[str], within: float) -> None:
        """A session with the manager. Up to its `commit` all can be undone, and behind it nothing can fail."""
        session = Session([*self.manager, "apply", str(ROUNDS), self.file, *self.call, "--", *words], self.grace, self.log)
        try:
            await self.agreed(change, session, within)
            switched = asyncio.ensure_future(self.switched(change, words))
            try:
                await asyncio.shield(switched)
            except asyncio.CancelledError:
                await asyncio.wait([switched])
                raise
        finally:
            await session.end()

    async def agreed(self, change: Change, session: Session, within: float) -> None:
        """Goes on up to the manager's `commit`, or as before the change."""
        try:
            await session.begin()
            change.session = session
            await change.begin()
            await change.drain(within)
            await asyncio.wait_for(change.hand_over(within), within + self.grace)
            await change.commit()
        except BaseException:
            await change.undo()
            raise

    async def switched(self, change: Change, words: List[str]) -> None:
        """The new system is the one that stands."""
        await change.switch()
        self.call, self.placed = words, change.new

    async def side_by_side(
        self,
        both: str,
        then: str,
        within: float = 5.0,
        patience: float = 60.0,
        moving: Optional[Mapping[str, str]] = None,
        losing: Sequence[str] = (),
    ) -> Tuple[Changed, Changed]:
        """Changes by way of a system that has the old part and the new one, so that fast requests don't wait for slow ones in the old part.
        The second change is tried when what it removes serves nothing, for `patience` seconds."""
        first = await self.change(both, within)
        until = time.monotonic() + patience
        while True:
            await self.unused(words_of(then), until)
            try:
                return first, await self.change(then, within, moving, losing)
            except GivenUp:
                if time.monotonic() > until:
                    raise

    async def unused(self, words: List[str], until: float) -> None:
        """Waits until what another call wouldn't have serves nothing at a glance."""
        change = Change(self.placed, await self.flat(words), {})
        engaged = [""]
        while engaged and time.monotonic() < until:
            engaged = []
            for site, paths in change.old.by_site(change.gone):
                engaged += await site.engaged(paths, [])
            if engaged:
                await asyncio.sleep(GLANCE)

    async def plan(self, call: str, moving: Optional[Mapping[str, str]] = None) -> Plan:
        """What a change to this call would hold, remove, make and lose; nothing is changed."""
        async with self.turn:
            words = words_of(call)
            new = await self.flat(words)
            text = await answer([*self.manager, "plan", self.file, *self.call, "--", *words])
            change, old = Change(self.placed, new, moving or {}), self.placed.graph
            frozen = {line.split(" ")[1] for line in text.splitlines() if line.startswith("freeze ")}
            keys = (old.begins(port) for port in old.ports if port.rpartition(".")[0] in frozen)
            relinked = [key for key, end in new.graph.links.items() if key[0] not in change.made and old.links.get(key) != end]
            return Plan(
                held=sorted("%s.%s" % key for key in keys if key),
                removed=change.gone,
                made=change.made,
                relinked=["%s.%s" % key for key in relinked],
                moved=[path for path in change.gone if path in change.moving],
                lost=lost(self.gone(change), change.moving),
            )
