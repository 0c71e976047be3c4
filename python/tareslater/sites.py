"""A site: the components of one process, and what a change does to them. `remote` has a site of another process behind the same calls."""
import abc
import asyncio
import functools
import logging
from concurrent.futures import ThreadPoolExecutor
from typing import Any, Callable, Dict, Iterable, List, Mapping, NamedTuple, Optional, Sequence, Set, Type

from .components import Component, End, Roots, Target, Traffic
from .darwin import Instance, Key
from .outcomes import NotQuiescent

LOG = logging.getLogger("tareslater")
THREADS = 64


class Switch(NamedTuple):
    """What a site does once a change is allowed: which components go and which come, who takes over from whom, and where all leads."""

    gone: List[str]
    made: List[str]
    moved: Dict[str, str]
    links: Dict[Key, Optional[End]]
    addresses: Dict[str, str]  # where the sites of components are, by their paths; for one process none is needed


class Seen(NamedTuple):
    """What goes on at a site: through each requirement, and how many services each component is in."""

    traffic: Dict[Key, Traffic]
    serving: Dict[str, int]


class AnySite(abc.ABC):
    """What a change asks of a site, whether it is of this process or another."""

    address = ""

    @abc.abstractmethod
    async def make(self, instances: Mapping[str, Instance]) -> None:
        """Makes components and opens them, for a change that may yet fail."""

    @abc.abstractmethod
    async def close_gates(self, gates: Mapping[int, Key], tell: Callable[[str], None]) -> None:
        """Closes gates, and tells of each by its number whether it is busy, that it is closed, and when it becomes idle."""

    @abc.abstractmethod
    async def engaged(self, paths: Sequence[str], keys: Iterable[Key]) -> List[str]:
        """Which of these components serve, and which of these gates are open or busy, by the site's own counts."""

    @abc.abstractmethod
    async def halt(self, paths: Sequence[str], seconds: float) -> None:
        """Ends what components do by themselves. They are quiescent, so they hold nothing in their hands."""

    @abc.abstractmethod
    async def states(self, paths: Sequence[str]) -> Dict[str, Any]:
        """The states of components, which keep them."""

    @abc.abstractmethod
    async def take(self, states: Mapping[str, Any]) -> None:
        """Gives states to components that were made."""

    @abc.abstractmethod
    async def switch(self, switch: Switch) -> None:
        """Makes the new system the one that stands, with its gates as they are."""

    @abc.abstractmethod
    async def reopen(self, keys: Iterable[Key]) -> None:
        """Opens gates of components that stand."""

    @abc.abstractmethod
    async def finish(self, made: Sequence[str], moved: Iterable[str]) -> None:
        """Lets new components run, and closes old ones by and by."""

    @abc.abstractmethod
    async def undo(self) -> None:
        """Goes on as before a change that failed; its gates are open again."""

    @abc.abstractmethod
    async def rest(self) -> None:
        """Closes all gates, and waits until what is under way has ended."""

    @abc.abstractmethod
    async def stop(self, seconds: float) -> None:
        """Ends all components, and with them what their tasks do."""

    @abc.abstractmethod
    async def seen(self) -> Seen:
        """What goes on, for those who watch."""

    async def over(self, address: str) -> None:
        """Ends the roots of calls to a process that has gone."""


def roots_of(component: Component) -> List[Roots]:
    """The requirements at which a component begins."""
    return [handle for handle in component._handles.values() if isinstance(handle, Roots)]


class Site(AnySite):
    """The components of this process."""

    def __init__(self, classes: Sequence[Type[Component]], threads: int = THREADS) -> None:
        self.classes = list(classes)
        self.threads = ThreadPoolExecutor(threads, "tareslater")
        self.components: Dict[str, Component] = {}  # of the system that stands
        self.made: Dict[str, Component] = {}  # for a change under way
        self.gone: Dict[str, Component] = {}  # by a change that was made
        self.halted: List[Component] = []
        self.faults: List[BaseException] = []
        self.closing: Set["asyncio.Task[None]"] = set()

    # ---- making and ending

    async def make(self, instances: Mapping[str, Instance]) -> None:
        for path, instance in instances.items():
            component = self.classes[instance.number](*instance.integers)
            component.path, component.loop, component.threads = path, asyncio.get_running_loop(), self.threads
            self.made[path] = component
            await component.open()

    async def drop(self) -> None:
        """Closes what was made for a change that failed."""
        made, self.made = self.made, {}
        await self.close(made.values(), ())

    async def close(self, components: Iterable[Component], owning: Iterable[str]) -> None:
        """Closes components, of which these own their states."""
        owners = set(owning)
        for component in components:
            try:
                await component.close(component.path in owners)
            except Exception as fault:
                LOG.exception("%s: close", component.path)
                self.faults.append(fault)

    def run(self, component: Component) -> None:
        """Lets a component do what it does by itself."""

        async def run() -> None:
            try:
                await component.run()
            except Exception as fault:
                LOG.exception("%s: run", component.path)
                self.faults.append(fault)

        component.spawn(run())

    async def halt(self, paths: Sequence[str], seconds: float) -> None:
        for path in paths:
            component = self.components[path]
            self.halted.append(component)
            tasks = list(component._tasks)
            for task in tasks:
                task.cancel()
            if tasks and (await asyncio.wait(tasks, timeout=seconds))[1]:
                self.halted.remove(component)
                raise NotQuiescent("%s: a task that was cancelled doesn't end" % path)

    # ---- gates

    def roots(self, key: Key) -> Roots:
        """A requirement at which a component of the standing system begins."""
        handle = self.components[key[0]]._handles[key[1]]
        assert isinstance(handle, Roots)
        return handle

    async def close_gates(self, gates: Mapping[int, Key], tell: Callable[[str], None]) -> None:
        for number, key in gates.items():
            self.close_gate(self.roots(key), number, tell)

    def close_gate(self, roots: Roots, number: int, tell: Callable[[str], None]) -> None:
        """Closes a gate. No await lies between the lines, and what other threads tell comes behind them."""
        if roots.gate.close(lambda: tell("idle %d" % number)):
            tell("busy %d" % number)
        tell("closed %d" % number)

    async def reopen(self, keys: Iterable[Key]) -> None:
        for key in keys:
            self.roots(key).gate.reopen()

    async def engaged(self, paths: Sequence[str], keys: Iterable[Key]) -> List[str]:
        roots = [self.roots(key) for key in keys]
        serving = [path for path in paths if self.components[path]._serving]
        return serving + [str(handle) for handle in roots if handle.gate.count or handle.gate.is_open]

    async def seen(self) -> Seen:
        components = self.components.items()
        traffic = {(path, key): handle.traffic for path, component in components for key, handle in component._handles.items()}
        return Seen(traffic, {path: component._serving for path, component in components})

    # ---- states

    async def states(self, paths: Sequence[str]) -> Dict[str, Any]:
        return {path: self.components[path].state() for path in paths}

    async def take(self, states: Mapping[str, Any]) -> None:
        for path, state in states.items():
            self.made[path].take(state)

    # ---- the switch

    async def switch(self, switch: Switch) -> None:
        """Makes the new system the one that stands, with its gates as they are. Nothing here waits."""
        made, self.made = self.made, {}
        self.gone = {path: self.components.pop(path) for path in switch.gone}
        self.components.update(made)
        for (path, name), end in switch.links.items():
            if path in self.components:
                self.link(path, name, end, switch)
        for path, component in self.gone.items():
            component.heir = made.get(switch.moved.get(path, ""))
            self.end_roots(component)

    def end_roots(self, component: Component) -> None:
        """Closes the gates of a component for good. Who waits there hears that it is removed, and who its heir is."""
        for roots in roots_of(component):
            roots.gate.remove(component.heir)

    def link(self, path: str, name: str, end: Optional[End], switch: Switch) -> None:
        """Lets a requirement lead where the new system has it lead."""
        handle = self.components[path]._handles[name]
        if not self.leads_to(handle.target, end, switch):
            handle.target = None if end is None else self.target(end, switch)
        if isinstance(handle, Roots):
            handle.gate.is_linked = handle.linked

    def leads_to(self, target: Any, end: Optional[End], switch: Switch) -> bool:
        """Whether a requirement leads there already."""
        if target is None or end is None:
            return target is end
        return isinstance(target, Target) and target.end == end and self.components.get(end.path) is target.owner

    def target(self, end: End, switch: Switch) -> Any:
        """A service, by its place in the new system."""
        owner = self.components[end.path]
        return Target(owner, end)

    async def finish(self, made: Sequence[str], moved: Iterable[str]) -> None:
        self.halted = []
        for path in made:
            self.run(self.components[path])
        gone, self.gone = self.gone, {}
        closing = asyncio.get_running_loop().create_task(self.close(gone.values(), set(gone) - set(moved)))
        self.closing.add(closing)
        closing.add_done_callback(self.closing.discard)

    async def undo(self) -> None:
        halted, self.halted = self.halted, []
        for component in halted:
            self.run(component)
        await self.drop()

    # ---- the end

    async def rest(self) -> None:
        loop, busy = asyncio.get_running_loop(), []
        for roots in (roots for component in self.components.values() for roots in roots_of(component)):
            idle = asyncio.Event()
            if roots.gate.close(functools.partial(loop.call_soon_threadsafe, idle.set)):
                busy.append(idle)
        for idle in busy:
            await idle.wait()

    async def stop(self, seconds: float) -> None:
        try:
            await self.halt(list(self.components), seconds)
        finally:
            for component in self.components.values():
                self.end_roots(component)
            await self.close(self.components.values(), list(self.components))
            if self.closing:
                await asyncio.wait(self.closing)
            self.components, self.halted = {}, []
            self.threads.shutdown(wait=False)
