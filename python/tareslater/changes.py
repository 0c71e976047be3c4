"""A change under way: what the manager asks for, done at the sites, up to its `commit`."""
import asyncio
import time
from typing import Any, Dict, List, Mapping, NamedTuple, NoReturn, Tuple, Type

from .components import Component
from .darwin import Graph, Key
from .outcomes import Changed, GivenUp, ManagerDied, NotQuiescent, Past, Refused
from .session import ENDINGS, Session, Told
from .sites import AnySite, Switch

ROUNDS = 20  # so many turns of the clock are told in the time that a change may take


class Placed:
    """A system with the sites of its components."""

    def __init__(self, graph: Graph, sites: Mapping[str, AnySite]) -> None:
        self.graph, self.sites = graph, sites

    def by_site(self, paths: Any) -> List[Tuple[AnySite, List[str]]]:
        """These paths, each with its site."""
        found: Dict[int, Tuple[AnySite, List[str]]] = {}
        for path in paths:
            site = self.sites[path]
            found.setdefault(id(site), (site, []))[1].append(path)
        return list(found.values())


class Change:
    """A change from one system to another."""

    session: Session

    def __init__(self, old: Placed, new: Placed, moving: Mapping[str, str]) -> None:
        self.old, self.new, self.moving = old, new, dict(moving)
        now, then = old.graph.instances, new.graph.instances
        self.gone = [path for path in now if then.get(path) != now[path]]
        self.made = [path for path in then if now.get(path) != then[path]]
        self.told = Told()
        self.asked: List[int] = []  # the ports that are to be closed
        self.held: List[Key] = []  # the gates among them
        self.closed_at = self.ready_at = self.opened_at = 0.0

    # ---- up to `wait`

    async def begin(self) -> None:
        """Reads the history of the start, and what is to be closed."""
        words = await self.session.read()
        if words[0] != "start":
            raise Refused(" ".join(words))
        while (words := await self.session.read())[0] != "change":
            self.told.take(words)
        if not self.told.is_graph(self.old.graph):
            raise ManagerDied("it starts with another system than that which stands")
        words = await self.session.read()
        while words[0] == "close" and len(words) == 2:
            self.told.port(words[1])
            self.asked.append(int(words[1]))
            words = await self.session.read()
        if words != ["wait", str(ROUNDS)]:
            raise ManagerDied("it says %r in the place of `wait`" % " ".join(words))

    # ---- up to `ready`

    async def drain(self, within: float) -> None:
        """Closes all gates that are to be closed, and waits until what is under way there has ended."""
        self.closed_at = time.monotonic()
        ticks = asyncio.get_running_loop().create_task(self.tick(within / ROUNDS))
        try:
            await self.close()
            words = [""]
            while words[0] != "ready":
                words = await self.session.read(within + self.session.grace)
                if words[0] in ENDINGS:
                    await self.given_up()
                if words[0] not in ("drained", "ready"):
                    raise ManagerDied("it says %r while gates are drained" % " ".join(words))
        finally:
            ticks.cancel()
        self.ready_at = time.monotonic()

    async def tick(self, seconds: float) -> None:
        """Tells the turns of the clock."""
        while True:
            await asyncio.sleep(seconds)
            self.session.say("round")

    async def close(self) -> None:
        """Closes the gates; at ports that are no gates their owner never begins anything."""
        gates: Dict[int, Key] = {}
        for number in self.asked:
            key = self.old.graph.begins(self.told.ports[number])
            if key is None:
                self.session.say("closed %d" % number)
            else:
                gates[number] = key
        self.held = list(gates.values())
        for site, paths in self.old.by_site({key[0] for key in self.held}):
            await site.close_gates({number: key for number, key in gates.items() if key[0] in paths}, self.session.say)

    async def given_up(self) -> NoReturn:
        """Reads why the change isn't made."""
        open, first = [], self.session.lines[-1]
        words = first.split(" ")
        while words[0] != "abandon":
            if words[0] == "open":
                open.append(self.name(self.told.port(words[1])))
            words = await self.session.read(self.session.grace)
        if first.startswith("pending"):
            raise GivenUp(self.session.lines, open)
        raise Refused(first)

    def name(self, port: str) -> str:
        """The requirement for which a port stands, as `front.order`."""
        key = self.old.graph.key(port)
        return "%s.%s" % key if key else port

    # ---- up to `commit`

    async def hand_over(self, seconds: float) -> None:
        """What is removed ends what it does by itself, and hands its state over. It keeps it, as the change isn't made yet."""
        await self.judge()
        for site, paths in self.old.by_site(self.gone):
            await site.halt(paths, seconds)
        await self.judge()
        states: Dict[str, Any] = {}
        for site, paths in self.old.by_site(self.moving):
            states.update({self.moving[path]: state for path, state in (await site.states(paths)).items()})
        for site, paths in self.new.by_site(states):
            await site.take({path: states[path] for path in paths})

    async def judge(self) -> None:
        """Refuses to go on where something to be held is in the middle of something. The manager has it by what it was told; this is counted."""
        engaged: List[str] = []
        for site, paths in self.old.by_site({**dict.fromkeys(self.gone), **dict.fromkeys(key[0] for key in self.held)}):
            gone = [path for path in paths if path in self.gone]
            engaged += await site.engaged(gone, [key for key in self.held if key[0] in paths])
        if engaged:
            raise NotQuiescent(", ".join(engaged))

    async def commit(self) -> None:
        """Lets the manager go on, and reads what is to be done: it has to lead from the one system to the other."""
        self.session.say("go")
        words = [""]
        while words[0] != "commit":
            words = await self.session.read(self.session.grace)
            if words[0] in ENDINGS:
                await self.given_up()
            self.told.take(words)
        if not self.told.is_graph(self.new.graph):
            raise ManagerDied("it leads to another system than that which was asked for")

    # ---- behind `commit`

    async def switch(self) -> None:
        """Makes the new system the one that stands: at all sites first, then gates are opened."""
        addresses = {path: site.address for path, site in self.new.sites.items()}
        switch = Switch(self.gone, self.made, self.moving, self.new.graph.links, addresses)
        sites = self.sites()
        for site in sites:
            await site.switch(self.part(switch, site))
        opened = dict.fromkeys(key for key in self.held if key[0] not in self.gone)
        opened.update((key, None) for key in self.new.graph.links if key[0] in self.made and self.new.graph.is_root(key))
        for site, paths in self.new.by_site(dict.fromkeys(path for path, _ in opened)):
            await site.reopen([key for key in opened if key[0] in paths])
        self.opened_at = time.monotonic()
        for site in sites:
            await site.finish([path for path in self.made if self.new.sites[path] is site], self.moving)

    def part(self, switch: Switch, site: AnySite) -> Switch:
        """What of a switch is done at a site."""
        gone = [path for path in switch.gone if self.old.sites[path] is site]
        made = [path for path in switch.made if self.new.sites[path] is site]
        links = {key: end for key, end in switch.links.items() if self.new.sites[key[0]] is site}
        return switch._replace(gone=gone, made=made, links=links)

    def sites(self) -> List[AnySite]:
        """All sites that have a component before or after."""
        found = {id(site): site for placed in (self.old, self.new) for site in placed.sites.values()}
        return list(found.values())

    async def undo(self) -> None:
        """Goes on as before."""
        sites = self.sites()
        for site in sites:
            await site.reopen([key for key in self.held if self.old.sites[key[0]] is site])
        self.opened_at = time.monotonic()
        for site in sites:
            await site.undo()

    # ---- what is said of it

    @property
    def phase(self) -> str:
        """How far it is."""
        if self.opened_at:
            return "ending"
        if self.ready_at:
            return "handing over"
        return "waiting" if self.closed_at else "making ready"

    def names(self) -> List[str]:
        """What it holds."""
        return ["%s.%s" % key for key in self.held]

    def seconds(self) -> Tuple[float, float]:
        """For how long it has held that, and how long of this it waited."""
        if not self.held:
            return 0.0, 0.0
        held = (self.opened_at or time.monotonic()) - self.closed_at
        return held, self.ready_at - self.closed_at if self.ready_at else held

    def changed(self, began: float) -> Changed:
        """What its caller is told, once it is made."""
        return Changed(self.names(), *self.seconds(), time.monotonic() - began, self.session.lines)

    def past(self, call: str, ended: str, said: str) -> Past:
        """What is kept of it."""
        return Past(call, ended, said, time.time(), self.names(), *self.seconds())


class UnderWay(NamedTuple):
    """A change that is being made."""

    change: Change
    call: str
    within: float


def lost(gone: Mapping[str, Type[Component]], moving: Mapping[str, str]) -> List[str]:
    """Which of the components that go have a state that goes nowhere."""
    return [path for path, cls in gone.items() if cls.has_state() and path not in moving]
