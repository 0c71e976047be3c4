"""What is seen of a running system: its graph, what goes through each requirement, the change under way, and the last ones."""
import asyncio
import collections
import json
import logging
import threading
import time
from typing import Any, Deque, Dict, List, Mapping, Optional, Tuple

from .changes import Placed, UnderWay
from .components import Traffic
from .darwin import Key, call_of
from .outcomes import Past
from .sites import AnySite, Seen
from .system import System

LOG = logging.getLogger("tareslater")
PERIOD = 0.5  # so many seconds lie between two looks
LOOKS = 3  # from the first to the last of so many is what is told of a second
PATIENCE = 2.0  # so many seconds another process has to tell


class News:
    """What was seen last, as texts by their names. The loop puts it there, and threads wait for it."""

    def __init__(self) -> None:
        self.changed = threading.Condition()
        self.texts: Dict[str, Tuple[int, str]] = {}  # numbered by how often each was put
        self.is_over = False

    def put(self, name: str, value: Any) -> None:
        """What is so from here on."""
        text = json.dumps(value, separators=(",", ":"))
        with self.changed:
            self.texts[name] = (self.texts.get(name, (0, ""))[0] + 1, text)
            self.changed.notify_all()

    def end(self) -> None:
        """Nothing more is seen."""
        with self.changed:
            self.is_over = True
            self.changed.notify_all()

    def behind(self, known: Mapping[str, int]) -> List[Tuple[str, int, str]]:
        """What was put behind what is known, by its numbers."""
        return [(name, number, text) for name, (number, text) in self.texts.items() if number != known.get(name)]

    def wait(self, known: Mapping[str, int], seconds: float) -> Optional[List[Tuple[str, int, str]]]:
        """The same, for which it waits so long; None once all is over."""
        with self.changed:
            self.changed.wait_for(lambda: self.is_over or self.behind(known), seconds)
            return None if self.is_over else self.behind(known)


def name_of(key: Key) -> str:
    """A requirement, as `front.order`."""
    return "%s.%s" % key


def shown(system: System, placed: Placed, path: str) -> str:
    """The class of a component with its integers, and the process where it is in another."""
    instance, site = placed.graph.instances[path], placed.sites[path]
    where = next((name for name, one in system.sites.items() if one is site and one is not system.here), "")
    call = call_of([system.classes[instance.number].__name__, *map(str, instance.integers)])
    return "%s in %s" % (call, where) if where else call


def graph_of(system: System, placed: Placed) -> Dict[str, Any]:
    """The graph that stands, for the page."""
    graph = placed.graph
    number = {path: at for at, path in enumerate(graph.instances)}
    links = [(key, end) for key, end in graph.links.items()]
    requirements = {name_of(key): "" if end is None else "%s.%s" % (end.path, end.service) for key, end in links}
    return {
        "call": call_of(system.call) if system.call else "",
        "nodes": [{"path": path, "shown": shown(system, placed, path)} for path in graph.instances],
        "links": [{"from": number[key[0]], "to": number[end.path], "name": name_of(key)} for key, end in links if end],
        "requirements": requirements,
    }


def change_of(under_way: UnderWay, traffic: Mapping[Key, Traffic]) -> Dict[str, Any]:
    """A change under way, for the page: what it holds, for how long, and what it waits for."""
    change, phase = under_way.change, under_way.change.phase
    busy = {name_of(key): traffic[key].under_way for key in change.held if key in traffic} if phase == "waiting" else {}
    return {
        "call": under_way.call, "within": under_way.within, "phase": phase, "held": change.names(), "seconds": change.seconds()[0],
        "waits": {name: count for name, count in busy.items() if count}, "gone": change.gone, "made": change.made, "moving": change.moving,
    }


class Watch:
    """Looks at a running system again and again."""

    def __init__(self, system: System) -> None:
        self.system, self.news = system, News()
        self.placed: Optional[Placed] = None
        self.last: Optional[Past] = None
        self.looks: Deque[Tuple[float, Mapping[Key, Traffic]]] = collections.deque(maxlen=LOOKS)

    async def look(self) -> None:
        """Goes on until it is cancelled."""
        while True:
            try:
                await self.glance()
            except Exception:
                LOG.exception("the board")
            await asyncio.sleep(PERIOD)

    async def glance(self) -> None:
        """Looks once."""
        seen = await self.seen()
        placed, past = self.system.placed, self.system.past
        if placed is not self.placed:
            self.placed = placed
            self.looks.clear()  # what is new counts from nothing
            self.news.put("graph", graph_of(self.system, placed))
        if "past" not in self.news.texts or (past and past[-1] is not self.last):
            self.last = past[-1] if past else None
            self.news.put("past", [one._asdict() for one in reversed(past)])
        self.looks.append((time.monotonic(), seen.traffic))
        self.news.put("now", self.now(seen))

    async def seen(self) -> Seen:
        """What goes on at all sites that tell it in time."""
        found = await asyncio.gather(*(self.seen_at(site) for site in self.system.sites.values()))
        traffic = {key: one for seen in found for key, one in seen.traffic.items()}
        return Seen(traffic, {path: count for seen in found for path, count in seen.serving.items()})

    async def seen_at(self, site: AnySite) -> Seen:
        """What goes on at a site."""
        try:
            return await asyncio.wait_for(site.seen(), PATIENCE)
        except asyncio.TimeoutError:
            return Seen({}, {})

    def now(self, seen: Seen) -> Dict[str, Any]:
        """What is so now, for the page: of each requirement how often a second it is used, roots under way and waiting, and its gate."""
        then, before = self.looks[0]
        seconds, of = self.looks[-1][0] - then, {}
        for key, traffic in seen.traffic.items():
            uses = traffic.uses - before[key].uses if key in before else traffic.uses
            of[name_of(key)] = [round(uses / seconds, 1) if seconds else 0, traffic.under_way, traffic.waiting, traffic.is_open]
        under_way = self.system.under_way
        return {
            "at": time.time(), "of": of, "serving": {path: count for path, count in seen.serving.items() if count},
            "change": change_of(under_way, seen.traffic) if under_way else None,
        }
