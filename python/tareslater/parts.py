"""A change in parts: the systems between, each whole by components, and described so that the manager takes them.

The manager's `parts` cuts a change at nodes. Here as many of its parts are taken together as leave each component whole: all of it old or all
of it new, each requirement leading to one place, and a state that moves going and coming at once. A system between is written as a component
of its own, whose instances have the paths of the system's.
"""
import re
from typing import Dict, List, Mapping, NamedTuple, Optional, Sequence, Set, Tuple

from .components import End
from .darwin import SEGMENT, Graph, Instance, Key, Undescribable

Segment = Tuple[str, Optional[int]]
Path = Tuple[Segment, ...]
Names = Tuple[str, ...]


def graph_text(nodes: Mapping[str, str], ports: Mapping[str, str]) -> str:
    """Nodes and links as `flat` writes them, in any order."""
    return "".join("node %s %s\n" % item for item in nodes.items()) + "".join("port %s %s\n" % item for item in ports.items())


def between(old: Graph, new: Graph, text: str, moving: Mapping[str, str]) -> List[Graph]:
    """The whole systems to which the parts lead, one after the other; the last is the new one."""
    nodes, ports, found = dict(old.nodes), dict(old.ports), []
    for part in re.split(r"(?m)^part \d+\n", text)[1:]:
        for line in part.splitlines():
            take(nodes, ports, line.split(" "))
        graph = whole(old, new, nodes, ports)
        if graph and are_together(old, new, graph, moving):
            found.append(graph)
    if not found or found[-1].nodes != new.nodes or found[-1].ports != new.ports:
        found.append(new)
    return found


def take(nodes: Dict[str, str], ports: Dict[str, str], words: List[str]) -> None:
    """Does a step of a plan."""
    if words[0] == "unlink":
        ports[words[1]] = "-"
    elif words[0] == "link":
        ports[words[1]] = words[2]
    elif words[0] == "create":
        nodes[words[1]] = words[2]
    elif words[0] == "remove":
        del nodes[words[1]]
        for port in [port for port in ports if port.rpartition(".")[0] == words[1]]:
            del ports[port]


def whole(old: Graph, new: Graph, nodes: Dict[str, str], ports: Dict[str, str]) -> Optional[Graph]:
    """The graph, if each component in it is whole."""
    try:
        graph = Graph(graph_text(nodes, {port: ports.get(port, "-") for port in ports_of(old, new, nodes)}), old.classes)
    except (Undescribable, KeyError):
        return None
    of_instances: Dict[str, Set[Tuple[str, str]]] = {}
    for path, place in graph.places.items():
        of_instances.setdefault(place.path, set()).add((path, nodes[path]))
    for path, have in of_instances.items():
        if not any(have == nodes_of(other, path) for other in (old, new)):
            return None
    ends: Dict[Key, Set[str]] = {}
    for port, target in graph.ports.items():
        key = graph.key(port)
        if key is not None:
            ends.setdefault(key, set()).add(target)
        elif all(other.ports.get(port) != target for other in (old, new)):
            return None
    return graph if all(len(targets) == 1 for targets in ends.values()) and is_described(graph) else None


def ports_of(old: Graph, new: Graph, nodes: Mapping[str, str]) -> List[str]:
    """The ports of the nodes that stand."""
    return [port for port in {**old.ports, **new.ports} if port.rpartition(".")[0] in nodes]


def nodes_of(graph: Graph, path: str) -> Set[Tuple[str, str]]:
    """The nodes of an instance."""
    return {(node, graph.nodes[node]) for node, place in graph.places.items() if place.path == path}


def are_together(old: Graph, new: Graph, graph: Graph, moving: Mapping[str, str]) -> bool:
    """Whether of each move either both have happened, that the one goes and that the other comes, or neither."""
    return all(
        (graph.instances.get(source) == old.instances.get(source)) != (graph.instances.get(to) == new.instances.get(to))
        for source, to in moving.items()
    )


def path_of(path: str) -> Path:
    """The segments of a path."""
    found = []
    for segment in path.split("."):
        match = SEGMENT.fullmatch(segment)
        assert match, path
        found.append((match[1], int(match[2]) if match[2] else None))
    return tuple(found)


def names_of(path: Path) -> Names:
    """The names of a path, without the indexes of arrays."""
    return tuple(name for name, _ in path)


def indexes_of(path: Path) -> Tuple[int, ...]:
    """The indexes of a path."""
    return tuple(index for _, index in path if index is not None)


def is_described(graph: Graph) -> bool:
    """Whether it can be written: what has one name below arrays is of one class, or has components in it, and all of it is in an array or none."""
    kinds: Dict[Names, Set[Tuple[Optional[int], bool]]] = {}
    for path, instance in graph.instances.items():
        segments = path_of(path)
        for depth in range(1, len(segments) + 1):
            number = instance.number if depth == len(segments) else None
            kinds.setdefault(names_of(segments[:depth]), set()).add((number, segments[depth - 1][1] is None))
    return all(len(found) == 1 for found in kinds.values())


class Link(NamedTuple):
    """A binding of two instances. Outward it leads through ports of one name, and inward through ports of another."""

    number: int
    start: Path
    requirement: str
    to: Path
    end: End

    def inner(self, above: Path, is_start: bool) -> str:
        """An end below a path, as the component there names it."""
        whole = self.start if is_start else self.to
        name, index = whole[len(above)]
        child = name if index is None else "%s[%d]" % (name, index)
        if len(whole) > len(above) + 1:
            return "%s.%s_%d" % (child, "out" if is_start else "in", self.number)
        if is_start:
            return "%s.%s" % (child, self.requirement)
        return "%s.%s" % (child, self.end.service)


class Described:
    """The text of a system as a component, and of those that it is made of: one for each sequence of names in which there are others."""

    def __init__(self, graph: Graph, name: str) -> None:
        self.graph, self.name = graph, name
        self.instances: Dict[Path, Instance] = {path_of(path): instance for path, instance in graph.instances.items()}
        bound = [(key, end) for key, end in graph.links.items() if end]
        self.links = [Link(at, path_of(key[0]), key[1], path_of(end.path), end) for at, (key, end) in enumerate(bound)]
        self.inner: List[Path] = list(dict.fromkeys(path[:depth] for path in self.instances for depth in range(len(path))))
        self.numbers: Dict[Names, int] = {names: at for at, names in enumerate(dict.fromkeys(map(names_of, self.inner)))}

    def component(self, names: Names) -> str:
        """The name of a component that is written."""
        return "%s_%d" % (self.name, self.numbers[names]) if names else self.name

    def text(self) -> str:
        """All components."""
        return "".join(self.written(names) for names in self.numbers)

    def written(self, names: Names) -> str:
        """A component: its integers are the indexes of the arrays in which it stands, and choose what it has."""
        places = [path for path in self.inner if names_of(path) == names]
        count = len(indexes_of(places[0]))
        lines = ["component %s(%s) {" % (self.component(names), ", ".join("int at_%d" % at for at in range(count)))]
        for word, ports in (("provide", self.ports(places, False)), ("require", self.ports(places, True))):
            lines += ["  %s %s;" % (word, ", ".join(ports))] if ports else []
        lines += self.arrays(places)
        for place in places:
            when = " and ".join("at_%d == %d" % item for item in enumerate(indexes_of(place)))
            statements = self.made(place) + self.bound(place)
            lines += ["  %s%s" % ("when %s " % when if when else "", statement) for statement in statements]
        return "\n".join(lines + ["}"]) + "\n"

    def ports(self, places: Sequence[Path], is_outward: bool) -> List[str]:
        """The ports through which links lead out of these places, or into them."""
        found = []
        for link in self.links:
            here, there = (link.start, link.to) if is_outward else (link.to, link.start)
            if any(here[: len(place)] == place != there[: len(place)] for place in places):
                found.append("%s_%d" % ("out" if is_outward else "in", link.number))
        return found

    def children(self, place: Path) -> List[Path]:
        """What stands at a place, whether instances or what has these in it."""
        return list(dict.fromkeys(path[: len(place) + 1] for path in self.instances if path[: len(place)] == place))

    def kind(self, child: Path) -> Tuple[str, Tuple[int, ...]]:
        """The component of what stands there, with its integers."""
        leaf = self.instances.get(child)
        if leaf:
            return self.graph.classes[leaf.number].__name__, leaf.integers
        return self.component(names_of(child)), indexes_of(child)

    def arrays(self, places: Sequence[Path]) -> List[str]:
        """The arrays of these places, each as long as the longest of them."""
        sizes: Dict[str, Tuple[int, str]] = {}
        for child in (child for place in places for child in self.children(place)):
            name, index = child[-1]
            if index is not None:
                kind, integers = self.kind(child)
                entry = "%s(%s)" % (kind, ", ".join("0" for _ in integers))
                sizes[name] = max(sizes.get(name, (0, "")), (index + 1, entry))
        return ["  array %s[%d]:%s;" % (name, size, entry) for name, (size, entry) in sizes.items()]

    def made(self, place: Path) -> List[str]:
        """What is made at a place."""
        found = []
        for child in self.children(place):
            name, index = child[-1]
            kind, integers = self.kind(child)
            words = "(%s)" % ", ".join(map(str, integers))
            found.append("inst %s:%s%s;" % (name, kind, words) if index is None else "inst %s[%d]%s;" % (name, index, words))
        return found

    def bound(self, place: Path) -> List[str]:
        """What is bound at a place."""
        found, depth = [], len(place)
        for link in self.links:
            has_start, has_end = link.start[:depth] == place, link.to[:depth] == place
            if has_start and has_end:
                if link.start[depth] != link.to[depth] or depth + 1 == len(link.start):
                    found.append("bind %s -- %s;" % (link.inner(place, True), link.inner(place, False)))
            elif has_start:
                found.append("bind %s -- out_%d;" % (link.inner(place, True), link.number))
            elif has_end:
                found.append("bind in_%d -- %s;" % (link.number, link.inner(place, False)))
        return found
