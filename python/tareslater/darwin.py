"""Components of one's own in Darwin: as composites of the built-in kinds, and read again from what `flat` writes.

A service becomes a node that depends on all that it may call: an `account` where it calls nothing, a `map` where it calls one requirement,
and else a chain of `place`s. A requirement at which the component begins becomes a `source`. Sources alone begin transactions, so theirs
are the gates that the package has to close. Each node has the argument CLASS * 65536 + VERSION; further integers stand in its path, as in
`store.size[512].get`. So a component with another class, version or integer has other nodes.
"""
import inspect
import re
from typing import Dict, List, NamedTuple, Optional, Sequence, Tuple, Type

from .components import Begins, Component, End, Size

PORTS: Dict[str, List[str]] = {"account": [], "map": ["next"], "place": ["left", "right"], "source": ["out"]}
KINDS = {
    "account": "(int b) { provide post; }",
    "map": "(int k) { provide in; require next; }",
    "place": "(int first) { provide dine; require left, right; }",
    "source": "(int n) { require out; }",
}
SERVICE = {"account": "post", "map": "in", "place": "dine"}
KEYWORDS = {"component", "provide", "require", "inst", "array", "bind", "forall", "when", "int", "and", "or"}
VERSIONS, CLASSES = 65536, 256
NOTE = "// Components of one's own, as `python -m tareslater describe` writes them:"


class Undescribable(TypeError):
    """A class can't be said in Darwin."""


def sizes(cls: Type[Component]) -> List[Tuple[str, Size]]:
    """The ports of a class, each with its size where it is an array."""
    provisions = [(name, provision.size) for name, provision in cls.provisions.items()]
    return provisions + [(name, requirement.size) for name, requirement in cls.requirements.items()]


class Shape:
    """The nodes that stand for a component, and the ports of these that stand for each requirement."""

    def __init__(self, cls: Type[Component]) -> None:
        self.cls, self.name = cls, cls.__name__
        self.nodes: Dict[str, Tuple[str, Size]] = {}  # kind, and the size where it is an array of nodes
        self.ports: Dict[Tuple[str, str], str] = {}  # the requirement for which a node's port stands
        self.lines: List[str] = []  # statements
        self.counter = next(name for name in ("i", "j", "k", *("i_%d" % n for n in range(99))) if name not in cls.integers)
        self.check_names()
        for name in cls.provisions:
            self.add_service(name)
        for name, requirement in cls.requirements.items():
            if isinstance(requirement, Begins):
                self.add_node(name, "source", requirement.size)
                self.bind(name, "out", name, requirement.size)
        if all(size is not None for _, size in self.nodes.values()):
            self.add_node("is", "account", None)  # else a component whose arrays are empty wouldn't be seen
        unused = sorted(set(cls.requirements) - set(self.ports.values()))
        if unused:
            raise Undescribable("%s: no service calls %s" % (self.name, ", ".join(unused)))

    def check_names(self) -> None:
        """Refuses what has no name or no integer in Darwin."""
        cls = self.cls
        for name in (self.name, *cls.provisions, *cls.requirements, *cls.integers):
            if name in KEYWORDS or not re.fullmatch(r"[A-Za-z_][A-Za-z0-9_]{0,63}", name):
                raise Undescribable("%s: %s is no name of Darwin" % (self.name, name))
        for parameter in list(inspect.signature(cls.__init__).parameters.values())[1:]:
            if parameter.kind is not parameter.POSITIONAL_OR_KEYWORD or parameter.default is not parameter.empty:
                raise Undescribable("%s: __init__ takes integers of the component alone, each without a default, and not %s" % (self.name, parameter))
        for name, size in sizes(cls):
            if isinstance(size, str) and size not in cls.integers:
                raise Undescribable("%s.%s: its size %s is no integer that __init__ takes" % (self.name, name, size))

    def add_node(self, name: str, kind: str, size: Size) -> None:
        """A node, or an array of nodes."""
        if name in self.nodes:
            raise Undescribable("%s: the name %s stands twice" % (self.name, name))
        self.nodes[name] = kind, size

    def bind(self, node: str, port: str, requirement: str, size: Size) -> None:
        """A port of a node, or of each element of an array, stands for a requirement, or for the element of it."""
        self.ports[node, port] = requirement
        self.each(size, "bind %s.%s -- %s;" % (self.element(node, size), port, self.element(requirement, size)))

    def element(self, name: str, size: Size) -> str:
        """What is one, or the element of an array that the counter tells."""
        return name if size is None else "%s[%s]" % (name, self.counter)

    def each(self, size: Size, statement: str) -> None:
        """A statement, said for each element where it is of an array."""
        self.lines.append(statement if size is None else "forall %s:0..%s - 1 { %s }" % (self.counter, size, statement))

    def add_service(self, name: str) -> None:
        """A node of the service's name, and behind it a chain of places with a node for each but the first of what it calls."""
        provision = self.cls.provisions[name]
        calls = [requirement for key, requirement in self.cls.requirements.items() if key in provision.calls]
        for requirement in calls:
            if isinstance(requirement, Begins):
                raise Undescribable("%s.%s calls %s, at which the component begins by itself" % (self.name, name, requirement.name))
            if requirement.size is not None:
                self.add_row(name, requirement.name, requirement.size)
        kind = "account" if not calls else "map" if len(calls) == 1 else "place"
        self.add_node(name, kind, provision.size)
        self.each(provision.size, "bind {0} -- {0}.{1};".format(self.element(name, provision.size), SERVICE[kind]))
        at, size, port = name, provision.size, {"map": "next", "place": "left"}.get(kind, "")
        for number, requirement in enumerate(calls, 2):
            self.lead(at, port, size, name, requirement.name, requirement.size)
            if number < len(calls):
                self.add_node("%s_%d" % (name, number), "place", None)
                self.each(size, "bind %s.right -- %s_%d.dine;" % (self.element(at, size), name, number))
                at, size = "%s_%d" % (name, number), None
            elif number == len(calls):
                port = "right"

    def add_row(self, name: str, requirement: str, size: Size) -> None:
        """A place for each element of an array that the service calls."""
        row = "%s_%s" % (name, requirement)
        self.add_node(row, "place", size)
        self.bind(row, "left", requirement, size)
        self.each(size, "when {1} < {2} - 1 bind {0}[{1}].right -- {0}[{1} + 1].dine;".format(row, self.counter, size))

    def lead(self, node: str, port: str, of: Size, name: str, requirement: str, size: Size) -> None:
        """A service's node leads to a requirement, or to the row of places for one that is an array."""
        if size is None:
            self.ports[node, port] = requirement
            self.each(of, "bind %s.%s -- %s;" % (self.element(node, of), port, requirement))
        else:
            self.each(of, "when %s > 0 bind %s.%s -- %s_%s[0].dine;" % (size, self.element(node, of), port, name, requirement))


SHAPES: Dict[Type[Component], Shape] = {}


def shape(cls: Type[Component]) -> Shape:
    """The shape of a class, which is made once."""
    if cls not in SHAPES:
        SHAPES[cls] = Shape(cls)
    return SHAPES[cls]


# ---- text


def port_lists(cls: Type[Component]) -> List[str]:
    """What a component provides and requires."""

    def listed(word: str, members: Sequence[Tuple[str, Size]]) -> List[str]:
        names = [name if size is None else "%s[%s]" % (name, size) for name, size in members]
        return ["  %s %s;" % (word, ", ".join(names))] if names else []

    return listed("provide", [(name, member.size) for name, member in cls.provisions.items()]) + listed(
        "require", [(name, member.size) for name, member in cls.requirements.items()]
    )


def argument_of(number: int, version: Sequence[str]) -> str:
    """The argument of the nodes of a class. Of a version that is none it is -1, which is refused, and no other class's."""
    if not version:
        return str(number * VERSIONS)
    return "(0 <= {0} and {0} < {1}) * ({0} % {1} + {2}) - 1".format(version[0], VERSIONS, number * VERSIONS + 1)


def declaration(cls: Type[Component], number: int) -> str:
    """A class as a component: around its nodes an instance for each integer but the first."""
    made = shape(cls)
    inner = "_".join([made.name, *cls.integers[1:]])
    parameters = "(%s)" % ", ".join("int " + name for name in cls.integers)
    lines: List[str] = []
    for at, integer in enumerate(cls.integers[1:], 1):
        lines += wrapping(made, integer, "_".join([made.name, *cls.integers[1:at]]), "_".join([made.name, *cls.integers[1 : at + 1]]), parameters)
    argument = "(%s)" % argument_of(number, cls.integers[:1])
    lines += ["component %s%s {" % (inner, parameters)] + port_lists(cls)
    for name, (kind, size) in made.nodes.items():
        if size is None:
            lines.append("  inst %s:%s%s;" % (name, kind, argument))
        else:
            lines.append("  array %s[%s]:%s%s;" % (name, size, kind, argument))
            lines.append("  forall %s:0..%s - 1 inst %s[%s];" % (made.counter, size, name, made.counter))
    return "\n".join(lines + ["  " + line for line in made.lines] + ["}"])


def wrapping(made: Shape, integer: str, outer: str, inner: str, parameters: str) -> List[str]:
    """A component with one instance, in whose path an integer stands."""
    cls, counter = made.cls, made.counter
    lines = ["component %s%s {" % (outer, parameters)] + port_lists(cls)
    lines.append("  array {0}[{0} + 1]:{1}({2});".format(integer, inner, ", ".join(cls.integers)))
    lines.append("  inst {0}[{0}];".format(integer))
    for name, size in sizes(cls):
        end = name if size is None else "%s[%s]" % (name, counter)
        loop = "" if size is None else "forall %s:0..%s - 1 " % (counter, size)
        lines.append("  {0}bind {1} -- {2}[{2}].{1};".format(loop, end, integer))
    return lines + ["}"]


def wiring(text: str) -> str:
    """A description without what was written behind it for one's own components."""
    return text.partition(NOTE)[0]


def description(text: str, classes: Sequence[Type[Component]]) -> str:
    """The wiring, and behind it what the components are made of, so that places in the wiring stay."""
    if len(classes) > CLASSES:
        raise Undescribable("there are %d classes, and %d are the most" % (len(classes), CLASSES))
    kinds = "".join("component %s%s\n" % kind for kind in KINDS.items())
    own = "".join(declaration(cls, number) + "\n" for number, cls in enumerate(classes))
    return "%s\n%s\n%s%s" % (wiring(text).rstrip("\n"), NOTE, own, kinds)


# ---- graphs


class Instance(NamedTuple):
    """A component of a system: the number of its class, and its integers."""

    number: int
    integers: Tuple[int, ...]


Key = Tuple[str, str]  # the path of an instance, and one of its requirements, as ("pool", "workers[2]")
SEGMENT = re.compile(r"(\w+)(?:\[(\d+)\])?")


class Place(NamedTuple):
    """Where a node stands: in which instance, by which name, with which index where it is one of an array."""

    path: str
    instance: Instance
    name: str
    element: Optional[int]


class Graph:
    """A system as the manager writes it: its nodes and links, and the instances and requirements for which these stand."""

    def __init__(self, text: str, classes: Sequence[Type[Component]]) -> None:
        self.classes = classes
        self.nodes: Dict[str, str] = {}  # kind and argument by path
        self.ports: Dict[str, str] = {}  # where each port leads, or "-"
        for line in text.splitlines():
            word, path, other = line.split(" ")
            (self.nodes if word == "node" else self.ports)[path] = other
        self.places = {path: self.place(path, node) for path, node in self.nodes.items()}
        self.instances = {place.path: place.instance for place in self.places.values()}
        self.links: Dict[Key, Optional[End]] = {
            (path, key): None for path, instance in self.instances.items() for key in self.keys(instance)
        }
        for port, target in self.ports.items():
            self.add_link(port, target)

    def place(self, path: str, node: str) -> Place:
        """For what a node stands, by its path and its argument."""
        number, version = divmod(int(node[node.index("(") + 1 : -1] or 0), VERSIONS)
        if number >= len(self.classes) or node.split("(")[0] not in PORTS:
            raise Undescribable("%s %s is no node of one's own components" % (path, node))
        cls = self.classes[number]
        segments = path.split(".")
        more = max(0, len(cls.integers) - 1)
        found = [SEGMENT.fullmatch(segment) for segment in segments[len(segments) - 1 - more :]]
        indexes = [int(match[2]) if match and match[2] else None for match in found]
        last = found[-1]
        assert last, path
        integers = ((version,) if cls.integers else ()) + tuple(index or 0 for index in indexes[:-1])
        return Place(".".join(segments[: len(segments) - 1 - more]), Instance(number, integers), last[1], indexes[-1])

    def is_root(self, key: Key) -> bool:
        """Whether it is a requirement at which its owner begins."""
        cls = self.classes[self.instances[key[0]].number]
        return isinstance(cls.requirements[key[1].partition("[")[0]], Begins)

    def keys(self, instance: Instance) -> List[str]:
        """The requirements of an instance, each element of an array by itself."""
        cls, found = self.classes[instance.number], []
        for name, requirement in cls.requirements.items():
            size = requirement.size
            count = instance.integers[cls.integers.index(size)] if isinstance(size, str) else size
            found += [name] if count is None else ["%s[%d]" % (name, index) for index in range(count)]
        return found

    def key(self, port: str) -> Optional[Key]:
        """The requirement for which a node's port stands; ports inside a component stand for none."""
        node, _, name = port.rpartition(".")
        place = self.places[node]
        made = shape(self.classes[place.instance.number])
        requirement = made.ports.get((place.name, name))
        if requirement is None:
            return None
        is_array = made.cls.requirements[requirement].size is not None
        return place.path, "%s[%d]" % (requirement, place.element or 0) if is_array else requirement

    def add_link(self, port: str, target: str) -> None:
        """Notes where the requirement of a port leads."""
        key = self.key(port)
        if key is None or target == "-":
            return
        place = self.places[target.rpartition(".")[0]]
        end = End(place.path, place.name, place.element)
        if self.links[key] not in (None, end):
            raise Undescribable("%s.%s leads to two services" % key)
        self.links[key] = end

    def begins(self, port: str) -> Optional[Key]:
        """The requirement at whose port, a source's, its owner begins."""
        return self.key(port) if self.nodes[port.rpartition(".")[0]].startswith("source(") else None


def words_of(call: str) -> List[str]:
    """The words of a component's call, as of `Shop(2)`."""
    match = re.fullmatch(r"\s*(\w+)\s*(?:\(\s*(-?\d+(?:\s*,\s*-?\d+)*)?\s*\))?\s*", call)
    if not match:
        raise ValueError("%r is no call of a component, as `Shop(2)`" % call)
    return [match[1], *re.findall(r"-?\d+", match[2] or "")]


def call_of(words: Sequence[str]) -> str:
    """The call of which these are the words."""
    return "%s(%s)" % (words[0], ", ".join(words[1:])) if len(words) > 1 else words[0]
