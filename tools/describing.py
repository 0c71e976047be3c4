"""Writes descriptions of graphs: for each a component that `flat` makes into it, with the same paths.

A frame is an instance that holds others. Frames that stand in one array are of one component, which a parameter tells apart; so what
stands under one name there has to be of one kind in all of them.
"""
import re

import texts
from pages import Bad

NAME_LIMIT = 64


def parts_of(segment):
    """The name of a segment, and its index or None."""
    found = re.fullmatch(r"([^\[]+)(?:\[([0-9]+)\])?", segment)
    if not found:
        raise Bad("%s is no segment of a path that a description can make" % segment)
    return found[1], None if found[2] is None else int(found[2])


class Frame:
    """What stands in an instance: nodes and frames by their segments, links right in it, and the ports that lead out of it; of ends within
    frames what is left of the path."""

    def __init__(self):
        self.nodes, self.frames, self.links, self.outward = {}, {}, set(), {"require": set(), "provide": set()}

    def key(self):
        """What tells it from others."""
        frames = tuple((name, frame.key()) for name, frame in sorted(self.frames.items()))
        return tuple(sorted(self.nodes.items())), frames, tuple(sorted(self.links)), tuple(sorted(self.outward["require"])), tuple(sorted(self.outward["provide"]))


def framed(graph):
    """The frame of a whole graph."""
    top = Frame()
    for path, node in graph.nodes.items():
        *frames, last = path.split(".")
        inside(top, frames).nodes[last] = node.kind, node.argument
    for (owner, name), target in graph.links.items():
        if target:
            lead(top, owner.split(".") + [name], target[0].split(".") + [target[1]])
    return top


def inside(top, segments):
    for segment in segments:
        top = top.frames.setdefault(segment, Frame())
    return top


def lead(top, owner, target):
    """Leads a link out of the frames of its owner, across, and into those of its target."""
    same = 0
    while same < min(len(owner), len(target)) - 2 and owner[same] == target[same]:
        same += 1
    for side, end in (("require", owner), ("provide", target)):
        for depth in range(same + 1, len(end) - 1):
            inside(top, end[:depth]).outward[side].add(".".join(end[depth:]))
    inside(top, owner[:same]).links.add((".".join(owner[same:]), ".".join(target[same:])))


class Component:
    """A component of these frames, which differ by its parameter where they are several."""

    def __init__(self, name, frames):
        self.name, self.frames, self.ports = name, frames, {}

    def port(self, side, end):
        """The name of the port by which an end within leads out."""
        if (side, end) not in self.ports:
            name = re.sub(r"[^A-Za-z0-9]+", "_", "%s_%s" % ("to" if side == "require" else "at", end)).rstrip("_")
            if len(name) > NAME_LIMIT or name in self.ports.values():
                name = "%s_%d" % ("to" if side == "require" else "at", len(self.ports))
            self.ports[side, end] = name
        return self.ports[side, end]

    def number(self, frame):
        """The arguments that make this frame of it."""
        return "(%d)" % [one.key() for one in self.frames].index(frame.key()) if len(self.frames) > 1 else ""


class Writer:
    """The components of some graphs, in the order in which they are met."""

    def __init__(self):
        self.components, self.texts, self.kinds = {}, [], set()

    def component(self, frames, name=None):
        """The component of these frames, each told once."""
        found = {}
        for frame in frames:
            found.setdefault(frame.key(), frame)
        key = tuple(found)
        if key not in self.components:
            made = self.components[key] = Component(name or "Part%d" % (len(self.components) + 1), list(found.values()))
            self.texts.append(self.text(made))
        return self.components[key]

    def text(self, component):
        entries = self.entries(component)
        ports = ["  %s %s;" % (side, component.port(side, end)) for side in ("provide", "require") for end in sorted(set().union(*(frame.outward[side] for frame in component.frames)))]
        arrays = ["  array %s[%d]:%s%s;" % (name, size, of if isinstance(of, str) else of.name, "(0)" if self.has_argument(of) else "") for name, (of, size) in entries.items() if size is not None]
        bodies = [self.body(component, frame, entries) or self.nothing() for frame in component.frames]
        if len(bodies) > 1:
            bodies = [["  when v == %d {" % number, *("  " + line for line in body), "  }"] for number, body in enumerate(bodies)]
        head = "component %s%s {" % (component.name, "(int v)" if len(bodies) > 1 else "")
        return "\n".join([head, *ports, *arrays, *sum(bodies, []), "}"])

    def nothing(self):
        """The body of a system without nodes: without an entry it would be a kind."""
        self.kinds.add("sink")
        return ["  when 0 inst none:sink;"]

    def has_argument(self, of):
        return texts.KINDS[of].has_argument if isinstance(of, str) else len(of.frames) > 1

    def entries(self, component):
        """What stands under each name: a kind or a component, and how many elements an array of it has, or None."""
        held = {}
        for frame in component.frames:
            for segment, what in [*((segment, kind) for segment, (kind, _) in frame.nodes.items()), *frame.frames.items()]:
                held.setdefault(parts_of(segment)[0], []).append((segment, what))
        return {name: self.entry(name, found) for name, found in held.items()}

    def entry(self, name, found):
        """The same of one name, under which these segments stand."""
        indexes = {parts_of(segment)[1] for segment, _ in found}
        kinds = {what if isinstance(what, str) else "" for _, what in found}
        if len(kinds) > 1 or None in indexes and len(indexes) > 1:
            raise Bad("between two parts not all under the name %s is of one kind, or one array: no description can say that" % name)
        kind = kinds.pop()
        if kind:
            self.kinds.add(kind)
        return kind or self.component([what for _, what in found]), None if None in indexes else max(indexes) + 1

    def body(self, component, frame, entries):
        """The entries and bindings of one frame."""
        lines = []
        for segment, (kind, argument) in frame.nodes.items():
            lines.append("  inst %s%s%s;" % (segment, "" if "[" in segment else ":" + kind, "(%s)" % argument if argument != "" else ""))
        for segment, inner in frame.frames.items():
            of = entries[parts_of(segment)[0]][0]
            lines.append("  inst %s%s%s;" % (segment, "" if "[" in segment else ":" + of.name, of.number(inner)))

        def end(words, side):
            segment, _, rest = words.partition(".")
            of = entries[parts_of(segment)[0]][0]
            return "%s.%s" % (segment, rest if isinstance(of, str) else of.port(side, rest))

        lines += ["  bind %s -- %s;" % (end(owner, "require"), end(target, "provide")) for owner, target in sorted(frame.links)]
        lines += ["  bind %s -- %s;" % (end(words, "require"), component.port("require", words)) for words in sorted(frame.outward["require"])]
        return lines + ["  bind %s -- %s;" % (component.port("provide", words), end(words, "provide")) for words in sorted(frame.outward["provide"])]

    def kind_lines(self):
        """The declarations of the kinds that are used."""
        for name, kind in texts.KINDS.items():
            if name in self.kinds:
                ports = "".join(" %s %s;" % (side, ", ".join(names)) for side, names in (("provide", kind.provides), ("require", kind.requires)) if names)
                yield "component %s%s {%s }" % (name, "(int x)" if kind.has_argument else "", ports)


def described(graphs):
    """The description of these graphs, by the names of their components."""
    writer = Writer()
    names = {}
    for name, graph in graphs.items():
        made = writer.component([framed(graph)], name)
        names[name] = made.name
    return "\n".join([*writer.kind_lines(), *writer.texts]) + "\n", names
