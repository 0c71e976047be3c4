"""Graphs: their text, the cycles in them, and how many nodes and ports they have.

A graph is the pair (nodes, links) that `forms.graph` reads.
"""
from tables import DEPENDS, KINDS

EMPTY = ({}, {})


def kind_text(node):
    return node[0].encode() + b"(" + node[1] + b")"


def graph_text(graph):
    nodes, links = graph
    lines = []
    for path, node in nodes.items():
        lines.append(b"node " + path + b" " + kind_text(node))
        for name in KINDS[node[0]][1]:
            target = links[(path, name.encode())]
            lines.append(b"port " + path + b"." + name.encode() + b" " + (b".".join(target) if target else b"-"))
    return b"".join(line + b"\n" for line in lines)


def is_on_cycle(graph, path):
    """Whether dependent services lead from a node to itself."""
    nodes, links = graph
    work, seen = [path], set()
    while work:
        here = work.pop()
        kind = nodes[here][0]
        for name in DEPENDS.get(kind, ()):
            target = links[(here, name.encode())]
            if target and target[0] == path:
                return True
            if target and target[0] not in seen:
                seen.add(target[0])
                work.append(target[0])
    return False


def first_on_cycle(graph):
    """The first node, by its path, from which dependent services lead back to itself, or None."""
    return next((path for path in graph[0] if is_on_cycle(graph, path)), None)


def flat_text(graph, file):
    """What `flat` writes of a graph, or the refusal of its first cycle, as (status, text)."""
    path = first_on_cycle(graph)
    if path is not None:
        return 2, b"description " + file + b": DependsCycle " + path + b"\n"
    return 0, graph_text(graph)


def count_made(graph):
    """How many nodes and ports it has."""
    return len(graph[0]), len(graph[1])
