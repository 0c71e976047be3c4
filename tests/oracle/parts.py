"""Parts of a change once more, written plainly over graphs: which nodes change together, the graphs between the parts,
and the plan and the moves of each part.

A node is what its path, kind and argument say, whichever graph it stands in.
"""
from graphs import first_on_cycle
from plans import Plan


def nodes_of(graph):
    return set(graph[0].items())


def connections(graph):
    """Which nodes are linked, as pairs."""
    nodes, links = graph
    return {((port[0], nodes[port[0]]), (target[0], nodes[target[0]])) for port, target in links.items() if target}


def connections_from(graph, node):
    """What the ports of a node are linked to."""
    nodes, links = graph
    return {(port[1], (target[0], nodes[target[0]]), target[1]) for port, target in links.items() if target and port[0] == node[0]}


def changed_nodes(old, new):
    """The nodes that are removed, are created, or have a port that gets another target."""
    both = nodes_of(old) & nodes_of(new)
    touched = {node for node in both if connections_from(old, node) != connections_from(new, node)}
    return (nodes_of(old) ^ nodes_of(new)) | touched


def ties(old, new, moves):
    """The pairs of nodes that have to change together."""
    removed, created = nodes_of(old) - nodes_of(new), nodes_of(new) - nodes_of(old)
    tied = {(a, b) for a in removed for b in created if a[0] == b[0] or (a[0], b[0]) in moves}
    tied |= {(a, b) for a, b in connections(old) if b in removed}
    tied |= {(a, b) for a, b in connections(new) if b in created}
    return tied


def groups(old, new, moves):
    """The classes of changed nodes, in the order of their least paths."""
    classes = [{node} for node in changed_nodes(old, new)]
    for pair in ties(old, new, moves):
        joined = [group for group in classes if group & set(pair)]
        classes = [group for group in classes if not group & set(pair)] + [set().union(*joined)]
    return sorted(classes, key=lambda group: min(path for path, _ in group))


def after(graph, old, new, taken):
    """A graph to which nodes that change together are applied: those of them that are removed go, those that are created come, and all
    ports of the created and of the kept ones lead where they lead in the new graph."""
    removed, created = nodes_of(old) - nodes_of(new), nodes_of(new) - nodes_of(old)
    nodes = dict(sorted((nodes_of(graph) - (removed & taken)) | (created & taken)))
    links = {}
    for node in nodes.items():
        leads = (new if node in taken else graph)[1]
        links.update({port: target for port, target in leads.items() if port[0] == node[0]})
    return nodes, links


def parts(old, new, moves=()):
    """The graph after each part, the moves of it, and its plan: each part takes as few of the groups that are left as it can, in order,
    without leaving a cycle of dependent services."""
    made, before, taken = [], old, set()
    for group in groups(old, new, set(moves)):
        taken = taken | group
        stage = after(before, old, new, taken)
        if first_on_cycle(stage) is None:
            own = [(source, to) for source, to in moves if (source, old[0][source]) in taken]
            made.append((stage, own, Plan(before, stage, own)))
            before, taken = stage, set()
    return made


def parts_text(old, new, moves=()):
    """A line with the number of each part, and the text of its plan."""
    return b"".join(b"part %d\n" % number + plan.text() for number, (_, _, plan) in enumerate(parts(old, new, moves), 1))
