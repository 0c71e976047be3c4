"""Ten systems, each with a change in which nodes move; each of the twelve kinds of nodes moves in some of them."""
import re

from evolving import declarations
from tables import KINDS


def component(name, nodes, links):
    """Nodes as 'name:kind' or 'name:kind(argument)', links as 'source.port target'; a provision is the only one of its kind."""
    kinds = dict(re.match(r"(\w+):(\w+)", node).groups() for node in nodes)
    lines = ["component %s {" % name] + ["  inst %s;" % node for node in nodes]
    for link in links:
        source, target = link.split()
        lines.append("  bind %s -- %s.%s;" % (source, target, KINDS[kinds[target]][0][0]))
    return lines + ["}"]


LINE = ["s.out m", "m.next t"]
BANK = ["w.move r", "r.from a", "r.to c"]
TABLE = ["p.dine x", "q.dine y", "x.left f", "x.right g", "y.left g", "y.right f"]

# name, the nodes and links before and after, and which nodes move
SYSTEMS = [
    ("line", (["s:source(4)", "m:map(1)", "t:sink"], LINE), (["s:source(6)", "m:map(3)", "t:sink"], LINE), "s -> s"),
    ("sinks", (["s:source(5)", "t:sink"], ["s.out t"]), (["s:source(5)", "u:sink"], ["s.out u"]), "t -> u"),
    ("maps", (["s:source(4)", "m:map(1)", "n:map(2)", "t:sink"], ["s.out m", "m.next n", "n.next t"]), (["s:source(4)", "m:map(5)", "n:map(7)", "t:sink"], ["s.out n", "n.next m", "m.next t"]), "m -> n, n -> m"),
    ("buffer", (["s:source(5)", "b:buffer(1)", "t:sink"], ["s.out b", "b.next t"]), (["s:source(5)", "b:buffer(3)", "t:sink"], ["s.out b", "b.next t"]), "b -> b"),
    ("buffers", (["s:source(4)", "b:buffer(2)", "d:buffer(2)", "t:sink"], ["s.out b", "b.next d", "d.next t"]), (["s:source(7)", "d:buffer(2)", "e:buffer(4)", "t:sink"], ["s.out e", "e.next d", "d.next t"]), "b -> e, s -> s"),
    ("bank", (["w:teller(4)", "r:branch", "a:account(5)", "c:account(0)"], BANK), (["w:teller(6)", "r:branch", "a:account(1)", "c:account(2)"], BANK), "a -> c, c -> a, w -> w"),
    ("branches", (["w:teller(3)", "v:teller(3)", "r:branch", "a:account(9)", "c:account(2)"], BANK + ["v.move r"]), (["w:teller(3)", "v:teller(3)", "q:branch", "a:account(9)", "c:account(2)"], ["w.move q", "v.move q", "q.from c", "q.to a"]), "r -> q"),
    ("sums", (["q:asker(3)", "p:asker(2)", "d:adder"], ["q.sum d", "p.sum d"]), (["q:asker(5)", "p:asker(2)", "e:adder"], ["q.sum e", "p.sum e"]), "q -> q, d -> e"),
    ("table", (["p:philosopher(2)", "q:philosopher(2)", "x:place(0)", "y:place(1)", "f:fork", "g:fork"], TABLE), (["p:philosopher(3)", "q:philosopher(2)", "x:place(1)", "y:place(0)", "f:fork", "h:fork"], [link.replace(" g", " h") for link in TABLE]), "p -> p, x -> x, y -> y, g -> h"),
    ("alone", (["p:philosopher(2)", "x:place(9)", "f:fork", "g:fork", "s:source(2)", "m:map(1)", "t:sink"], ["p.dine x", "x.left f", "x.right g", "s.out m", "m.next t"]), (["p:philosopher(4)", "x:place(0)", "f:fork", "g:fork", "s:source(2)", "n:map(9)", "t:sink", "u:sink"], ["p.dine x", "x.left g", "x.right f", "s.out n", "n.next u"]), "p -> p, m -> n, x -> x"),
]


def description(old, new):
    lines = declarations() + component("Old", *old) + component("New", *new)
    return "\n".join(lines).encode() + b"\n"


def script(*lines):
    return "\n".join(("use a.dar", "start Old") + lines + ("end", "")).encode()
