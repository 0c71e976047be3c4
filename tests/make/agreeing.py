"""Systems that change while they run, and end with the same last states whatever the order of turns.

Of these it holds, as long as the change is committed and all comes to rest:

- a row of a source, maps, buffers and a sink, where between two buffers the maps add up to the same before and after the change, and buffers,
  source and sink hand over what they keep: items stay in order, and each gets the same added;
- a bank with one teller, whose accounts and teller hand over: its requests come one after the other;
- askers, whose own two values decide each sum; and philosophers, who eat as often as they are to.

`case(rng)` gives the texts of a description and of a script, and `LARGE` has some of many nodes.
"""
from changes import component, script
from evolving import declarations

ENOUGH = 1000000
MANY = """
component Chain(int n, int items) {
  array m[n]:map(1); inst s:source(items); t:sink; bind s.out -- m[0].in; m[n-1].next -- t.in;
  forall i:0..n-1 { inst m[i]; when i < n-1 bind m[i].next -- m[i+1].in; }
}
component Lanes(int n, int k, int j, int items) {
  array s[n]:source(items); m[n]:map(k); w[n]:map(j); t[n]:sink;
  forall i:0..n-1 { inst s[i]; m[i]; w[i]; t[i]; bind s[i].out -- m[i].in; m[i].next -- w[i].in; w[i].next -- t[i].in; }
}
component Table(int n, int meals, int lefts) {
  array ph[n]:philosopher(meals); pl[n]:place(0); f[n]:fork;
  forall i:0..n-1 {
    inst ph[i]; pl[i](i < lefts); f[i];
    bind ph[i].dine -- pl[i].dine; pl[i].left -- f[i].hold; pl[(i+n-1) % n].right -- f[i].hold;
  }
}
"""
# a start of each, how many transactions end before the change, and to what it changes
LARGE = [
    ("Chain(1000,3)", 1500, "Chain(1000,3)"),
    ("Lanes(100,1,7,5)", 500, "Lanes(100,7,1,5)"),
    ("Lanes(2,1,7,400)", 500, "Lanes(2,7,1,400)"),
    ("Table(100,3,1)", 400, "Table(100,3,50)"),
]


def text(old, new):
    return "\n".join(declarations() + component("Old", *old) + component("New", *new)).encode() + b"\n"


def row(rng):
    """The nodes and links of a row before and after, and its moves."""
    nodes, chain, moves = ([], []), ["s"], []
    for stretch in range(rng.randrange(1, 4)):
        if stretch:
            name = "b%d" % stretch
            capacities = rng.randrange(1, 4), rng.randrange(4, 7)
            chain.append(name)
            moves.append("%s -> %s" % (name, name))
            for side, capacity in zip(nodes, capacities):
                side.append("%s:buffer(%d)" % (name, capacity))
        names = ["m%d%d" % (stretch, at) for at in range(rng.randrange(1, 4))]
        added = [rng.randrange(1, 6) for _ in names]
        for side, amounts in zip(nodes, (added, rng.sample(added, len(added)))):
            side += ["%s:map(%d)" % pair for pair in zip(names, amounts)]
        chain += names
    count = rng.randrange(1, 9)
    ends = (["s:source(%d)" % count, "t:sink"], ["s:source(%d)" % (count + 2), "u:sink"])
    links = [["%s.%s %s" % (one, "out" if one == "s" else "next", other) for one, other in zip(chain, chain[1:] + [last])] for last in ("t", "u")]
    return (nodes[0] + ends[0], links[0]), (nodes[1] + ends[1], links[1]), ["s -> s", "t -> u"] + moves


def bank(rng):
    links, amounts = ["w.move r", "r.from a", "r.to c"], (rng.randrange(12), rng.randrange(12))
    old = ["w:teller(%d)" % rng.randrange(1, 7), "r:branch", "a:account(%d)" % amounts[0], "c:account(%d)" % amounts[1]]
    new = ["w:teller(%d)" % rng.randrange(7, 10), "r:branch", "d:account(20)", "c:account(%d)" % amounts[1]]
    return (old, links), (new, ["w.move r", "r.from d", "r.to c"]), ["w -> w", "a -> d"]


def sums(rng):
    old = ["p:asker(%d)" % rng.randrange(1, 5), "q:asker(%d)" % rng.randrange(1, 5), "d:adder"]
    new = ["p:asker(%d)" % rng.randrange(5, 8), old[1], "e:adder"]
    return (old, ["p.sum d", "q.sum d"]), (new, ["p.sum e", "q.sum e"]), ["p -> p"]


def table(rng):
    links = ["p.dine x", "q.dine y", "x.left f", "x.right g", "y.left g", "y.right f"]
    old = ["p:philosopher(%d)" % rng.randrange(1, 4), "q:philosopher(2)", "x:place(0)", "y:place(1)", "f:fork", "g:fork"]
    new = ["p:philosopher(%d)" % rng.randrange(4, 6)] + old[1:]
    return (old, links), (new, links), ["p -> p"]


def case(rng):
    old, new, moves = rng.choice([row, row, row, bank, sums, table])(rng)
    change = "change to New within %d moving %s" % (ENOUGH, ", ".join(moves))
    lines = ["run %d" % rng.choice([0, 1, 2, 3, 5, 8, 13]), change, "run %d" % rng.randrange(4), "finish within %d" % ENOUGH]
    return text(old, new), script(*lines)


def large(start, count, changed):
    """The texts of a description and of a script of many nodes."""
    lines = ["use a.dar", "start " + start, "run %d" % count, "change to %s within %d" % (changed, ENOUGH), "finish within %d" % ENOUGH, "end", ""]
    return ("\n".join(declarations()) + MANY).encode(), "\n".join(lines).encode()
