"""Random descriptions in which each name is declared and each count is right, while values are any: so their elaboration is reached, and shows its faults.

`checked(rng)` gives the tokens, the name of the top and its arguments.
"""
from descriptions import Lawful
from tables import KINDS

SIGNS = "+ + - - * / % == != < <= > >= and or".split()
EXTREMES = ["2147483647", "(-2147483647-1)", "16777215", "16777216", "65536", "65537", "46341"]


class Part:
    """A component that ends may name: its parameters, and its ports as (side, name, whether it has a size)."""

    def __init__(self, name, params, ports):
        self.name, self.params, self.ports = name, params, ports


class System:
    """Components over kinds. Wildness is how often a value, an end or a place for a statement is taken at random where another would be fitting."""

    def __init__(self, rng):
        self.rng = rng
        self.wild = rng.choice([0.0, 0.01, 0.03, 0.1, 0.4])
        self.parts = []
        self.counter = 0

    def is_wild(self):
        return self.rng.random() < self.wild

    def some(self, most):
        return range(self.rng.randrange(most + 1))

    def number(self, names, depth=0):
        """Tokens of an expression over these names."""
        rng = self.rng
        pick = rng.random()
        if self.is_wild():
            return [rng.choice(EXTREMES)] if pick < 0.7 else ["-", rng.choice(EXTREMES)]
        if depth > 2 or pick < 0.45:
            return [str(rng.choice([0, 1, 1, 2, 2, 3, 4]))]
        if pick < 0.75 and names:
            return [rng.choice(names)]
        if pick < 0.8:
            return ["-"] + self.number(names, depth + 1)
        sign = rng.choice(SIGNS)
        return ["("] + self.number(names, depth + 1) + [sign] + self.number(names, depth + 1) + [")"]

    def small(self, names):
        """Tokens of a size, which most often is at least 1."""
        return self.number(names) if self.is_wild() else [self.rng.choice(["1", "2", "3"] + names)]

    def args(self, part, names):
        """Arguments for a component, most often such that the kinds below can have them."""
        out = []
        for _ in part.params:
            inner = self.number(names)
            out += [","] + (inner if self.is_wild() else ["("] + inner + ["*"] + inner + [")"])
        return ["("] + out[1:] + [")"] if out or self.rng.random() < 0.2 else []

    def note(self):
        pick = self.rng.random()
        return ["<", self.rng.choice(["item", "int"]), ">"] if pick < self.wild / 2 else ["<", "item", ">"] if pick < 0.2 else []

    def kinds(self):
        out = Lawful(self.rng).kinds()
        for kind, (provides, requires, has) in KINDS.items():
            ports = [("provide", name, False) for name in provides] + [("require", name, False) for name in requires]
            self.parts.append(Part(kind, ["n"] if has else [], ports))
        return out

    def declared_ports(self, params):
        items, ports = [], []
        for index in self.some(3):
            side, is_sized = self.rng.choice(["provide", "require"]), self.rng.random() < 0.4
            name = "p%d" % index
            size = ["["] + self.small(params) + ["]"] if is_sized else []
            items.append([side, name] + size + self.note() + [";"])
            ports.append((side, name, is_sized))
        return items, ports

    def component(self, name):
        """A component over those before it, and seldom over itself."""
        rng = self.rng
        params = ["n", "k"][: rng.choice([0, 1, 1, 2])]
        items, ports = self.declared_ports(params)
        self.here = Part(name, params, ports)
        choices = self.parts + [self.here] if self.is_wild() and rng.random() < 0.3 else self.parts
        self.instances, self.sources, self.again = [], set(), None
        for index in range(rng.randrange(1, 5)):
            part = rng.choice(choices[-6:] if rng.random() < 0.4 else choices)
            instance = "%s%d" % (rng.choice("abx"), index)
            is_array = rng.random() < 0.45
            self.instances.append((instance, part, is_array))
            items += self.array(instance, part, params) if is_array else self.single(instance, part, params)
        for _ in self.some(14):
            items.append(self.bound(params))
        rng.shuffle(items)
        self.parts.append(self.here)
        return ["component", name] + self.declared(params) + ["{"] + sum(items, []) + ["}"]

    def declared(self, params):
        return ["("] + sum(([",", "int", name] for name in params), [])[1:] + [")"] if params else []

    def variable(self):
        self.counter += 1
        return "i%d" % self.counter

    def array(self, instance, part, params):
        """An array with the statement that makes its elements, most often each of them."""
        size = self.small(params)
        own = self.rng.random() < 0.4
        # an array whose own arguments nothing takes may have any number of them
        args = self.args(part, params) if not own or self.rng.random() < 0.5 else []
        made = [["array", instance, "["] + size + ["]", ":", part.name] + args + [";"]]
        turn = self.variable()
        inner = self.args(part, params + [turn]) if own else []
        if own and not inner:
            inner = ["(", ")"] if not part.params else inner
        last = self.number(params) if self.is_wild() else size + ["-", "1"]
        index = self.number(params + [turn]) if self.is_wild() else [turn]
        statement = ["inst", instance, "["] + index + ["]"] + inner + [";"]
        made.append(["forall", turn, ":"] + (self.number(params) if self.is_wild() else ["0"]) + [".."] + last + self.tested(statement, params + [turn]))
        return made

    def single(self, instance, part, params):
        """A single entry, or two of which a test lets one through."""
        args = lambda: self.args(part, params)
        entry = lambda: [instance, ":", part.name] + args() + [";"]
        if self.rng.random() < 0.8:
            return [self.tested(["inst"] + entry(), params)]
        test = ["("] + self.number(params) + [")"]
        return [["when"] + test + ["inst"] + entry(), ["when"] + test + ["==", "0", "inst"] + entry()]

    def tested(self, statement, names):
        """The statement, perhaps under tests and turns that seldom stop it."""
        rng = self.rng
        for _ in range(rng.choice([0, 0, 0, 1, 2])):
            body = ["{"] + statement + ["}"] if rng.random() < 0.6 else statement
            if rng.random() < 0.7:
                statement = ["when"] + (self.number(names) if self.is_wild() else ["1", "or"] + self.number(names)) + body
            else:
                at = self.number(names) if self.is_wild() else ["2"]
                statement = ["forall", self.variable(), ":"] + at + [".."] + at + body
        return statement

    def end(self, names, wanted, is_source):
        """Tokens of an end of this (place, side), or of any. A source that is taken isn't taken again."""
        rng = self.rng
        found = [(None, False, port) for port in self.here.ports if wanted in (None, ("outer", port[0]))]
        found += [(name, is_array, port) for name, part, is_array in self.instances for port in part.ports if wanted in (None, ("inner", port[0]))]
        if is_source and not self.is_wild():
            found = [one for one in found if (one[0], one[2]) not in self.sources]
        if not found:
            return None
        name, is_array, (side, port, is_sized) = rng.choice(found)
        if is_source:
            self.sources.add((name, (side, port, is_sized)))
        out = []
        if name is not None:
            out = [name] + (self.place(names) if is_array != self.is_wild() else []) + ["."]
        return out + [port] + (self.place(names) if is_sized != self.is_wild() else [])

    def place(self, names):
        return ["["] + (self.number(names) if self.is_wild() else [self.rng.choice(["0"] * 6 + ["1"] + names[2:])]) + ["]"]

    def bound(self, params):
        """A binding, most often of a form that is allowed, perhaps one for each of a few turns."""
        rng = self.rng
        turn = [self.variable()] if rng.random() < 0.3 else []
        names = params + turn
        forms = [("inner require", "inner provide"), ("inner require", "outer require"), ("outer provide", "inner provide")]
        form = rng.choices(forms, [3, 1, 1])[0]
        ends = [self.end(names, None if self.is_wild() else tuple(one.split()), one == form[0]) for one in form]
        if None in ends:
            return []
        if self.is_wild() and self.again:
            ends[0] = self.again
        self.again = ends[0] if not turn else None
        rng.shuffle(ends)
        statement = ["bind"] + ends[0] + ["--"] + ends[1] + [";"]
        statement = self.tested(statement, names)
        return ["forall"] + turn + [":", "0", "..", rng.choice(["0", "0", "1", "2"])] + statement if turn else statement

    def description(self):
        tokens = self.kinds()
        count = self.rng.randrange(1, 5)
        names = ["C%d" % index for index in range(count - 1)] + ["Top"]
        for name in names:
            tokens = tokens + self.component(name) if self.rng.random() < 0.5 else self.component(name) + tokens
        args = [str(self.rng.choice([0, 1, 2, 3, 3, 5]) if not self.is_wild() else self.rng.choice([-1, 2147483647, -2147483648, 70000])) for _ in self.here.params]
        return tokens, "Top", args


def checked(rng):
    return System(rng).description()
