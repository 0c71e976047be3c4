"""The language once more, written plainly from its rules and apart from the proved code, to compare the program with.

`Description(text)` reads a text; `answers(top, args)` gives the graph, or every fault that may be named. Rules are stated in docs/language.md. Where several
faults hold the program may name any of them, so a set of faults comes out, each as the words that a refusal has behind the file's name.
"""
import re
from collections import Counter

from graphs import first_on_cycle
from tables import KEYWORDS, KINDS, SIGNS

LEAST, GREATEST = -(1 << 31), (1 << 31) - 1
ARGUMENT_LIMIT = 1 << 24
NAME_LIMIT, BODY_LIMIT, OPERAND_LIMIT, DEPTH_LIMIT, COUNT_LIMIT = 64, 16, 32, 32, 65536
COMPARISONS = {
    "==": lambda a, b: a == b,
    "!=": lambda a, b: a != b,
    "<": lambda a, b: a < b,
    "<=": lambda a, b: a <= b,
    ">": lambda a, b: a > b,
    ">=": lambda a, b: a >= b,
}
LEVELS = [["or"], ["and"], list(COMPARISONS), ["+", "-"], ["*", "/", "%"]]
PIECE = re.compile(
    rb"(?P<blank>[ \t\r\n]+|//[^\n]*|/\*.*?\*/)|(?P<open>/\*)|(?P<name>[A-Za-z_][A-Za-z_0-9]*)|(?P<number>[0-9]+)|(?P<sign>%s)"
    % b"|".join(re.escape(sign.encode()) for sign in sorted(SIGNS, key=len, reverse=True)),
    re.S,
)


class Refused(Exception):
    """The first fault of tokens or grammar, at an offset."""

    def __init__(self, name, offset):
        self.name, self.offset = name, offset


def tokens_of(text):
    """The tokens of a text as (kind, word, offset); the kind of a keyword or a sign is the word itself. The last is the text's end."""
    tokens, at = [], 0
    while at < len(text):
        found = PIECE.match(text, at)
        if not found:
            raise Refused("BadByte", at)
        word = found[0].decode("latin-1")
        kind = found.lastgroup
        if kind == "open":
            raise Refused("OpenComment", at)
        if kind == "name" and len(word) > NAME_LIMIT:
            raise Refused("LongName", at)
        if kind == "number" and int(word.lstrip("0")[:11] or "0") > GREATEST:
            raise Refused("BigNumber", at)
        if kind != "blank":
            tokens.append((word if kind == "sign" or word in KEYWORDS else kind, word, at))
        at = found.end()
    return tokens + [("end", "", len(text))]


class Component:
    """A component: its parameters, ports as name to [(side, size, note, place)], arrays as name to [(size, component, arguments, place)] in the order in which
    they stand, the components of its single entries as name to set, and the statements of its body.

    A statement is ("inst", name, index, component, arguments, place), where the component of an element is None, ("bind", end, end, place),
    ("forall", variable, first, last, body, place) or ("when", test, body, place); an end is (instance, index, port, index). What isn't there is None."""

    def __init__(self, name):
        self.name, self.params, self.ports, self.arrays, self.body = name, [], {}, {}, []
        self.singles = {}

    def statements(self):
        """All statements, with the variables round each."""
        work = [(statement, ()) for statement in reversed(self.body)]
        while work:
            statement, variables = work.pop()
            yield statement, variables
            if statement[0] == "forall":
                work += [(inner, variables + (statement[1],)) for inner in reversed(statement[4])]
            if statement[0] == "when":
                work += [(inner, variables) for inner in reversed(statement[2])]


class Parser:
    """A cursor over tokens, with a method for each production."""

    def __init__(self, tokens):
        self.tokens, self.at = tokens, 0

    def next(self):
        return self.tokens[self.at][0]

    def place(self):
        return self.tokens[self.at][2]

    def expect(self, kind):
        if self.next() != kind:
            raise Refused("Expected", self.place())
        self.at += 1
        return self.tokens[self.at - 1][1]

    def takes(self, kind):
        if self.next() != kind:
            return False
        self.at += 1
        return True

    def listed(self, close, item):
        """Items between commas up to a closing sign, maybe none."""
        items = []
        if not self.takes(close):
            items.append(item())
            while self.takes(","):
                items.append(item())
            self.expect(close)
        return items

    def unit(self):
        components = []
        while self.next() != "end":
            components.append(self.component())
        return components

    def param(self):
        self.expect("int")
        return self.expect("name")

    def component(self):
        self.expect("component")
        made = Component(self.expect("name"))
        if self.takes("("):
            made.params = self.listed(")", self.param)
        self.expect("{")
        while not self.takes("}"):
            self.item(made)
        return made

    def item(self, made):
        place = self.place()
        if self.next() in ("provide", "require"):
            side = self.expect(self.next())
            self.port(made, side, place)
            while self.takes(","):
                self.port(made, side, place)
            self.expect(";")
        elif self.takes("array"):
            self.array(made)
            while self.next() == "name":
                self.array(made)
        else:
            made.body += self.statement(0)

    def port(self, made, side, place):
        name, size, note = self.expect("name"), self.index(), None
        if self.takes("<"):
            note = []
            while not (note and self.takes(">")):
                if self.next() not in ("name", "int", ","):
                    raise Refused("Expected", self.place())
                note.append(self.expect(self.next()))
        made.ports.setdefault(name, []).append((side, size, note, place))

    def array(self, made):
        place, name = self.place(), self.expect("name")
        self.expect("[")
        size = self.expression()
        self.expect("]")
        self.expect(":")
        component, args = self.expect("name"), self.arguments()
        self.expect(";")
        made.arrays.setdefault(name, []).append((size, component, args, place))

    def index(self):
        if not self.takes("["):
            return None
        value = self.expression()
        self.expect("]")
        return value

    def arguments(self):
        return self.listed(")", self.expression) if self.takes("(") else None

    def statement(self, depth):
        """The statements that one statement's words stand for: a list has one for each entry."""
        place, kind = self.place(), self.next()
        if kind in ("forall", "when") and depth == BODY_LIMIT:
            raise Refused("TooNested", place)
        if self.takes("forall"):
            variable = self.expect("name")
            self.expect(":")
            first = self.expression()
            self.expect("..")
            return [("forall", variable, first, self.expression(), self.body(depth + 1), place)]
        if self.takes("when"):
            return [("when", self.expression(), self.body(depth + 1), place)]
        if kind not in ("inst", "bind"):
            raise Refused("Expected", place)
        self.at += 1
        entry = self.instance if kind == "inst" else self.binding
        entries = [entry()]
        while self.next() == "name":
            entries.append(entry())
        return entries

    def body(self, depth):
        if not self.takes("{"):
            return self.statement(depth)
        statements = []
        while not self.takes("}"):
            statements += self.statement(depth)
        return statements

    def instance(self):
        place, name, index, component = self.place(), self.expect("name"), None, None
        if self.next() == "[":
            index = self.index()
        else:
            self.expect(":")
            component = self.expect("name")
        args = self.arguments()
        self.expect(";")
        return "inst", name, index, component, args, place

    def binding(self):
        place, left = self.place(), self.end()
        self.expect("--")
        right = self.end()
        self.expect(";")
        return "bind", left, right, place

    def end(self):
        name, index = self.expect("name"), self.index()
        if not self.takes("."):
            return None, None, name, index
        return name, index, self.expect("name"), self.index()

    def expression(self, level=0, depth=0):
        """An expression is ("number", value), ("name", name), ("minus", operand) or ("chain", first, [(sign, operand), ..])."""
        if level == len(LEVELS):
            return self.factor(depth)
        first, rest = self.expression(level + 1, depth), []
        while self.next() in LEVELS[level] and not (level == 2 and rest):
            rest.append((self.expect(self.next()), self.expression(level + 1, depth)))
        return ("chain", first, rest) if rest else first

    def factor(self, depth):
        if self.next() in ("(", "-") and depth == OPERAND_LIMIT:
            raise Refused("TooNested", self.place())
        if self.takes("("):
            value = self.expression(0, depth + 1)
            self.expect(")")
            return value
        if self.takes("-"):
            return "minus", self.factor(depth + 1)
        if self.next() == "number":
            return "number", int(self.expect("number").lstrip("0") or "0")
        return "name", self.expect("name")


def names_in(expression):
    """The names that an expression uses."""
    if expression is None or expression[0] == "number":
        return set()
    if expression[0] == "name":
        return {expression[1]}
    if expression[0] == "minus":
        return names_in(expression[1])
    return names_in(expression[1]).union(*[names_in(operand) for _, operand in expression[2]])


def operation(sign, left, right):
    """The value of an operation, or the names of its faults."""
    if sign in COMPARISONS:
        return int(COMPARISONS[sign](left, right))
    if sign in "/%" and right == 0:
        return {"ZeroDivisor"}
    quotient = abs(left) // abs(right) * (-1 if (left < 0) != (right < 0) else 1) if sign in "/%" else 0
    exact = {"+": left + right, "-": left - right, "*": left * right, "/": quotient, "%": left - right * quotient}[sign]
    return exact if LEAST <= exact <= GREATEST else {"OutOfRange"}


def value(expression, values):
    """The value of an expression, or a set with the names of its faults."""
    if expression[0] == "number":
        return expression[1]
    if expression[0] == "name":
        return values[expression[1]]
    if expression[0] == "minus":
        inner = value(expression[1], values)
        return inner if isinstance(inner, set) else operation("-", 0, inner)
    left = value(expression[1], values)
    for sign, operand in expression[2]:
        if sign in ("or", "and"):
            if isinstance(left, set):
                continue
            right = int(sign == "or") if (left != 0) == (sign == "or") else value(operand, values)
            left = right if isinstance(right, set) else int(right != 0)
            continue
        right = value(operand, values)
        if isinstance(left, set) or isinstance(right, set):
            left = set().union(*[side for side in (left, right) if isinstance(side, set)])
        else:
            left = operation(sign, left, right)
    return left


class Check:
    """The faults of names, counts and kinds of a description."""

    def __init__(self, components):
        self.components, self.faults = {}, set()
        for component in components:
            self.components.setdefault(component.name, []).append(component)
        self.faults |= {"TwoComponents %s" % name for name, found in self.components.items() if len(found) > 1}
        for component in components:
            self.here, self.params = component, frozenset(component.params)
            self.declarations()
            self.entries()
            if is_primitive(component):
                self.kind()

    def fault(self, name, *fields):
        self.faults.add(" ".join([name, self.here.name] + [str(field) for field in fields]))

    def uses(self, expressions, variables=()):
        """Expressions that see the parameters and these variables."""
        for expression in expressions:
            for name in names_in(expression) - self.params:
                if name not in variables:
                    self.fault("UnknownName", name)

    def declarations(self):
        here = self.here
        for statement, _ in here.statements():
            if statement[0] == "inst" and statement[3] is not None:
                here.singles.setdefault(statement[1], set()).add(statement[3])
        twice = {name for name, times in Counter(here.params).items() if times > 1}
        twice |= {name for name, found in list(here.ports.items()) + list(here.arrays.items()) if len(found) > 1}
        twice |= {name for name, found in here.singles.items() if len(found) > 1 or name in here.arrays}
        for name in twice:
            self.fault("TwoNames", name)
        self.uses([size for found in here.ports.values() for _, size, _, _ in found])
        for found in here.arrays.values():
            for size, component, args, _ in found:
                self.uses([size] + (args or []))
                self.component(component)

    def component(self, name):
        if name not in self.components:
            self.fault("UnknownComponent", name)

    def entries(self):
        for statement, variables in self.here.statements():
            if statement[0] == "forall":
                self.uses(statement[2:4], variables)
                if statement[1] in variables or statement[1] in self.params:
                    self.fault("TwoNames", statement[1])
            elif statement[0] == "when":
                self.uses([statement[1]], variables)
            elif statement[0] == "bind":
                for end in statement[1:3]:
                    self.uses([end[1], end[3]], variables)
                    self.end(end)
            else:
                self.instance(statement, variables)

    def instance(self, statement, variables):
        _, name, index, component, args, _ = statement
        self.uses([index] + (args or []), variables)
        if component is not None:
            self.component(component)
            self.count(name, component, args)
            return
        if name not in self.here.arrays:
            self.fault("UnknownName", name)
        for _, component, own, _ in self.here.arrays.get(name, []):
            self.count(name, component, own if args is None else args)

    def count(self, name, component, args):
        given = len(args or [])
        for found in self.components.get(component, []):
            if len(found.params) != given:
                self.fault("ArgCount", name, len(found.params), given)

    def end(self, end):
        name, _, port, _ = end
        owners = {self.here.name} if name is None else self.here.singles.get(name, set()) | {found[1] for found in self.here.arrays.get(name, [])}
        if not owners:
            self.fault("UnknownName", name)
        for owner in owners:
            for found in [self.here] if name is None else self.components.get(owner, []):
                if port not in found.ports:
                    self.fault("UnknownName", port)

    def kind(self):
        here = self.here
        if here.name not in KINDS:
            self.faults.add("UnknownKind " + here.name)
            return
        provides, requires, has = KINDS[here.name]
        wanted = {("provide", name) for name in provides} | {("require", name) for name in requires}
        ports = {(side, name) for name, found in here.ports.items() for side, _, _, _ in found}
        sized = any(size is not None for found in here.ports.values() for _, size, _, _ in found)
        if ports != wanted or sized or len(here.params) != int(has) or here.arrays or here.body:
            self.faults.add("KindPorts " + here.name)


def segment_of(name, at):
    """The segment of an instance, by the value of its index where it is an array's."""
    return name if at is None else "%s[%d]" % (name, at[0])


def is_primitive(component):
    return all(statement[0] != "inst" for statement, _ in component.statements())


class Instance:
    """An instance that was made: its path, depth, component, the values of its parameters, and what stands in it once it is walked: sizes, instances by
    segment and bindings, each as (end, end, place) with values of its indexes."""

    def __init__(self, path, depth, component, values):
        self.path, self.depth, self.component, self.values = path, depth, component, values
        self.sizes, self.made, self.bindings = {}, {}, []

    def size(self, name, expression):
        if name not in self.sizes:
            self.sizes[name] = value(expression, self.values)
        return self.sizes[name]


class Stopped(Exception):
    """More was counted than may be: what else holds isn't looked for."""


class Elaboration:
    """The graph of an instance of the top, or the faults."""

    def __init__(self, components, line_column, top, args):
        self.components, self.line_column = components, line_column
        self.primitive = {name: is_primitive(component) for name, component in components.items()}
        self.faults, self.count, self.paths, self.nodes, self.wires, self.stopped = set(), 0, set(), {}, {}, False
        self.top(top, args)
        if not self.faults:
            try:
                self.instances(Instance("", 0, components[top], dict(zip(components[top].params, args))))
            except Stopped:
                self.stopped = True
        if not self.faults:
            self.links()
            self.cycles()

    def top(self, top, args):
        if top not in self.components:
            self.faults.add("NoTop " + top)
            return
        if self.primitive[top]:
            self.faults.add("TopIsKind " + top)
        wanted = len(self.components[top].params)
        if wanted != len(args):
            self.faults.add("TopArgs %d %d" % (wanted, len(args)))

    def fault(self, name, here, place=None, end=None):
        fields = [name, here.path or "."] + ([] if place is None else [self.line_column(place)]) + ([] if end is None else [end])
        self.faults.add(" ".join(fields))

    def valued(self, expression, values, here, place):
        """The value, or None and the fault at the place."""
        found = value(expression, values)
        if not isinstance(found, set):
            return found
        for name in found:
            self.fault(name, here, place)
        return None

    def counted(self, more):
        self.count += more
        if self.count > COUNT_LIMIT:
            self.faults.add("TooMany")
            raise Stopped

    def instances(self, top):
        # an instance that two entries make is one instance, and counts once
        work, walked, opened = [top], [], set()
        while work:
            here = work.pop()
            told = (here.path, here.component.name, tuple(here.values.items()))
            if told in opened:
                continue
            opened.add(told)
            self.sizes(here)
            self.walk(here, here.component.body, here.values)
            walked.append(here)
            for made in here.made.values():
                work += [inner for inner in made if inner is not None and not self.primitive[inner.component.name] and inner.depth <= DEPTH_LIMIT]
        for here in walked:
            for binding in here.bindings:
                self.bind(here, *binding)

    def sizes(self, here):
        for name, (port,) in here.component.ports.items():
            if port[1] is not None:
                self.valued(port[1], here.values, here, port[3])
        for name, (array,) in here.component.arrays.items():
            self.valued(array[0], here.values, here, array[3])

    def walk(self, here, body, values):
        for statement in body:
            place = statement[-1]
            if statement[0] == "when":
                if self.valued(statement[1], values, here, place) not in (None, 0):
                    self.walk(here, statement[2], values)
            elif statement[0] == "forall":
                first, last = (self.valued(expression, values, here, place) for expression in statement[2:4])
                if first is not None and last is not None:
                    self.counted(max(0, last - first + 1))
                    for turn in range(first, last + 1):
                        self.walk(here, statement[4], {**values, statement[1]: turn})
            elif statement[0] == "bind":
                self.counted(1)
                ends = [
                    (name, at and (self.valued(at, values, here, place),), port, by and (self.valued(by, values, here, place),))
                    for name, at, port, by in statement[1:3]
                ]
                here.bindings.append((ends[0], ends[1], place))
            else:
                self.counted(1)
                self.enter(here, statement, values)

    def enter(self, here, statement, values):
        """A reached instance entry."""
        _, name, index, component, args, place = statement
        segment = name
        if index is not None:
            size, component, own, _ = here.component.arrays[name][0]
            if args is None:
                args, arg_values = own, here.values
            else:
                arg_values = values
            at = self.valued(index, values, here, place)
            size = here.size(("array", name), size)
            self.within(at, size, here, place)
            segment = None if at is None else "%s[%d]" % (name, at)
        else:
            arg_values = values
        given = [self.valued(arg, arg_values, here, place) for arg in args or []]
        if segment is None:
            return
        path = "%s.%s" % (here.path, segment) if here.path else segment
        component = self.components[component]
        made = None if None in given else Instance(path, here.depth + 1, component, dict(zip(component.params, given)))
        if path in self.paths:
            self.faults.add("TwoInstances " + path)
        self.paths.add(path)
        here.made.setdefault(segment, []).append(made)
        if made is None:
            return
        if made.depth > DEPTH_LIMIT:
            self.fault("TooDeep", made)
        if self.primitive[component.name]:
            if given and not 0 <= given[0] < ARGUMENT_LIMIT:
                self.fault("OutOfRange", here, place)
            self.nodes[path] = (component.name, "%d" % given[0] if given else "")

    def bind(self, here, left, right, place):
        """A reached binding entry, whose indexes are one-element tuples of a value, or None in it."""
        ends = [(end, self.instance(here, end, place)) for end in (left, right)]
        if any(None in (index or ()) for end in (left, right) for index in (end[1], end[3])):
            return
        notes = [self.declared(here, end)[2][2] for end, inner in ends if inner is not None]
        if len(notes) == 2 and None not in notes and notes[0] != notes[1]:
            self.fault("Annotation", here, place)
        found = [None if inner is None else self.end(here, end, inner, place) for end, inner in ends]
        sides = [None if end is None else end[0] for end in found]
        forms = [("inner require", "inner provide"), ("inner require", "outer require"), ("outer provide", "inner provide")]
        if tuple(sides) in forms:
            source, target = found
        elif tuple(reversed(sides)) in forms:
            target, source = found
        else:
            self.fault("BadBinding", here, place)
            return
        _, key, text = source
        before = self.wires.setdefault(key, target[1])
        if before != target[1]:
            self.fault("BoundTwice", here, None, text)

    def declared(self, here, end):
        """The component that has the port of an end, whether the instance is an array's, and the port's declaration."""
        name, _, port, _ = end
        if name is None:
            return here.component, False, here.component.ports[port][0]
        if name in here.component.arrays:
            component = self.components[here.component.arrays[name][0][1]]
            return component, True, component.ports[port][0]
        (component,) = here.component.singles[name]
        component = self.components[component]
        return component, False, component.ports[port][0]

    def instance(self, here, end, place):
        """The instance at which an end stands, or None where none is made there."""
        name, at, _, _ = end
        _, is_array, _ = self.declared(here, end)
        if is_array and at is not None:
            self.within(at[0], here.size(("array", name), here.component.arrays[name][0][0]), here, place)
        if name is None:
            return here
        if (at is not None) != is_array or at == (None,):
            return None
        return next((inner for inner in here.made.get(segment_of(name, at), []) if inner is not None), None)

    def end(self, here, end, inner, place):
        """An end at an instance as (its side, its key, its text), or None where it is none."""
        name, at, port, by = end
        _, _, (side, size, _, _) = self.declared(here, end)
        if by is not None and size is not None:
            self.within(by[0], inner.size(("port", port), size), here, place)
        if (by is not None) != (size is not None):
            return None
        place_text = "" if by is None else "[%d]" % by[0]
        where = "outer" if name is None else "inner"
        return "%s %s" % (where, side), (inner.path, port, by and by[0]), ("" if name is None else segment_of(name, at) + ".") + port + place_text

    def within(self, index, size, here, place):
        """An index is from 0 to the size less 1, where both have a value."""
        if index is not None and not isinstance(size, set) and not 0 <= index < size:
            self.fault("BadIndex", here, place)

    def links(self):
        """Where each requirement of a node leads."""
        self.targets = {}
        for path, (kind, _) in self.nodes.items():
            for name in KINDS[kind][1]:
                end = (path, name, None)
                while end in self.wires:
                    end = self.wires[end]
                is_node = end[0] in self.nodes and end[1] in KINDS[self.nodes[end[0]][0]][0]
                self.targets[(path, name)] = end[:2] if is_node else None

    def cycles(self):
        path = first_on_cycle(self.graph())
        if path is not None:
            self.faults.add("DependsCycle " + path.decode())

    def graph(self):
        """The nodes and links as `forms.graph` reads them from a text."""
        nodes, links = {}, {}
        for path in sorted(self.nodes):
            kind, arg = self.nodes[path]
            nodes[path.encode()] = (kind, arg.encode())
            for name in KINDS[kind][1]:
                target = self.targets[(path, name)]
                links[(path.encode(), name.encode())] = target and (target[0].encode(), target[1].encode())
        return nodes, links


class Description:
    """A text that was read: its components, or the faults of its tokens, its grammar or its names."""

    def __init__(self, text):
        self.text, self.components, self.faults = text, {}, set()
        try:
            check = Check(Parser(tokens_of(text)).unit())
            self.faults, self.components = check.faults, {name: found[0] for name, found in check.components.items()}
        except Refused as refused:
            self.faults = {"%s %s" % (refused.name, self.line_column(refused.offset))}

    def line_column(self, offset):
        line_start = self.text.rfind(b"\n", 0, offset) + 1
        return "%d:%d" % (self.text.count(b"\n", 0, offset) + 1, offset - line_start + 1)

    def answers(self, top, args):
        """The graph or None, the faults, and whether other faults may hold too."""
        if self.faults:
            return None, self.faults, False
        made = Elaboration(self.components, self.line_column, top, args)
        return (None if made.faults else made.graph()), made.faults, made.stopped
