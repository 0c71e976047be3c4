"""Random descriptions: lawful ones by construction, others by a walk of the grammar, changed ones and hostile ones.

Each function takes a `random.Random` and returns a text in bytes with a command line's words behind the file: a component's
name and its arguments. Lawful descriptions come as a list of tokens, so that one can be written with other blanks.
"""
import re

from tables import KEYWORDS, KINDS, SIGNS

LIMIT = 1 << 20


def spaced(rng, tokens):
    """The text of tokens, with blanks and comments between them wherever they may stand."""
    out = []
    for token in tokens:
        pick = rng.random()
        if pick < 0.6:
            out.append(" ")
        elif pick < 0.75:
            out.append(rng.choice(["\n", "\t", "\r\n", "  \n "]))
        elif pick < 0.8 and not (out and out[-1] == "/"):
            out.append(rng.choice(["/* note */", "// to the end\n", "/**/", "/* a\n * b */", "//\n"]))
        elif out and joins(out[-1], token):
            out.append(" ")
        out.append(token)
    out.append(rng.choice(["", "\n", " ", "// last"]))
    return "".join(out).encode()


def joins(left, right):
    """Whether two texts would be read as others where nothing parts them."""
    word = lambda c: c.isalnum() or c == "_"
    if word(left[-1]) and word(right[0]):
        return True
    return left[-1] + right[0] in ("--", "..", "<=", ">=", "==", "!=", "//", "/*", "*/")


class End:
    """An end of a binding: its tokens, and where it is, as (the instance's segment or none, port, place or None)."""

    def __init__(self, lawful, name, element, port, place):
        self.where = (b"" if name is None else segment(name, element), port.encode(), place)
        instance = [] if name is None else [name] + lawful.index(element) + ["."]
        self.tokens = instance + [port] + lawful.index(place)


def segment(name, element):
    return name.encode() + (b"" if element is None else b"[%d]" % element)


class Composite:
    """A composite component: its ports as (side, name, size or None), its instances as (segment, component, argument or None),
    and its bindings as pairs of ends, the source first."""

    def __init__(self, ports, instances, bindings):
        self.ports, self.instances, self.bindings = ports, instances, bindings


class Lawful:
    """A description without a fault: composite components with ports, arrays, turns and tests, over kinds. The one fault that
    there may be is a cycle of dependent services."""

    def __init__(self, rng):
        self.rng = rng
        self.tokens = []
        self.composites = {}
        self.count = 0

    def number(self, value):
        """Tokens of an expression with this value, which isn't negative."""
        rng = self.rng
        pick = rng.random()
        if pick < 0.55:
            return [rng.choice(["", "", "0", "00"]) + str(value)]
        if pick < 0.65:
            return ["("] + self.number(value) + [")"]
        if pick < 0.75:
            add = rng.randrange(9)
            return ["(", str(value + add), "-", str(add), ")"]
        if pick < 0.82:
            return ["(", str(value), "*"] + rng.choice([["1"], ["(", "3", "-", "2", ")"], ["7", "/", "7"]]) + [")"]
        if pick < 0.88:
            return ["-", "(", "0", "-", str(value), ")"]
        if pick < 0.94 and value < 2:
            truths = ["1 == 1", "0 or 2", "3 > 2 and 1", "1 or 1 / 0", "- 7 % 2 == - 1", "- 7 / 2 == - 3"]
            return ["("] + rng.choice(truths if value else ["0 and 1 / 0", "1 < 1", "0 or 0", "2 != 2", "- 1 >= 0"]).split() + [")"]
        return ["(", str(value), "%", str(value + 1 + rng.randrange(5)), ")"]

    def index(self, place):
        return [] if place is None else ["["] + self.number(place) + ["]"]

    def kinds(self):
        """The declarations of all kinds."""
        rng = self.rng
        out = []
        for kind, (provides, requires, has) in KINDS.items():
            params = ["(", "int", rng.choice(["n", "x", "meals", "_"]), ")"] if has else rng.choice([[], ["(", ")"]])
            sides = rng.sample([("provide", provides), ("require", requires)], 2)
            body = sum((self.port_list(word, names) for word, names in sides if names), [])
            out += ["component", kind] + params + ["{"] + body + ["}"]
        return out

    def port_list(self, word, names):
        """Ports of a kind, in any order, in one list or in two."""
        names = self.rng.sample(names, len(names))
        if self.rng.random() < 0.5:
            return sum(([word, name] + self.note() + [";"] for name in names), [])
        return [word] + sum(([",", name] + self.note() for name in names), [])[1:] + [";"]

    def note(self):
        """A note on a port, the same on all that have one."""
        return self.rng.choice([[]] * 4 + [["<", "int", ",", "item", ">"]])

    def wrap(self, statement):
        """The statement, perhaps in bodies that let it through once."""
        rng = self.rng
        for _ in range(rng.choice([0, 0, 0, 1, 2])):
            body = ["{"] + statement + ["}"] if rng.random() < 0.6 else statement
            if rng.random() < 0.5:
                statement = ["when"] + self.number(rng.choice([1, 2, 9])) + body
            else:
                self.count += 1
                at = rng.randrange(5)
                statement = ["forall", "v%d" % self.count, ":"] + self.number(at) + [".."] + self.number(at) + body
        return statement

    def chosen(self):
        """A component that is there: its name, its ports, the tokens of its arguments, and the argument of a kind's node."""
        rng = self.rng
        if self.composites and rng.random() < 0.35:
            name = rng.choice(list(self.composites))
            return name, self.composites[name].ports, rng.choice([[], ["(", ")"]]), None
        kind = rng.choice(list(KINDS))
        provides, requires, has = KINDS[kind]
        ports = [("provide", port, None) for port in provides] + [("require", port, None) for port in requires]
        if not has:
            return kind, ports, rng.choice([[], ["(", ")"]]), None
        value = rng.choice([0, 1, 2, 3, 5, 40, 16777215])
        return kind, ports, ["("] + self.number(value) + [")"], value

    def made(self, name, component, size, args):
        """The statements that declare and make an instance, or an array's elements."""
        if size is None:
            return [], self.wrap(["inst", name, ":", component] + args + [";"])
        own = self.rng.random() < 0.5
        array = ["array", name, "["] + self.number(size) + ["]", ":", component] + ([] if own else args) + [";"]
        self.count += 1
        turn = "i%d" % self.count
        element = ["inst", name, "[", turn, "]"] + ((args or ["(", ")"]) if own else []) + [";"]
        return array, ["forall", turn, ":"] + self.number(0) + [".."] + self.number(size) + ["-", "1"] + element

    def members(self):
        """Instances of a component: what declares and makes them, each of them, and the ends of their ports by side."""
        rng = self.rng
        items, instances, ends = [], [], {"provide": [], "require": []}
        for index in range(rng.randrange(1, 7)):
            name = "%s%d" % (rng.choice(["a", "b", "lane", "X", "_"]), index)
            component, ports, args, value = self.chosen()
            size = rng.choice([None, None, 1, 2, 3])
            items += [item for item in self.made(name, component, size, args) if item]
            for element in [None] if size is None else range(size):
                instances.append((segment(name, element), component, value))
                for side, port, places in ports:
                    for place in [None] if places is None else range(places):
                        ends[side].append(End(self, name, element, port, place))
        return items, instances, ends

    def bind(self, source, target):
        """Binds two ends, either of which stands first."""
        left, right = self.rng.sample([source, target], 2)
        self.bindings.append((source.where, target.where))
        self.items.append(self.wrap(["bind"] + left.tokens + ["--"] + right.tokens + [";"]))

    def outer_ports(self, free, provisions):
        """Ports of the component itself, bound to those of its instances."""
        rng = self.rng
        ports = []
        for side in rng.sample(["provide", "require"], rng.randrange(3)):
            size = rng.choice([None, 1, 2])
            if not (free if side == "require" else provisions):
                continue
            port = "%s%d" % (rng.choice(["in", "out", "p"]), len(ports))
            ports.append((side, port, size))
            self.items.append([side, port] + ([] if size is None else self.index(size)) + self.note() + [";"])
            for place in [None] if size is None else range(size):
                outer = End(self, None, None, port, place)
                if side == "provide":
                    self.bind(outer, rng.choice(provisions))
                elif free:
                    self.bind(free.pop(), outer)
        return ports

    def component(self, name, is_top):
        """Declares a composite component."""
        rng = self.rng
        self.items, instances, ends = self.members()
        self.bindings = []
        free, provisions = ends["require"], ends["provide"]
        rng.shuffle(free)
        ports = [] if is_top else self.outer_ports(free, provisions)
        for source in free:
            if provisions and rng.random() < 0.7:
                self.bind(source, rng.choice(provisions))
        rng.shuffle(self.items)
        self.tokens.append(["component", name] + rng.choice([[], ["(", ")"]]) + ["{"] + sum(self.items, []) + ["}"])
        self.composites[name] = Composite(ports, instances, self.bindings)

    def description(self):
        """The tokens of a description whose top is Top."""
        rng = self.rng
        for index in range(rng.randrange(4)):
            self.component("C%d" % index, False)
        self.component("Top", True)
        rng.shuffle(self.tokens)
        tokens = sum(self.tokens, [])
        return self.kinds() + tokens if rng.random() < 0.5 else tokens + self.kinds()

    def graph(self):
        """The nodes and links of Top, as `forms.graph` reads them from a text."""
        found, wires = {}, {}
        self.expand(b"", self.composites["Top"], found, wires)
        nodes = {path: found[path] for path in sorted(found)}
        links = {}
        for path, (kind, _) in nodes.items():
            for port in KINDS[kind][1]:
                end = (path, port.encode(), None)
                while end in wires:
                    end = wires[end]
                links[(path, port.encode())] = end[:2] if end[0] in nodes and end[1].decode() in KINDS[nodes[end[0]][0]][0] else None
        return nodes, links

    def expand(self, path, composite, nodes, wires):
        inner = lambda part: b".".join(word for word in (path, part) if word)
        for part, component, value in composite.instances:
            if component in KINDS:
                nodes[inner(part)] = (component, b"" if value is None else b"%d" % value)
            else:
                self.expand(inner(part), self.composites[component], nodes, wires)
        for (one, port, place), (other, target, at) in composite.bindings:
            wires[(inner(one), port, place)] = (inner(other), target, at)


def lanes(rng, more):
    """A parametrized system of lanes, with small arguments: always lawful. `more` other words of arguments are given."""
    lines = Lawful(rng).kinds()
    text = (
        "component Lanes(int n, int k, int skip) { array s[n]:source(k); m[n]:map(k); b[n]:buffer(2); t[n]:sink;"
        " forall i:0..n-1 { inst s[i]; t[i]; when i != skip { inst m[i]; b[i]; bind s[i].out -- m[i].in; m[i].next -- b[i].in;"
        " b[i].next -- t[i].in; } when i == skip bind s[i].out -- t[i].in; } }"
        "component Table(int n, int meals, int skip) { array ph[n]:philosopher(meals); pl[n]:place; f[n]:fork;"
        " forall i:0..n-1 { inst ph[i]; pl[i](i == 0); bind ph[i].dine -- pl[i].dine; when i != skip { inst f[i];"
        " bind pl[i].left -- f[i].hold; pl[(i+n-1) % n].right -- f[i].hold; } } }"
        "component Bank(int n, int x, int y) { inst a:account(x); b:account(y); r:branch; w:teller(n);"
        " bind w.move -- r.move; r.from -- a.post; r.to -- b.post; }"
        "component Sums(int n, int k, int skip) { array a[n]:asker(k); inst d:adder; forall i:0..n-1 { inst a[i]; when i != skip bind d.sum -- a[i].sum; } }"
        "component Row(int n, int k, int skip) { array m[n]:map(k); s[2]:source(n); inst s[0]; s[1]; t:sink; bind s[0].out -- m[0].in; s[1].out -- m[0].in;"
        " forall i:0..n-1 { inst m[i]; when i < n-1 and i != skip bind m[i].next -- m[i+1].in; } }"
    )
    calls = []
    top = rng.choice(["Lanes", "Table", "Bank", "Sums", "Row"])
    many = rng.random() < 0.02
    for _ in range(more):
        size = rng.choice([127, 128, 255, 256, 340, 341, 342]) if many else rng.randrange(1, 6)
        calls.append((top, [str(size), str(rng.randrange(9)), str(rng.randrange(size + 1))]))
    return spaced(rng, lines) + b"\n" + text.encode() + b"\n", calls


def name(rng):
    return rng.choice(["a", "b", "X", "Top", "C", "in", "next", "out", "n", "i", "_", "k9", rng.choice(list(KINDS)), "s" * rng.choice([3, 63, 64, 65])])


def expression(rng, depth=0):
    """Tokens of an expression."""
    pick = rng.random()
    if depth > 5 or pick < 0.35:
        return [rng.choice(["0", "1", "2", "7", "007", "65536", "2147483647", "2147483648"])]
    if pick < 0.55:
        return [name(rng)]
    if pick < 0.65:
        return ["-"] + expression(rng, depth + 1)
    if pick < 0.75:
        return ["("] + expression(rng, depth + 1) + [")"]
    sign = rng.choice("or and == != < <= > >= + - * / %".split())
    return expression(rng, depth + 1) + [sign] + expression(rng, depth + 1)


def arguments(rng):
    out = ["("]
    for index in range(rng.randrange(3)):
        out += ([","] if index else []) + expression(rng, 3)
    return out + [")"]


def end(rng):
    out = []
    if rng.random() < 0.7:
        out += [name(rng)] + (["["] + expression(rng, 3) + ["]"] if rng.random() < 0.3 else []) + ["."]
    return out + [name(rng)] + (["["] + expression(rng, 3) + ["]"] if rng.random() < 0.3 else [])


def statement(rng, depth=0):
    """Tokens of a statement by the grammar, whatever its names."""
    pick = rng.random()
    if depth > 3 or pick < 0.4:
        out = ["inst"]
        for _ in range(rng.randrange(1, 3)):
            if rng.random() < 0.7:
                out += [name(rng), ":", name(rng)] + (arguments(rng) if rng.random() < 0.5 else []) + [";"]
            else:
                out += [name(rng), "["] + expression(rng, 3) + ["]"] + (arguments(rng) if rng.random() < 0.5 else []) + [";"]
        return out
    if pick < 0.7:
        out = ["bind"]
        for _ in range(rng.randrange(1, 3)):
            out += end(rng) + ["--"] + end(rng) + [";"]
        return out
    if pick < 0.85:
        head = ["forall", name(rng), ":"] + expression(rng, 3) + [".."] + expression(rng, 3)
    else:
        head = ["when"] + expression(rng, 2)
    if rng.random() < 0.5:
        return head + statement(rng, depth + 1)
    return head + ["{"] + sum((statement(rng, depth + 1) for _ in range(rng.randrange(3))), []) + ["}"]


def item(rng):
    pick = rng.random()
    if pick < 0.3:
        out = [rng.choice(["provide", "require"])]
        for index in range(rng.randrange(1, 3)):
            out += ([","] if index else []) + [name(rng)] + (["["] + expression(rng, 3) + ["]"] if rng.random() < 0.2 else [])
            if rng.random() < 0.2:
                out += ["<"] + [rng.choice(["int", ",", "word", "item"]) for _ in range(rng.randrange(1, 4))] + [">"]
        return out + [";"]
    if pick < 0.45:
        return ["array", name(rng), "["] + expression(rng, 3) + ["]", ":", name(rng)] + (arguments(rng) if rng.random() < 0.5 else []) + [";"]
    return statement(rng)


def walk(rng):
    """Tokens of a unit of the grammar; most have faults of names."""
    out = Lawful(rng).kinds() if rng.random() < 0.7 else []
    for _ in range(rng.randrange(1, 4)):
        out += ["component", name(rng)]
        if rng.random() < 0.5:
            out += ["("] + ["int", name(rng)] * rng.randrange(2) + [")"]
        out += ["{"] + sum((item(rng) for _ in range(rng.randrange(5))), []) + ["}"]
    return out


def edited_tokens(rng, tokens):
    """Tokens with a few that are taken out, put in, doubled, swapped or changed."""
    tokens = tokens[:]
    for _ in range(rng.choice([1, 1, 1, 2, 3])):
        if not tokens:
            break
        at = rng.randrange(len(tokens))
        pick = rng.random()
        if pick < 0.25:
            del tokens[at]
        elif pick < 0.45:
            tokens.insert(at, rng.choice(SIGNS + KEYWORDS + ["0", "99999999999", "x"]))
        elif pick < 0.6:
            tokens.insert(at, tokens[at])
        elif pick < 0.75:
            other = rng.randrange(len(tokens))
            tokens[at], tokens[other] = tokens[other], tokens[at]
        else:
            tokens[at] = rng.choice([tokens[rng.randrange(len(tokens))], name(rng), str(rng.choice([0, 1, 2, 1 << 31, 16777216]))])
    return tokens


def edited_names(rng, tokens):
    """Tokens of which one name or number, or two, stand for others that are there: most are still of the grammar."""
    tokens = tokens[:]
    words = [at for at, token in enumerate(tokens) if token[0].isalnum() or token[0] == "_"]
    words = [at for at in words if tokens[at] not in KEYWORDS]
    for _ in range(rng.choice([1, 1, 2])):
        at = rng.choice(words)
        numbers = tokens[at].isdigit()
        alike = [tokens[other] for other in words if tokens[other].isdigit() == numbers]
        tokens[at] = rng.choice(alike + (["0", "1", "2147483647", "16777216"] if numbers else ["Top", "in"]))
    return tokens


def edited_bytes(rng, text):
    """A text with a few bytes that are changed, put in, taken out or cut off."""
    text = bytearray(text)
    for _ in range(rng.choice([1, 1, 2, 4, 16])):
        at = rng.randrange(len(text) + 1)
        pick = rng.random()
        if pick < 0.4 and at < len(text):
            text[at] = rng.choice([rng.randrange(256), 0, 10, 13, 34, 255, 0x2F])
        elif pick < 0.7:
            text[at:at] = bytes(rng.choice([[rng.randrange(256)], b"/*", b"//", b"--", b"\xff\xfe", b"\0", b"..."]))
        elif pick < 0.9:
            del text[at : at + rng.choice([1, 2, 9])]
        else:
            del text[at:]
    return bytes(text)


LINE_WORDS = (
    b"( ) , -> from start begin make map sink source forall a a.b q[0] q[007] q[4294967295] q[4294967296] q[ a[]. .a a. -1 -0 +1 0x1 00 4294967295 4294967296 2147483647 2147483648"
    b" -2147483648 -2147483649 16777215 16777216 18446744073709551616 99999999999999999999999999 # #x \\0 \x00 \xc3\xa9 \xff \r \x0b \x0c"
).split(b" ") + [b"a" * 64, b"a" * 65, b"q" * 64 + b"[0]", b"q" * 65 + b"[0]", b"0" * 5000 + b"1", b""]


def edited_lines(rng, content):
    """An event file of which a few words of a line, or whole lines, are others."""
    lines = content.split(b"\n")
    for _ in range(rng.choice([1, 1, 2])):
        at = rng.randrange(len(lines))
        words = [word for word in re.findall(rb"[(),]|[^ \t(),]+", lines[at])] or [b""]
        spot = rng.randrange(len(words))
        pick = rng.random()
        if pick < 0.5:
            words[spot] = rng.choice(LINE_WORDS)
        elif pick < 0.6:
            words.insert(spot, rng.choice(LINE_WORDS + words))
        elif pick < 0.7:
            del words[spot]
        elif pick < 0.75:
            lines.insert(rng.randrange(len(lines) + 1), lines[at])
        elif pick < 0.8:
            del lines[at]
            if not lines:
                return b""
            continue
        elif pick < 0.85:
            words[spot] = words[spot][: rng.randrange(len(words[spot]) + 1)]
        blank = lambda: rng.choice([b" "] * 6 + [b"", b"\t", b"  ", b"\r", b"\x0b", b"\xa0"])
        lines[at] = b"".join(word + (blank() if rng.random() < 0.3 else b" ") for word in words)
    return b"\n".join(lines)


SINK = "component sink { provide in; }\n"
HOSTILE_LINES = [
    b"begin " + b"9" * 100000 + b" 1 1",
    b"x" * 1000000,
    b"start Top()",
    b"make 1 " + b"a." * 30000 + b"a sink()",
    b"make 1 a[4294967296] sink()",
    b"make 1 " + b"a" * 65 + b" sink()",
    b"make 1 a sink()from 0",
    b"make 1 a sink",
    b"make 1 a nothing()",
    b"make 1 a map(16777216)",
    b"begin 0 1",
    b"begin 0 1 1 1",
    b"begin 0 1 -1",
    b"begin\0 0 1 1",
    b"close 4294967295",
    b"close 4294967296",
    b"close 00000000000000000000000",
    b"\xff",
    b"(" * 100000,
    b"\n" * 1048000,
    b"close 0\n" * 131000,
    b"close 0\n" * 131073,
]
HOSTILE = {
    "deep parentheses": lambda n: SINK + "component Top { inst t:sink; when %s1%s { } }" % ("(" * n, ")" * n),
    "many signs": lambda n: SINK + "component Top { inst t:sink; when %s1 { } }" % ("- " * n),
    "deep bodies": lambda n: SINK + "component Top { %s inst t:sink; %s }" % ("when 1 { " * n, "}" * n),
    "deep turns": lambda n: SINK + "component Top { inst t:sink; %s { } }" % "".join("forall v%d:0..0 " % i for i in range(n)),
    "unclosed bodies": lambda n: SINK + "component Top { " + "when 1 { " * n,
    "unclosed parentheses": lambda n: SINK + "component Top { when " + "(" * n,
    "open brackets": lambda n: SINK + "component Top { bind " + "a[" * n,
    "long chain": lambda n: SINK + "component Top { inst t:sink; when 1%s { } }" % ("+1" * n),
    "long products": lambda n: SINK + "component Top { inst t:sink; when 1%s { } }" % ("*2" * n),
    "long name": lambda n: SINK + "component Top { inst %s:sink; }" % ("t" * n),
    "long digits": lambda n: SINK + "component Top { inst t:sink; when %s1 { } }" % ("0" * n),
    "huge number": lambda n: SINK + "component Top { inst t:sink; when 9%s { } }" % ("9" * n),
    "all integers": lambda n: SINK + "component Top { inst t:sink; forall i:-2147483647-1..2147483647 { } }" + " " * n,
    "all integers twice": lambda n: SINK + "component Top { inst t:sink; forall i:-2147483647-1..2147483647 forall j:0..2147483647 inst u:sink; }" + " " * n,
    "no turn of all": lambda n: SINK + "component Top { inst t:sink; forall i:2147483647..-2147483647-1 inst t:sink; }" + " " * n,
    "nested turns": lambda n: SINK + "component Top { inst t:sink; forall i:1..%d forall j:1..%d { } }" % (n, n),
    "endless": lambda n: SINK + "component Top { inst a:Top; }" + " " * n,
    "endless twofold": lambda n: SINK + "component Top { inst a:Top; b:Top; }" + " " * n,
    "endless many": lambda n: SINK + "component Top { array a[%d]:Top; forall i:0..%d inst a[i]; }" % (n, n - 1),
    "endless in turns": lambda n: SINK + "component Top { inst a:B; }\ncomponent B { inst c:Top; }" + " " * n,
    "down to nothing": lambda n: SINK + "component Down(int n) { inst t:sink; when n > 0 inst a:Down(n-1); } component Top { inst d:Down(%d); }" % min(n, 99),
    "doubling": lambda n: SINK + "component D(int n) { inst t:sink; when n > 0 { inst a:D(n-1); b:D(n-1); } } component Top { inst d:D(%d); }" % min(n, 31),
    "many entries": lambda n: SINK + "component Top {" + "".join("inst t%d:sink;" % i for i in range(n)) + "}",
    "same entries": lambda n: SINK + "component Top {" + "inst t:sink;" * n + "}",
    "made twice": lambda n: SINK + "component D { inst t:sink; forall i:1..%d { } } component Top { inst d:D; d:D; }" % n,
    "many bindings": lambda n: SINK + "component source(int n) { require out; } component Top { inst s:source(1); t:sink; bind " + "s.out--t.in;" * n + "}",
    "many components": lambda n: SINK + "".join("component C%d { inst t:sink; }" % i for i in range(n)) + "component Top { inst t:sink; }",
    "same components": lambda n: SINK + "component Top { inst t:sink; }" * n,
    "huge array": lambda n: SINK + "component Top { array a[2147483647]:sink; inst a[%d]; }" % n,
    "huge ports": lambda n: SINK + "component Top { provide in[2147483647]; inst t:sink; bind in[%d] -- t.in; }" % n,
    "many arguments": lambda n: SINK + "component Top { inst t:sink(%s); }" % ",".join("1" * n),
    "many parameters": lambda n: SINK + "component Top(%s) { inst t:sink; }" % ",".join("int p%d" % i for i in range(n)),
    "many notes": lambda n: "component sink { provide in <%s>; } component Top { inst t:sink; }" % ("a," * n),
    "open comment": lambda n: SINK + "component Top { inst t:sink; } /*" + "*" * n,
    "comments": lambda n: "/**/" * n + SINK + "component Top { inst t:sink; }",
    "lines": lambda n: SINK + "component Top { inst t:sink; }" + "\n" * n + "$",
    "ring of maps": lambda n: "component map(int k) { provide in; require next; } component Top { array m[%d]:map(1); forall i:0..%d { inst m[i]; bind m[i].next -- m[(i+1) %% %d].in; } }" % (n, n - 1, n),
    "ends of integers": lambda n: SINK + "component Top { inst t:sink; when (-2147483647-1) %% -1 { } when (-2147483647-1) / %d { } }" % (1 - n % 3),
}
SIZES = [1, 2, 15, 16, 17, 31, 32, 33, 34, 63, 64, 65, 255, 1000, 4096]
BIG_SIZES = [20000, 65535, 65536, 65537]


def hostile(rng, big):
    """A text that tries a limit: its name and its bytes."""
    title = rng.choice(list(HOSTILE))
    text = HOSTILE[title](rng.choice(BIG_SIZES if big else SIZES)).encode()
    pick = rng.random()
    if pick < 0.06:
        text = bytes(rng.randrange(256) for _ in range(rng.choice([0, 1, 50, 3000])))
    elif pick < 0.08:
        text = text.replace(b" ", b"\0", 1)
    elif pick < 0.1:
        text = b"\xef\xbb\xbf" + text
    elif big and pick < 0.3:
        text = (text + b" " * LIMIT)[: LIMIT + rng.choice([-1, 0, 1, 2])]
    return title, text
