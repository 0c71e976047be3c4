"""What each kind of node does with values, written plainly from docs/kinds.md and apart from the proved code."""
M = 1 << 24
GREATEST_AMOUNT = 1 << 23
LISTS = ("buffer", "sink")
PAIRS = ("asker",)
STATELESS = ("place", "map", "branch", "adder")


class Behaviour:
    """What a node has come to: its state, and what it knows of the service that it is in."""

    def __init__(self, kind, arg, state=None):
        self.kind, self.arg = kind, arg
        self.state = state if state is not None else self.opening()
        self.value, self.reply, self.answers, self.heard = 0, 0, [], None

    def opening(self):
        if self.kind in LISTS:
            return []
        if self.kind in PAIRS:
            return [0, 0]
        return self.arg if self.kind == "account" else 0

    def wants(self):
        """The requirement and the value of what it would begin, or None."""
        state, arg = self.state, self.arg
        if self.kind == "philosopher":
            return (0, 0) if state < arg else None
        if self.kind in ("source", "teller"):
            return (0, state + 1) if state < arg else None
        if self.kind == "buffer":
            return (0, state[0]) if state else None
        if self.kind == "asker":
            return (0, state[0] + 1) if state[0] < arg else None
        return None

    def is_done(self):
        return self.wants() is None

    def ended(self, value):
        """A transaction of its own ended with this answer."""
        if self.kind == "philosopher" and value == 1 or self.kind == "source" and value != 0 or self.kind == "teller":
            self.state += 1
        if self.kind == "buffer" and value != 0:
            self.state = self.state[1:]
        if self.kind == "asker":
            self.state = [self.state[0] + 1, (self.state[1] + value) % M]

    def replies(self):
        """What it replies to an intermediate reply."""
        return (self.state[0] + 1) % M if self.kind == "asker" else 0

    def serve(self, value):
        self.value, self.answers, self.heard, self.reply = value, [], None, 0
        if self.kind == "fork":
            free = self.state == 0
            self.reply = {1: int(free), 0: 1}.get(value, 0)
            self.state = {1: 1, 0: 0}.get(value, self.state)
        if self.kind == "sink" or self.kind == "buffer" and len(self.state) < self.arg:
            self.state = self.state + [value]
            self.reply = 1
        if self.kind == "account":
            amount, takes = value // 2, value % 2 == 1
            self.reply = int(not takes or self.state >= amount)
            if self.reply:
                self.state += -amount if takes else amount

    def next(self):
        """What it does next in its service: ("give", v), ("more", v) or ("call", requirement, v)."""
        return getattr(self, "next_of_" + self.kind, self.next_of_others)()

    def next_of_others(self):
        return "give", self.reply

    def next_of_map(self):
        return ("give", self.answers[0]) if self.answers else ("call", 0, (self.value + self.arg) % M)

    def next_of_adder(self):
        return ("more", self.value) if self.heard is None else ("give", (self.value + self.heard) % M)

    def next_of_branch(self):
        if self.value >= GREATEST_AMOUNT:
            return "give", 0
        if not self.answers:
            return "call", 0, 2 * self.value + 1
        if self.answers[0] != 1:
            return "give", 0
        return ("give", 1) if len(self.answers) == 2 else ("call", 1, 2 * self.value)

    def next_of_place(self):
        first = 0 if self.arg == 0 else 1
        other, count = 1 - first, len(self.answers)
        if count == 0:
            return "call", first, 1
        if self.answers[0] != 1:
            return "give", 0
        if count == 1:
            return "call", other, 1
        if self.answers[1] != 1:
            return ("call", first, 0) if count == 2 else ("give", 0)
        return [("call", other, 0), ("call", first, 0), ("give", 1)][count - 2]

    def numbers(self):
        if self.kind in STATELESS:
            return []
        return list(self.state) if self.kind in LISTS + PAIRS else [self.state]
