"""A desk that runs in threads, as examples/desk.dar describes it: orders go over a catalogue to a stock, searches to an index. While they go on its
catalogue is replaced, by sessions of `apply` with a program."""
import queue
import subprocess
import threading
import time

ORDERS, SEARCHES = 6, 2
TURN = 0.01
ROUNDS = "100000"


class Gate:
    """A gate and the roots behind it, under one lock. What it tells it tells under the lock, so in order."""

    def __init__(self):
        self.lock, self.is_open, self.roots, self.tell = threading.Condition(), True, 0, None

    def enter(self):
        with self.lock:
            while not self.is_open:
                self.lock.wait()
            self.roots += 1

    def leave(self):
        with self.lock:
            self.roots -= 1
            if self.roots == 0 and self.tell:
                self.tell("idle")

    def close(self, tell):
        with self.lock:
            self.is_open = False
            if self.roots:
                tell("busy")
                self.tell = tell
            tell("closed")

    def open(self):
        with self.lock:
            self.is_open, self.tell = True, None
            self.lock.notify_all()


class Silent(Gate):
    """A gate that doesn't tell what is under way."""

    def close(self, tell):
        with self.lock:
            self.is_open = False
            tell("closed")


class Catalogue:
    """Hands orders on; it may be used until it is replaced."""

    def __init__(self, stock, seconds):
        self.stock, self.seconds, self.is_gone, self.used_late = stock, seconds, False, 0

    def order(self, number):
        time.sleep(self.seconds)
        self.used_late += self.is_gone
        self.stock.put(number)


def next_line(said):
    """A line to say, which is a turn of the clock where nothing is told for a while, or None at the end."""
    try:
        return said.get(timeout=TURN)
    except queue.Empty:
        return b"round\n"


class Desk:
    """The desk, whose services take so many seconds. `clients` go in by its gates until it is shut."""

    def __init__(self, program, folder, gate, seconds):
        self.program, self.folder, self.seconds, self.version, self.is_shut = program, folder, seconds, 1, False
        self.stock, self.ordered, self.catalogues = queue.Queue(), [0] * ORDERS, []
        self.gates = {"order.out": gate(), "search.out": gate()}
        self.replace_catalogue()
        work = [("order.out", self.order, number) for number in range(ORDERS)] + [("search.out", self.search, number) for number in range(SEARCHES)]
        self.clients = [threading.Thread(target=self.go_on, args=one, daemon=True) for one in work]

    def replace_catalogue(self):
        for old in self.catalogues:
            old.is_gone = True
        self.catalogues.append(Catalogue(self.stock, self.seconds))

    # ---- clients

    def go_on(self, port, work, number):
        while not self.is_shut:
            self.gates[port].enter()
            try:
                work(number)
            finally:
                self.gates[port].leave()

    def order(self, number):
        self.catalogues[-1].order((number, self.ordered[number]))
        self.ordered[number] += 1

    def search(self, _):
        time.sleep(self.seconds)

    # ---- changes

    def change(self):
        """Replaces the catalogue, and gives the status."""
        words = ["apply", ROUNDS, "desk.dar", "Desk", str(self.version), "--", "Desk", str(self.version + 1)]
        child = subprocess.Popen([self.program] + words, cwd=self.folder, stdin=subprocess.PIPE, stdout=subprocess.PIPE, bufsize=0)
        said = queue.Queue()
        closed = self.close(child, said)
        threading.Thread(target=self.answer, args=(child, said), daemon=True).start()
        for line in iter(lambda: next_line(said), None):
            try:
                child.stdin.write(line)
            except BrokenPipeError:
                pass  # it has ended; what it wrote is read in a moment
        for port in closed:
            self.gates[port].open()
        child.stdin.close()
        child.stdout.close()
        return child.wait()

    def close(self, child, said):
        """Reads what is asked for, and closes gates; gives the ports that have one."""
        ports, closed = [], []
        for words in map(bytes.split, iter(child.stdout.readline, b"")):
            if words[0] == b"make":
                ports += {b"map": [words[2].decode() + ".next"], b"source": [words[2].decode() + ".out"]}.get(words[3].split(b"(")[0], [])
            elif words[0] == b"close":
                name, tell = ports[int(words[1])], lambda word, number=int(words[1]): said.put(b"%s %d\n" % (word.encode(), number))
                if name in self.gates:
                    self.gates[name].close(tell)
                    closed.append(name)
                else:
                    tell("closed")
            elif words[0] == b"wait":
                break
        return closed

    def answer(self, child, said):
        """Reads what comes behind `wait`: once all is drained it says go, and at commit it replaces the catalogue. Then nothing more is said."""
        for line in iter(child.stdout.readline, b""):
            if line == b"ready\n":
                said.put(b"go\n")
            elif line == b"commit\n":
                self.version += 1
                self.replace_catalogue()
        said.put(None)

    def run(self, changes):
        """The statuses of so many changes, how often a catalogue was used that was gone, and whether each order came to the stock once."""
        for client in self.clients:
            client.start()
        statuses = [self.change() for _ in range(changes)]
        self.is_shut = True
        for client in self.clients:
            client.join()
        wanted = [(number, one) for number, count in enumerate(self.ordered) for one in range(count)]
        return statuses, sum(one.used_late for one in self.catalogues), sorted(self.stock.queue) == wanted
