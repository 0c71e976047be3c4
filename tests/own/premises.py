"""Gates and roots by themselves, with threads that are switched often: the premises A1 to A3 as plain statements of what was seen."""
import asyncio
import random
import sys
import threading
import time

from tareslater.gates import Gate, Misuse, Removed, Root, Unlinked, settle

ROUNDS = 200


class Seen:
    """A gate, threads that begin and end roots at it, and what of the premises failed."""

    def __init__(self):
        self.gate, self.going, self.faults = Gate("gate"), True, []
        self.lock, self.inside, self.is_closed, self.begun = threading.Lock(), 0, True, 0
        self.gate.is_linked = True

    def note(self, change):
        """A root begins or ends, by the count of this try."""
        with self.lock:
            self.inside += change
            self.begun += change > 0

    def work(self, number):
        pick = random.Random(number)
        while self.going:
            if pick.random() < 0.5:
                self.gate.enter_from_thread()
            elif not self.gate.try_enter():
                continue
            self.note(1)
            for _ in range(pick.randrange(20)):
                pass
            self.note(-1)
            self.gate.leave()

    def close(self):
        """Closes the gate, waits until it is idle, and looks on for a while."""
        idle = []
        if self.gate.close(lambda: idle.append(self.inside)):
            while not idle:
                pass
        elif idle:
            self.faults.append("idle is told of a gate that wasn't busy")
        begun = self.begun
        for _ in range(2000):
            pass
        if self.gate.count or self.inside or self.begun != begun:
            self.faults.append("a root at a gate that is closed and idle")
        if len(idle) > 1 or any(idle):
            self.faults.append("idle is told %s" % idle)


def try_gate(tries):
    """A1 and A2: between `close` with `idle` and `reopen` no root is under way and none begins."""
    interval = sys.getswitchinterval()
    sys.setswitchinterval(0.00002)
    seen = Seen()
    threads = [threading.Thread(target=seen.work, args=(number,), daemon=True) for number in range(6)]
    for thread in threads:
        thread.start()
    for _ in range(ROUNDS):
        seen.gate.reopen()
        enough = seen.begun + 10
        while seen.begun < enough:
            time.sleep(0)
        seen.close()
    seen.going = False
    seen.gate.reopen()
    for thread in threads:
        thread.join(20)
    sys.setswitchinterval(interval)
    tries.same("what failed of %d closes" % ROUNDS, [], sorted(set(seen.faults)))
    tries.want("roots were begun meanwhile", seen.begun >= 10 * ROUNDS, seen.begun)


def try_root(tries):
    """A3: a root ends once, when the last of what holds it lets go; and nothing holds it afterwards."""
    ended = []
    root = Root(lambda: ended.append(1))
    turns = [threading.Thread(target=lambda: [(root.hold(), root.release()) for _ in range(2000)]) for _ in range(4)]
    for turn in turns:
        turn.start()
    for turn in turns:
        turn.join()
    tries.same("held and released in threads", ([], 1), (ended, root.open))
    root.release()
    tries.same("the last lets go", [1], ended)
    try:
        root.hold()
        tries.want("held after its end", False)
    except Misuse:
        tries.same("held after its end", (0, [1]), (root.open, ended))


def try_closed(tries):
    """What a gate says that leads nowhere, or whose owner was removed."""
    gate = Gate("c.out")
    for is_removed, wanted in ((False, Unlinked), (True, Removed)):
        if is_removed:
            gate.remove("its heir")
        gate.reopen()
        try:
            gate.enter_from_thread()
            tries.want("a gate that leads nowhere", False)
        except (Unlinked, Removed) as fault:
            tries.same("a gate that leads nowhere", (wanted, "c.out", 0), (type(fault), str(fault), gate.count))


async def try_waiting(tries):
    """Waiters in the loop: one that goes isn't counted, the others begin once the gate is open."""
    gate = Gate("gate")
    gate.is_linked = True
    waiting = [asyncio.ensure_future(gate.enter()) for _ in range(3)]
    await asyncio.sleep(0)
    waiting[0].cancel()
    gate.reopen()
    await asyncio.wait(waiting)
    tries.same("two of three begin", (2, [True, False, False]), (gate.count, [each.cancelled() for each in waiting]))
    future = asyncio.get_running_loop().create_future()
    settle(future)
    settle(future)
    tries.same("settled twice", None, await future)


def tries(tries):
    try_gate(tries)
    try_root(tries)
    try_closed(tries)
    asyncio.run(try_waiting(tries))
