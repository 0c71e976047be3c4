"""The shop under load: its five changes, and faults that are planted in it and in the package, with what catches each or what is lost.

Each fault is met for certain, however busy the machine is: during each change an order is in the middle of the stock, which holds it until
the row lets it go.
"""
import asyncio
import contextlib
import io
import logging
import os
import subprocess
import sys
import tempfile
import threading

import load
import run
import shop
from planted import close_without_waiting, leaking, left_out
from program import TOP
from small import LONG, closing, planted, until
from tareslater import changes, gates, session, sites

HELD = ("front.order", "front.report", "front.search", "mail.post")  # by each change of the stock and of the mail


async def uncounted(change):
    """Goes on without the package's own count."""


async def in_hand(mail):
    """Takes a mail in hand, and waits for the gate then."""
    while True:
        if not mail.queue:
            mail.filled.clear()
            await mail.filled.wait()
        number = mail.queue.popleft()
        await mail.post([number])


class Order:
    """An order of a row's own, beside those of the load."""

    def __init__(self, number):
        self.row, self.is_in, self.let_go = (number, number % load.ITEMS, 1), threading.Event(), threading.Event()

    async def ask(self, system):
        """Whether its client is told that it is taken."""
        asked = dict(zip(("number", "item", "count"), self.row))
        return await run.ask(system["front"].port, {"do": "order", "with": asked}) == {"ok": True}


def keeping(orders):
    """In the place of the stock's `reserve`: it keeps these orders, by their numbers, until they are let go. It writes none into the database
    before the end, so that no other order fails where an old stock goes on."""

    def reserve(stock, number, item, count):
        order = orders.get(number)
        if order:
            order.is_in.set()
            order.let_go.wait(LONG)
        with stock.lock:
            stock.sold[item] += count
            stock.unwritten.append((number, item, count))
        return True

    return reserve


SUMMARY = os.path.join(TOP, "tools", "session_summary")
UNCOUNTED = (changes.Change, "judge", uncounted)
LEAK, HASTE = (gates.Gate, "try_enter", leaking), (sites.Site, "close_gate", close_without_waiting)
CLOSED, FOLLOWED, ENDED = "the gates are closed", "another has come in behind it", "the change has ended"
# a fault, when the order in the middle is let go, what the package raises at each change then, and whether something is lost at the end
FAULTS = [
    ("nothing is wrong", [], CLOSED, {None}, False),
    ("nothing is wrong, and an order lasts long", [], ENDED, {"GivenUp"}, False),
    ("the gate doesn't hold", [LEAK], FOLLOWED, {"GivenUp"}, False),
    ("a close isn't waited for", [HASTE], ENDED, {"NotQuiescent"}, False),
    ("`idle` is left out", [(session.Session, "say", left_out("idle"))], CLOSED, {"GivenUp"}, False),
    ("`busy` is left out", [(session.Session, "say", left_out("busy"))], ENDED, {"NotQuiescent", "Refused"}, False),
    ("a close isn't waited for, nor counted", [HASTE, UNCOUNTED], ENDED, {None}, True),
    ("a mail in hand while its sender waits at the gate", [(shop.Mail, "run", in_hand)], CLOSED, {None}, True),
    ("a state isn't handed over", [(shop.Mail, "take", lambda mail, state: None)], CLOSED, {None}, True),
]
TIMES, SECONDS, PATIENCE = 3, 3, 60


async def in_the_middle(system, first, behind, when, within):
    """What a change of stock and mail raises while an order is in the middle; and the orders of which their clients are told in the end that they
    are taken."""
    asking = [asyncio.ensure_future(first.ask(system))]
    assert await until(first.is_in.is_set)
    changing = asyncio.ensure_future(system.change("Shop(%d)" % (3 - int(system.call[1])), within=within, moving=run.BATCHES))
    await closing(system, changing, *HELD)
    if when == FOLLOWED:
        asking.append(asyncio.ensure_future(behind.ask(system)))
        assert await until(behind.is_in.is_set)
    if when != ENDED:
        first.let_go.set()
    (raised,) = await asyncio.gather(changing, return_exceptions=True)
    first.let_go.set()
    behind.let_go.set()
    told = await asyncio.gather(*asking)
    taken = [order.row for order, is_taken in zip((first, behind), told) if is_taken]
    return type(raised).__name__ if isinstance(raised, Exception) else None, taken


async def changed_so_often(system, orders, when, within, raised):
    """Stock and mail are replaced again and again. The orders that were taken beside those of the load."""
    taken = []
    for turn in range(TIMES):
        first, behind = (Order(10**9 + 2 * turn + at) for at in range(2))
        orders.update((order.row[0], order) for order in (first, behind))
        fault, told = await in_the_middle(system, first, behind, when, within)
        raised.append(fault)
        taken += told
    return taken


def try_faults(tries):
    """Either a fault is caught, and then nothing is lost; or something is, and the shop's own books show it."""
    for name, faults, when, wanted, loses in FAULTS[:1] if tries.quick else FAULTS:
        raised, orders, within = [], {}, 0.5 if wanted == {"GivenUp"} else PATIENCE
        with planted((shop.Stock.provisions["reserve"], "handler", keeping(orders)), *faults), contextlib.redirect_stdout(io.StringIO()):
            found = asyncio.run(run.trial(12, SECONDS, lambda system, _: changed_so_often(system, orders, when, within, raised), tries.manager))
        print("%-52s raised %s; at the end: %s" % (name, sorted(set(map(str, raised))), "; ".join(found)[:90] or "nothing was lost"), flush=True)
        tries.want("%s: what is raised" % name, len(raised) == TIMES and set(raised) <= wanted, raised)
        tries.want("%s: what is lost" % name, bool(found) == loses, found)


def try_changes(tries):
    """The five changes of the example, and what its log says of them."""
    said = io.StringIO()
    with tempfile.TemporaryDirectory() as folder:
        log = os.path.join(folder, "sessions")
        with contextlib.redirect_stdout(said):
            found = asyncio.run(run.trial(16, 4 if tries.quick else 8, command=tries.manager, log=log))
        with open(log) as file:
            done = subprocess.run([sys.executable, SUMMARY], stdin=file, stdout=subprocess.PIPE, stderr=subprocess.PIPE)
    rows = [line.split(" ", 1)[1] for line in done.stdout.decode().splitlines() if not line.startswith("  ")]
    tries.same("what the shop lost", [], found)
    wanted = ["1 -- Shop 2: made", "2 -- Shop 3: made", "3 -- Shop 4: NOT MADE", "3 -- Shop 4: made", "4 -- Shop 5: made"]
    tries.same("its log", (["Shop " + row for row in wanted], b""), (rows[:2] + rows[-3:], done.stderr))
    shown = [line[:2] for line in said.getvalue().splitlines() if line[1:2] == ":"]
    tries.same("changes", ["2:", "3:", "4:", "4:", "5:"], shown)


def try_side_by_side(tries):
    """A catalog is replaced while a report is under way: by way of a system with both, orders and searches don't wait for it."""

    async def changes(system, seconds):
        slow = asyncio.ensure_future(run.ask(system["front"].port, {"do": "report", "with": {"seconds": seconds / 2}}))
        await asyncio.sleep(0.05)
        first, second = await system.side_by_side("Both(2)", "Both(3)", within=5)
        tries.same("what is held", (["front.order", "front.search"], ["front.report"]), (sorted(first.held), second.held))
        await slow

    with contextlib.redirect_stdout(io.StringIO()):
        tries.same("what is lost side by side", [], asyncio.run(run.trial(8, 4, changes, tries.manager, "Both(1)")))


def tries(tries):
    logging.disable(logging.CRITICAL)
    try_changes(tries)
    try_side_by_side(tries)
    try_faults(tries)
    logging.disable(logging.NOTSET)
