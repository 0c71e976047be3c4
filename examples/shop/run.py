#!/usr/bin/env python3
"""A shop that is changed five times under load, and what was lost: nothing, or it says what and ends with status 1.

Usage: examples/shop/run.py [--program DARWIN_RUN] [--connections N] [--seconds S] [--log FILE] [--board]. With --board it prints the address
of a page that follows the shop. The manager is the program that is named, or the one that the package finds.
"""
import argparse
import asyncio
import contextlib
import json
import os
import sqlite3
import sys
import tempfile
import time

HERE = os.path.dirname(os.path.abspath(__file__))
TOP = os.path.dirname(os.path.dirname(HERE))
sys.path[:0] = [HERE, os.path.join(TOP, "python")]
import load
import shop
from tareslater import GivenUp, System
from tareslater.board import Board
from tareslater.manager import manager

WITHIN = 5  # seconds
PATIENCE = 60  # seconds for mails that are still to be sent
BATCHES = {"stock": "stock", "mail": "mail"}


def wiring():
    with open(os.path.join(HERE, "shop.dar")) as file:
        return file.read()


# ---- what was lost


def compared(name, came, wanted):
    missing, extra = len(set(wanted) - set(came)), len(came) - len(set(came) & set(wanted))
    return [] if sorted(came) == sorted(wanted) else ["%s: %d missing, %d too many of %d" % (name, missing, extra, len(wanted))]


def lost(orders, stock, mail, audit):
    """What was lost or came twice, against what clients were told."""
    faults = []
    for item in range(load.ITEMS):
        told = sum(count for _, of, count in orders if of == item)
        if stock.sold[item] != told:
            faults.append("item %d: %d sold, %d told" % (item, stock.sold[item], told))
    with open(shop.Journal.file) as file:
        journal = [tuple(map(int, line.split())) for line in file]
    with open(shop.Post.file) as file:
        mails = [int(word) for word in file.read().split()]
    database = sqlite3.connect(shop.Stock.file)
    faults += compared("database", database.execute("select * from orders").fetchall(), orders)
    database.close()
    faults += compared("journal", [entry[:3] for entry in journal], orders)
    faults += compared("mailbox", mails, [number for number, _, _ in orders])
    if mail.queue:
        faults.append("%d mails unsent" % len(mail.queue))
    if audit and audit.count != sum(entry[3] for entry in journal):
        faults.append("the auditor has %d, the journal %d" % (audit.count, sum(entry[3] for entry in journal)))
    return faults


# ---- the five changes


def show(name, changed):
    print("%-24s held %5.1f ms, of which %5.1f waiting: %s" % (
        name, changed.held_seconds * 1e3, changed.waited_seconds * 1e3, " ".join(changed.held)), flush=True)


async def ask(port, request):
    """What a client is told."""
    reader, writer = await asyncio.open_connection("127.0.0.1", port)
    writer.write(json.dumps(request).encode() + b"\n")
    answer = json.loads(await reader.readline())
    writer.close()
    return answer


async def given_up(system, seconds):
    """A change while a slow report is under way. On a busy machine that may end too soon: then back, and again with a longer one."""
    while True:
        slow = asyncio.create_task(ask(system["front"].port, {"do": "report", "with": {"seconds": seconds}}))
        await asyncio.sleep(0.05)
        try:
            await system.change("Shop(4)", within=seconds / 3)
        except GivenUp as fault:
            print("%-24s given up: %s" % ("4: catalog replaced", fault))
            print("%-24s %s" % ("   the slow report", await slow))
            return
        await slow
        await system.change("Shop(3)", within=WITHIN)
        seconds *= 2


async def changes(system, seconds):
    """Changes the shop step by step."""
    pause = seconds / 6
    await asyncio.sleep(pause)
    show("2: stock, mail replaced", await system.change("Shop(2)", within=WITHIN, moving=BATCHES))
    await asyncio.sleep(pause)
    show("3: an auditor is added", await system.change("Shop(3)", within=WITHIN))
    await asyncio.sleep(pause)
    await given_up(system, pause)
    show("4: catalog replaced", await system.change("Shop(4)", within=WITHIN))
    await asyncio.sleep(pause)
    show("5: post replaced", await system.change("Shop(5)", within=WITHIN))


@contextlib.asynccontextmanager
async def followed(system, is_wanted):
    """A page that follows the system, where one is wanted."""
    if not is_wanted:
        yield
        return
    async with Board(system) as board:
        print("follow it at %s" % board.address, flush=True)
        yield


async def trial(connections, seconds, does=changes, command=None, start="Shop(1)", log=None, board=False):
    """Runs the shop under load while `does` changes it, which may give orders of its own that it was told are taken. What was lost is told."""
    system = System(wiring(), shop.COMPONENTS, command or manager(), log=log, grace=60)
    with tempfile.TemporaryDirectory() as folder:
        before = os.getcwd()
        os.chdir(folder)
        try:
            open(shop.Post.file, "w").close()
            await system.start(start)
            async with followed(system, board):
                told = await under_load(system, connections, seconds, does)
            parts = system["stock"], system["mail"], system.components.get("audit")
            await system.stop()
            faults = lost([tuple(order) for order in told["orders"]], *parts)
        finally:
            os.chdir(before)
    return faults + [repr(fault) for fault in system.faults]


async def under_load(system, connections, seconds, does):
    """What clients were told, once all of it is sent."""
    words = [os.path.join(HERE, "load.py"), str(system["front"].port), str(connections), str(seconds)]
    clients = await asyncio.create_subprocess_exec(sys.executable, *words, stdout=asyncio.subprocess.PIPE)
    answer = asyncio.create_task(clients.communicate())
    try:
        own = await does(system, seconds)
    finally:
        told = json.loads((await answer)[0])
    told["orders"] += own or []
    until = time.monotonic() + PATIENCE
    while system["mail"].queue and time.monotonic() < until:
        await asyncio.sleep(0.05)
    waits = sorted(told["waits"])
    print("%d requests, %d orders, %d failed on purpose; %.0f a second; waits: median %.1f ms, longest %.1f" % (
        len(waits), len(told["orders"]), told["faults"], len(waits) / seconds, waits[len(waits) // 2] * 1e3, waits[-1] * 1e3))
    return told


def main():
    options = argparse.ArgumentParser(description=__doc__, formatter_class=argparse.RawDescriptionHelpFormatter)
    options.add_argument("--program", type=os.path.abspath, help="the manager")
    options.add_argument("--connections", type=int, default=16)
    options.add_argument("--seconds", type=float, default=8)
    options.add_argument("--log", type=os.path.abspath, help="a file for the sessions, which tools/session_summary shows")
    options.add_argument("--board", action="store_true", help="serve a page that follows the shop")
    given = options.parse_args()
    faults = asyncio.run(trial(given.connections, given.seconds, command=manager(given.program), log=given.log, board=given.board))
    print("\n".join(faults) or "nothing was lost")
    sys.exit(bool(faults))


if __name__ == "__main__":
    main()
