"""The board in a browser: rows that press, write, fold and find, and read what stands then."""
import asyncio
import functools
import os
import re
import time

import browser
from small import CLASSES, TEXT, Client, Server, Store, running, writing
from tareslater import Component, Requires, provides
from tareslater.board import Board

WIDE, NARROW = (1280, 1000), (400, 1500)
SECONDS = 300  # of a machine that is busy
# three lanes as the small system is one, and a caller of a store beside them
LANES = """component Lane(int v) { inst c:Client(0); s:Server(0); t:Store(v); bind c.out -- s.ask; s.store -- t.put; s.other -- t.put; }
component Lanes(int v) { array l[3]:Lane(v); forall i:0..2 inst l[i](v); inst r:Caller(0); t:Store(v); bind r.slowly -- t.write; }"""

class Hub(Component):
    """Calls six services of five components, as the shop's catalog does."""

    audit = Requires()
    cache = Requires()
    journal = Requires()
    mail = Requires()
    scan = Requires()
    stock = Requires()

    @provides(audit, cache, journal, mail, scan, stock)
    async def ask(self, value):
        for each in (self.audit, self.cache, self.journal, self.mail, self.scan, self.stock):
            await each(value)


HUB = """component Hubs(int v) { inst front:Client(0); catalog:Hub(0); audit:Store(v); cache:Server(0); journal:Store(v); mail:Server(0); stock:Store(v); post:Store(v);
  bind front.out -- catalog.ask; catalog.audit -- audit.put; catalog.cache -- cache.ask; cache.store -- stock.put; cache.other -- stock.put; catalog.journal -- journal.put;
  catalog.mail -- mail.ask; mail.store -- post.put; mail.other -- post.put; catalog.scan -- stock.put; catalog.stock -- stock.put; }"""

# how many numbers of links lie on a box, and how many on another number
OVERLAPS = """(() => { const of = (it) => it.getBoundingClientRect(), boxes = [...document.querySelectorAll('#graph .box:not(.frame) > .front')].map(of);
const rates = [...document.querySelectorAll('#graph .rate')].filter((it) => it.textContent).map(of);
const meets = (one, other) => one !== other && one.left < other.right && other.left < one.right && one.top < other.bottom && other.top < one.bottom;
return [boxes, rates].map((all) => rates.filter((one) => all.some((other) => meets(one, other))).length); })()"""
# links that lead through a box which is none of their ends
THROUGH = """(() => { const boxes = board.graph.order.filter((box) => !box.isFrame);
const lies = (box, { x, y }) => x > box.x && x < box.x + box.width && y > box.y && y < box.y + box.height;
const points = (path) => Array.from({ length: 100 }, (_, at) => path.getPointAtLength((at / 99) * path.getTotalLength()));
return board.graph.edges.filter(({ from, to, path }) => boxes.some((box) => box !== from && box !== to && points(path).some((point) => lies(box, point))))
  .map(({ from, to }) => `${from.key} ${to.key}`); })()"""


class Hand:
    """A browser with a board."""

    def __init__(self, tries, browser, pictures):
        self.tries, self.browser, self.pictures = tries, browser, pictures

    def ask(self, words):
        return self.browser.ask(words)

    def text(self, selector):
        return self.ask("document.querySelector(%r)?.innerText ?? null" % selector)

    def texts(self, selector):
        return self.ask("[...document.querySelectorAll(%r)].map((it) => it.innerText.replace(/\\s+/g, ' ').trim())" % selector)

    def boxes(self):
        return sorted(self.ask("[...document.querySelectorAll('#graph .box:not(.frame)')].map((it) => it.dataset.path)"))

    def marks(self, path):
        return self.ask("document.querySelector('#graph [data-path=\"%s\"]').dataset.marks" % path)

    def until(self, what, words):
        """Waits until an expression holds."""
        end = time.monotonic() + SECONDS
        while not self.ask("Boolean(%s)" % words):
            if time.monotonic() > end:
                return self.tries.want("in the browser: " + what, False, self.text("body")[:300])
            time.sleep(0.05)
        return self.tries.want("in the browser: " + what, True)

    def same(self, what, wanted, came):
        self.tries.same("in the browser: " + what, wanted, came)

    def write(self, field, text):
        self.ask("document.querySelector(%r).select()" % field)
        self.browser.write(text)

    def faults(self):
        """What went wrong on the page, but for answers that say why a change isn't made, or that the token is wanted."""
        return [fault for fault in self.browser.faults() if not re.search("status of (409|401)", fault)]

    def open(self, board):
        self.faultless("what was done before")
        self.browser.visit(board.address)
        self.until("it follows", "Object.keys(board.now.of).length")

    def leave(self):
        """Goes to no page, and forgets that the board of the last one wasn't reached any more."""
        self.browser.call("Page.navigate", url="about:blank")
        self.ask("0")
        self.browser.events.clear()

    def faultless(self, what):
        """Nothing went wrong on the page, up to now."""
        self.same("faults of %s" % what, [], self.faults())

    def picture(self, name, is_whole=False):
        if self.pictures:
            self.browser.screenshot(os.path.join(self.pictures, name + ".png"), is_whole)


def try_following(hand, board, _):
    """The graph, and what goes through it; the token leaves the address."""
    hand.open(board)
    hand.same("the address", "http://127.0.0.1:%d/" % board.port, hand.ask("location.href"))
    hand.same("the system", ("Small(0)", "Small(0) – board"), (hand.text("#call"), hand.ask("document.title")))
    hand.same("boxes", ["c", "r", "s", "t"], hand.boxes())
    hand.until("requests a second on a link", "Number(document.querySelector('#graph .rate')?.textContent) > 0")
    hand.until("requests a second in the head", "/^4 components · [1-9][0-9.k]* requests a second · \\d+ requests? under way$/.test(document.querySelector('#about').innerText)")
    hand.same("numbers that lie on a box, or on another", [0, 0], hand.ask(OVERLAPS))
    hand.same("requirements", "c.out s.ask", " ".join(hand.texts("#requirements td")[:2]))
    hand.same("gates", ["open", ""], [hand.ask("board.cells.get(%r).lastChild.innerText" % name) for name in ("c.out", "r.loose")])
    hand.same("no change", "No change.", hand.text("#under-way"))
    own = "http://127.0.0.1:%d/" % board.port
    hand.same("it asks nobody else", [], [url for url in hand.browser.requests() if not url.startswith((own, "data:,", "about:"))])
    hand.browser.visit(own)
    hand.until("it follows after a reload, by what the tab keeps", "board.now.of['c.out']")


def try_token(hand, board, _):
    """Without the right token it asks for one."""
    hand.ask("sessionStorage.clear()")
    hand.browser.visit("http://127.0.0.1:%d/#wrong" % board.port)
    hand.until("it asks for the token", "!document.querySelector('#key').hidden")
    hand.same("and says so", "The token is wanted.", hand.text("#about"))
    hand.ask("document.querySelector('#token').focus()")
    hand.browser.write(board.token)
    hand.browser.press("Enter")
    hand.until("it follows then", "board.now.of['c.out']")
    hand.same("and asks no more", True, hand.ask("document.querySelector('#key').hidden"))


def try_change(hand, board, _):
    """A plan, what it would lose, the change, and what is told of it."""
    hand.open(board)
    hand.same("nothing can be made without a plan", True, hand.ask("document.querySelector('#make').disabled"))
    hand.write("#to", "Small(1)")
    hand.browser.click("#plan")
    hand.until("the plan", "document.querySelector('#told dl')")
    hand.same("what it holds", "c.out, r.asking, r.detached, r.slowly, r.undeclared", hand.texts("#told dd")[0])
    hand.same("what would be lost", "thandovermaybelost", hand.texts("#told dd")[5].replace(" ", ""))
    hand.same("so it can't be made", True, hand.ask("document.querySelector('#make').disabled"))
    hand.picture("board-plan")
    hand.browser.click("#told dd button")
    hand.until("it is planned anew", "!document.querySelector('#make').disabled")
    hand.same("what hands over", ("t", "t"), (hand.ask("document.querySelector('#moving').value"), hand.texts("#told dd")[4]))
    hand.write("#within", "20")
    hand.same("another question wants another plan", True, hand.ask("document.querySelector('#make').disabled"))
    hand.browser.click("#plan")
    hand.until("it is planned", "!document.querySelector('#make').disabled")
    hand.browser.click("#make")
    hand.until("it stands", "document.querySelector('#told').innerText.startsWith('Small(1) stands.')")
    hand.until("the new graph", "document.querySelector('#call').innerText === 'Small(1)'")
    hand.same("the new store", "Store(1)", hand.ask("document.querySelector('#graph [data-path=t] .kind').textContent"))
    hand.until("the last change", "document.querySelector('#past .made')")
    hand.same("in the table", ["Small(1)", "made"], hand.texts("#past tbody td")[1:3])
    hand.write("#to", "None_such")
    hand.browser.click("#plan")
    hand.until("why there is no plan", "document.querySelector('#told').innerText.includes('NoTop None_such')")


def try_waiting(hand, board, events):
    """A change under way: what it holds and waits for, until it is given up."""
    hand.open(board)
    events.begin()
    hand.until("a request is under way", "board.now.serving.t === 1")
    hand.same("what serves", "busy", hand.marks("t"))
    ask_for(hand, "Small(2)", 1)
    hand.until("it is given up", "document.querySelector('#told').innerText === 'GivenUp: still under way: r.slowly'")
    hand.until("and told", "document.querySelector('#past .failed')")
    ask_for(hand, "Small(2)", 3600)
    hand.until("what it waits for", "document.querySelector('#under-way').innerText.includes('r.slowly (1)')")
    hand.same("what is marked", ("frozen", "frozen", "removed made busy"), (hand.marks("c"), hand.marks("r"), hand.marks("t")))
    hand.same("to what", "To Small(2)", hand.text("#under-way strong"))
    hand.same("what it holds", "c.out, r.asking, r.detached, r.slowly, r.undeclared", ", ".join(sorted(hand.texts("#under-way dd")[0].split(", "))))
    hand.until("gates are closed", "board.cells.get('c.out').lastChild.innerText === 'closed'")
    hand.picture("board-waiting")
    events.end()
    hand.until("it is made then", "document.querySelector('#told').innerText.startsWith('Small(2) stands.')")
    hand.until("nothing is under way", "document.querySelector('#under-way').innerText === 'No change.'")
    hand.until("gates are open", "board.cells.get('c.out').lastChild.innerText === 'open'")


def ask_for(hand, call, within):
    """Has a change made by which the store's state is lost."""
    hand.write("#to", call)
    hand.write("#within", str(within))
    hand.write("#losing", "t")
    hand.browser.click("#plan")
    hand.until("it is planned", "!document.querySelector('#make').disabled")
    hand.browser.click("#make")


def try_folding(hand, board, _):
    """Arrays and composites fold, with sums; a path is found; keys lead from box to box."""
    hand.open(board)
    lanes = ["l[%d].%s" % (lane, name) for lane in range(3) for name in "cst"]
    hand.same("all boxes", lanes + ["r", "t"], hand.boxes())
    hand.browser.click("#fold")
    hand.same("folded boxes", ["l[]", "r", "t"], hand.boxes())
    hand.ask("board.graph.focus('l[]')")
    hand.browser.press("Enter")
    hand.same("an array that is opened", ["l[0]", "l[1]", "l[2]", "r", "t"], hand.boxes())
    hand.browser.click('#graph [data-path="l[1]"] .front')
    hand.same("what was chosen", "l[1]", hand.text("#chosen strong"))
    hand.same("its requirements are marked", ["l[1].c.out", "l[1].s.back", "l[1].s.other", "l[1].s.store"], [row.split(" ")[0] for row in hand.texts("#requirements tr.chosen")])
    hand.browser.click('#graph [data-path="l[1].t"] .front')
    hand.same("a component that was chosen", ["Store(1)"], hand.texts("#chosen dd")[:1])
    hand.browser.press("/")
    hand.same("what has the focus behind /", "sought", hand.ask("document.activeElement.id"))
    hand.browser.write("l[2].c")
    hand.same("what is found", ["l[2].c.out"], [row.split(" ")[0] for row in hand.texts("#requirements tbody tr:not([hidden])")])
    hand.same("where it is, folded", True, hand.ask("document.querySelector('#graph [data-path=\"l[2]\"]').classList.contains('sought')"))
    hand.browser.click("#unfold")
    hand.same("all is opened", lanes + ["r", "t"], hand.boxes())


def try_zoom(hand, board, _):
    """The graph is made larger, and stays so when news come; then all of it is seen again."""
    hand.open(board)
    view = "document.querySelector('#graph').getAttribute('viewBox')"
    whole = hand.ask(view)
    hand.browser.click("#larger")
    near = hand.ask(view)
    hand.tries.want("in the browser: larger", 1.29 < float(whole.split(" ")[2]) / float(near.split(" ")[2]) < 1.31, (whole, near))
    hand.ask("board.now.at = 0")
    hand.until("news come", "board.now.at > 0")
    hand.same("what is seen stays", near, hand.ask(view))
    hand.browser.click("#smaller")
    hand.browser.click("#fit")
    hand.same("all of it", whole, hand.ask(view))


def try_numbers(hand, board, _):
    """Where many links begin at one box, each has room for its number, wide and narrow, and leads past other boxes."""
    for size in (WIDE, NARROW):
        hand.browser.size(*size)
        hand.open(board)
        hand.same("links with a number", 8, hand.ask("document.querySelectorAll('#graph .rate').length"))
        hand.same("numbers that lie on a box, or on another, %d wide" % size[0], [0, 0], hand.ask("board.graph.edges.forEach(({ rate }) => (rate.textContent = '8.8k')), %s" % OVERLAPS))
        hand.same("links that lead through a box", [], hand.ask(THROUGH))
        hand.picture("board-hub-%d" % size[0])
    hand.browser.size(*WIDE)


def try_looks(hand, board, _):
    """Light and dark, wide and narrow: nothing stands out of the page."""
    for size in (WIDE, NARROW):
        backs = []
        for scheme in ("light", "dark"):
            hand.browser.size(*size)
            hand.browser.scheme(scheme)
            hand.open(board)
            hand.until("rates", "document.querySelector('#graph .rate')?.textContent")
            backs.append(hand.ask("getComputedStyle(document.body).backgroundColor"))
            hand.same("as wide as %d" % size[0], size[0], hand.ask("document.documentElement.scrollWidth"))
            hand.picture("board-%d-%s" % (size[0], scheme))
        hand.same("light and dark", ["rgb(255, 255, 255)", "rgb(20, 24, 31)"], backs)
    hand.browser.size(*WIDE)
    hand.browser.scheme("light")


class Slow:
    """A write that rows begin and end, from beside the loop."""

    def __init__(self, system, loop):
        self.system, self.loop, self.stack = system, loop, None

    def begin(self):
        self.block = writing(self.system)
        self.event = asyncio.run_coroutine_threadsafe(self.block.__aenter__(), self.loop).result()

    def end(self):
        asyncio.run_coroutine_threadsafe(self.block.__aexit__(None, None, None), self.loop).result()


async def with_board(hand, rows, **words):
    """Rows beside a system with its board."""
    loop = asyncio.get_running_loop()
    async with running(hand.tries.manager, **words) as system:
        async with Board(system) as board:
            for row in rows:
                try:
                    await loop.run_in_executor(None, functools.partial(row, hand, board, Slow(system, loop)))
                    await loop.run_in_executor(None, hand.faultless, row.__name__)
                except browser.Broken as broken:
                    hand.tries.want("%s comes to its end" % row.__name__, False, broken)
    if rows[-1] is try_looks:
        await loop.run_in_executor(None, hand.until, "that the board is gone", "document.querySelector('#about').innerText.startsWith('The board isn')")
    await loop.run_in_executor(None, hand.leave)


def try_all(tries, program, pictures):
    driven = browser.Browser(program)
    try:
        driven.size(*WIDE)
        hand = Hand(tries, driven, pictures)
        asyncio.run(with_board(hand, [try_following, try_token, try_change, try_waiting], text=TEXT, classes=CLASSES))
        asyncio.run(with_board(hand, [try_numbers], text=HUB, classes=[Client, Hub, Server, Store], call="Hubs(1)"))
        asyncio.run(with_board(hand, [try_zoom, try_folding, try_looks], text=LANES, classes=CLASSES, call="Lanes(1)"))
    finally:
        driven.close()
