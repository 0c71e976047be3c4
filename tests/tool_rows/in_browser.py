"""Pages in a browser: rows that click, press keys, zoom, search and fold, and read what stands then."""
import json
import os

import graphs
import machine
from browser import Broken, Browser
from made_pages import event_of, moments_of

WIDE, NARROW = (1280, 1000), (400, 1500)
SECONDS, OFTEN = 2.0, 5


class Hand:
    """A browser with a page, and what is read of it."""

    def __init__(self, tries, pages, browser):
        self.tries, self.pages, self.browser = tries, pages, browser

    def open(self, name, behind=""):
        self.faultless("what was done before the page of %s is opened" % name)
        seconds = self.browser.open(self.pages.files[name], behind)
        self.faultless("the page of %s" % name)
        self.tries.same("the page of %s asks for nothing" % name, [], [url for url in self.browser.requests() if not url.startswith(("file://" + self.pages.files[name], "about:"))])
        return seconds

    def faultless(self, what):
        """Nothing went wrong on the page, up to now."""
        self.tries.same("in the browser: faults of %s" % what, [], self.browser.faults())

    def text(self, selector):
        return self.browser.ask("document.querySelector(%s)?.innerText ?? null" % json.dumps(selector))

    def texts(self, selector):
        return self.browser.ask("[...document.querySelectorAll(%s)].map((it) => it.innerText.replace(/\\s+/g, ' ').trim())" % json.dumps(selector))

    def boxes(self):
        """The boxes that are shown, in order, but frames."""
        return sorted(self.browser.ask("[...document.querySelectorAll('#graph .box:not(.frame):not(.absent)')].map((it) => it.dataset.path)"))

    def marks(self, path):
        return self.browser.ask("document.querySelector(%s).dataset.marks" % json.dumps('#graph [data-path="%s"]' % path))

    def links(self, kind):
        """The links that are drawn so."""
        found = self.browser.ask("[...document.querySelectorAll('#graph .link.%s')].map((it) => `${it.dataset.from} ${it.dataset.to}`)" % kind)
        return sorted(found)

    def place(self, selector):
        """Where something is on the page: its left edge, its top, its width and its height."""
        return self.browser.ask("(() => { const it = document.querySelector(%s).getBoundingClientRect(); return [it.left, it.top, it.width, it.height]; })()" % json.dumps(selector))

    def view(self):
        """Which part of the graph is seen: its left edge, its top, its width and its height."""
        return list(map(float, self.browser.ask("document.querySelector('#graph').getAttribute('viewBox')").split(" ")))

    def near(self, what, wanted, came):
        """Numbers that differ by no more than a thousandth of a picture."""
        self.tries.want("in the browser: " + what, all(abs(one - other) < 1 for one, other in zip(wanted, came)), (wanted, came))

    def same(self, what, wanted, came):
        self.tries.same("in the browser: " + what, wanted, came)


def try_opening(hand):
    """A page opens at its first change, and tells what it does by signs, and not by colours alone."""
    hand.open("grows")
    hand.same("the moment", "change Line(3)", hand.text("#moment"))
    hand.same("what it means", "committed, 2 frozen, 1 removed, 1 made, 1 moved, it waited for 1 round", hand.text("#told"))
    hand.same("what is told", "Report · 54 moments · 4 nodes · 1 change · status 0", hand.text("#about"))
    hand.same("the course", ["start Line(2) committed", "run 2 2 2 transactions ended", "change Line(3) committed: 2 frozen, 1 removed, 1 made, 1 moved", "finish 100 8 8 rounds", "stop"], hand.texts("#course a"))
    hand.same("marks of s", "frozen busy", hand.marks("s"))
    hand.same("marks of b", "frozen removed made moved busy", hand.marks("b"))
    hand.same("signs of b", "‖ − + ⇢ ●", hand.browser.ask("document.querySelector('#graph [data-path=b] .signs').textContent"))
    hand.same("what is under way", ["s.out 2 → b: taken up"], hand.texts("#open li"))
    hand.same("who saw it", "committed; waited for 1 round; seen by observer 0, 1", hand.texts("#table tbody tr:nth-child(3) td")[1])
    hand.open("loses")
    hand.same("a state that is lost", "frozen removed made lost busy", hand.marks("b"))
    hand.same("the loss is told", "Report · 50 moments · 4 nodes · 1 change · status 0 · the state of 1 node went nowhere", hand.text("#about"))
    for name in ("empty", "mixed", "stuck"):
        hand.open(name)
        hand.browser.press("End")
        hand.browser.click("#unfold")
        hand.same("the page of %s, boxes" % name, {"empty": [], "mixed": ["p.x", "t"], "stuck": ["b", "s", "t"]}[name], hand.boxes())
        hand.same("the page of %s at its end" % name, [], hand.browser.faults())
    hand.open("hostile")
    hand.browser.press("End")
    hand.same("a path that is no markup", ["</script><img/src=x/onerror=alert(1)>", 'a"b&c'], hand.boxes())


def try_keys(hand):
    """Keys go through moments and parts, and through boxes where the graph has the focus."""
    hand.open("grows")
    for key, shift, moment in (("ArrowRight", False, "close b.next"), ("ArrowRight", False, "close s.out"), ("ArrowLeft", False, "close b.next"), ("]", False, "finish 100 8"), ("[", False, "change Line(3)"),
                               ("End", False, "drained b.next 2"), ("Home", False, "start Line(2)"), ("ArrowRight", True, "begin s.out 1 1")):
        hand.browser.press(key, shift)
        hand.same("the moment behind %s" % key, moment, hand.text("#moment"))
    hand.browser.press("/")
    hand.same("what has the focus behind /", "sought", hand.browser.ask("document.activeElement.id"))
    hand.browser.press("Escape")
    hand.open("fan")
    hand.browser.ask("page.graph.focus('l[]')")
    hand.browser.press("Enter")
    hand.same("boxes with a folded array", ["l[]", "s[0]", "s[1]", "s[2]", "t"], hand.boxes())
    hand.same("what has the focus", "l[]", hand.browser.ask("document.activeElement.dataset.path"))
    hand.browser.press("ArrowRight")
    hand.same("the box to the right", "t", hand.browser.ask("document.activeElement.dataset.path"))
    hand.same("the moment stays", "change Fan(3,5,2)", hand.text("#moment"))


def try_folding(hand):
    """An array or a composite instance is one box until it is opened, with counts of what is in it; links go to what is shown."""
    hand.open("fan", "#change-3")
    whole = ["l[%d].%s" % (lane, name) for lane in range(4) for name in "bm"] + ["s[%d]" % lane for lane in range(4)] + ["t"]
    hand.same("all boxes", whole, hand.boxes())
    hand.browser.click("#fold")
    hand.same("folded boxes", ["l[]", "s[]", "t"], hand.boxes())
    hand.same("signs of a folded array", "‖8 −4 +4 ⇢4 ●4", hand.browser.ask("document.querySelector('#graph [data-path=\"l[]\"] .signs').textContent"))
    hand.same("links of folded boxes", ["l[] t", "s[] l[]"], sorted(set(hand.links("link") ) - set(hand.links("gone"))))
    hand.browser.click('#graph [data-path="l[]"] .front')
    hand.same("an array that is opened", ["l[%d]" % lane for lane in range(4)] + ["s[]", "t"], hand.boxes())
    hand.same("what is chosen", "l[]", hand.text("#chosen strong"))
    hand.browser.click('#graph [data-path="l[2]"] .front')
    hand.same("an instance that is opened", ["l[0]", "l[1]", "l[2].b", "l[2].m", "l[3]", "s[]", "t"], hand.boxes())
    hand.browser.click('#graph [data-path="l[2].b"] .front')
    hand.same("a node that is chosen", ["buffer(2)", "buffer(4)"], [row for row in hand.texts("#chosen dd") if row.startswith("buffer")])
    hand.browser.click("#unfold")
    hand.same("all is opened", whole, hand.boxes())


def scaled(view, factor, x=0.5, y=0.5):
    """What is seen where it is made larger or smaller by a factor, around a point that stays."""
    left, top, width, height = view
    return [left + width * x * (1 - factor), top + height * y * (1 - factor), width * factor, height * factor]


def try_zoom(hand):
    """The graph is made larger and smaller by buttons, keys and the wheel, around its middle or the pointer; it is moved by hand; what is seen
    stays from moment to moment, and all of it can be seen again."""
    hand.open("fan")
    whole = hand.view()
    hand.browser.click("#larger")
    hand.near("larger", scaled(whole, 1 / 1.3), hand.view())
    hand.browser.click("#larger")
    hand.browser.press("ArrowRight")
    hand.near("and larger, at the next moment", scaled(whole, 1 / 1.69), hand.view())
    hand.browser.click("#smaller")
    hand.near("smaller", scaled(whole, 1 / 1.3), hand.view())
    hand.browser.ask("page.graph.focus('t')")
    hand.browser.press("-")
    hand.near("smaller by a key", whole, hand.view())
    hand.browser.press("+")
    hand.near("larger by a key", scaled(whole, 1 / 1.3), hand.view())
    hand.browser.click("#fit")
    hand.near("all of it", whole, hand.view())
    left, top, width, height = hand.place("#graph")
    hand.browser.wheel(left + width / 4, top + height / 3, -120)
    hand.browser.settle()
    near = scaled(whole, 1 / 1.15, 0.25, 1 / 3)
    hand.near("larger by the wheel, around the pointer", near, hand.view())
    hand.browser.drag(left + width / 2, top + 8, 100, 60)
    scale = near[2] / width
    hand.near("moved by hand", [near[0] - 100 * scale, near[1] - 60 * scale, *near[2:]], hand.view())
    hand.same("nothing is chosen by that", "", hand.text("#chosen"))
    hand.browser.wheel(left + width / 4, top + height / 3, 120)
    hand.browser.settle()
    hand.near("smaller by the wheel", whole[2:], hand.view()[2:])
    hand.browser.click("#fit")
    hand.near("all of it again", whole, hand.view())


def try_time(hand):
    """The line of time: a click goes to a moment, zooming keeps it, and the address leads to it."""
    hand.open("fan", "#change-4")
    hand.same("the fourth change", "change Fan(4,9,4)", hand.text("#moment"))
    hand.same("the link to it is current", ["change Fan(4,9,4) given up: 8 frozen"], hand.texts("#course a[aria-current]"))
    hand.same("the whole", "moments 1 to 678", hand.text("#span"))
    hand.browser.click("#in")
    hand.browser.click("#in")
    first, last = map(int, hand.text("#span").replace("moments ", "").split(" to "))
    moment = int(hand.browser.ask("document.querySelector('#line').getAttribute('aria-valuenow')"))
    hand.tries.want("zoomed around the moment", 160 < last - first < 180 and first <= moment <= last, (first, last, moment))
    box = hand.place("#line")
    hand.browser.click_at(box[0] + box[2] / 2, box[1] + 50)
    now = int(hand.browser.ask("document.querySelector('#line').getAttribute('aria-valuenow')"))
    hand.tries.want("a click goes to the moment there", abs(now - (first + last) / 2) < 3, (first, last, now))
    hand.same("the address", "#at=%d" % now, hand.browser.ask("location.hash.split('&')[0]"))
    hand.browser.wheel(box[0] + box[2] / 2, box[1] + 50, -240)
    hand.tries.want("the wheel zooms", int(hand.text("#span").split(" to ")[1]) < last or hand.browser.ask("page.timeline.to") < last, hand.text("#span"))
    hand.browser.click("#here")
    hand.browser.click("#whole")
    hand.same("the whole again", "moments 1 to 678", hand.text("#span"))
    hand.browser.click("#course li:nth-child(3) a")
    hand.same("a link of the course", "change Fan(3,5,2)", hand.text("#moment"))
    hand.open("fan", "#at=%d&node=l[3].b" % now)
    hand.same("the address leads there", (str(now), "l[3].b"), (hand.browser.ask("document.querySelector('#line').getAttribute('aria-valuenow')"), hand.text("#chosen strong")))


def try_search(hand):
    """What is sought by its path is found in folded boxes too, opened and chosen."""
    hand.open("big")
    hand.browser.ask("document.querySelector('#sought').focus()")
    hand.browser.write("l[24")
    hand.tries.want("paths with this are listed", hand.texts("#found li")[0].startswith("l[24") and len(hand.texts("#found li")) == 21, hand.texts("#found li"))
    hand.browser.ask("document.querySelector('#sought').value = ''")
    hand.browser.write("l[249].m")
    hand.browser.press("Enter")
    hand.same("what is chosen", "l[249].m", hand.text("#chosen strong"))
    hand.tries.want("what is chosen is shown", "l[249].m" in hand.boxes() and "l[248]" in hand.boxes(), hand.boxes()[:5])
    hand.browser.ask("document.querySelector('#sought').value = ''")
    hand.browser.write("nothing.like.it")
    hand.same("what there isn't", ["no path has this"], hand.texts("#found li"))


def try_tables(hand):
    """Tables say the same: of a moment each node, each transaction and the lines around it."""
    hand.open("grows", "#change-1")
    hand.same("the change", ["change Line(3)", "committed; waited for 1 round; seen by observer 0, 1", "b, s", "s.out, serial 2", "b", "b", "b → b", ""], hand.texts("#table tbody tr:nth-child(3) td"))
    hand.browser.click("#tab-nodes")
    hand.same("nodes", ["b buffer(2) there", "s source(3) there", "t sink() there", "b buffer(3) to come"], [" ".join(row.split(" ")[:3]) if "to come" not in row else " ".join(row.split(" ")[:4]) for row in hand.texts("#table tbody tr")])
    hand.browser.click("#tab-open")
    hand.same("transactions", ["s.out 2 s b taken up by itself open"], hand.texts("#table tbody tr"))
    hand.browser.click("#tab-lines")
    hand.same("lines", (54, ["21 change Line(3) change Line(3)"]), (len(hand.texts("#table tbody tr")), hand.texts("#table tbody tr.now")))
    hand.browser.click("#table tbody tr:nth-child(22) a")
    hand.same("a link of the table", "close b.next", hand.text("#moment"))


def try_plans(hand):
    """Plans, parts, a roll that is given up, and sessions."""
    hand.open("plan")
    hand.same("what a plan freezes", ["f[0]", "ph[0]", "ph[2]", "pl[0]", "pl[2]"], [path for path in hand.boxes() if "frozen" in hand.marks(path)])
    hand.same("what a plan removes", ["f[0]"], [path for path in hand.boxes() if "removed" in hand.marks(path)])
    hand.same("links that are cut", ["pl[0] f[0]", "pl[2] f[0]"], hand.links("cut"))
    hand.open("parts", "#part-2")
    hand.same("links that are made", ["l[1].m l[1].b", "s[1] l[1].m"], hand.links("linked"))
    hand.same("the first part stands", "map(5)", hand.browser.ask("document.querySelector('#graph [data-path=\"l[0].m\"] .kind').textContent"))
    hand.open("roll", "#part-2")
    hand.same("a part that is given up", ["before", "part 1 2 frozen, 1 removed, 1 made", "part 2 given up: 2 frozen"], hand.texts("#course a"))
    hand.browser.press("End")
    hand.same("what it left", ["map(5)", "map(1)"], [hand.browser.ask("document.querySelector('#graph [data-path=\"l[%d].m\"] .kind').textContent" % lane) for lane in range(2)])
    hand.open("bare")
    hand.same("a plan without a graph", ["l[0].m", "l[1].m", "s[0]", "s[1]"], [path for path in hand.boxes() if "frozen" in hand.marks(path)])
    hand.tries.want("it says what is missing", "put what `flat` says of the old system in front of it" in hand.text("#note"), hand.text("#note"))
    hand.open("session", "#change-1")
    hand.same("sessions", ["start Line(2) committed", "change Line(3) committed: 2 frozen, 1 removed, 1 made", "start Line(2) committed", "change Line(3) given up: 2 frozen"], hand.texts("#course a"))
    hand.same("rounds of sessions", ["committed; waited for 1 round", "given up; waited for no round; still open: s.out, transaction 1"], [row for row in hand.texts("#table tbody td:nth-child(2)") if "waited" in row])
    hand.browser.ask("page.go(page.course.verbs.indexOf('busy'))")
    hand.same("what the runtime says", ("> busy s.out", ["s.out → b: busy"]), (hand.text("#moment"), hand.texts("#open li")))


def state_of(system):
    """Of a machine: live nodes, open gates, where ports lead, phases that aren't idle, and serials."""
    ports = [(number, port) for number, port in enumerate(system.ports) if system.nodes[port.owner].live]
    live = [slot for slot, node in enumerate(system.nodes) if node.live]
    return [live, [n for n, p in ports if p.is_open], [[n, p.target[0]] for n, p in ports if p.target], [n for n, p in ports if p.phase != "idle"], [p.serial for _, p in ports]]


READ = """((state) => { const course = page.course, live = [], ports = [];
course.nodes.forEach((node, slot) => state.live[slot] && live.push(slot));
for (let port = 0; port < course.data.ports; port++) if (state.live[course.owner[port]]) ports.push(port);
return [live, ports.filter((p) => state.open[p]), ports.filter((p) => state.target[p] >= 0).map((p) => [p, state.target[p]]), ports.filter((p) => state.phase[p]), ports.map((p) => state.serial[p])]; })(page.course.at(%d))"""


def try_states(hand):
    """The graph, the gates and the transactions of a moment are those of the machine of the plain statements."""
    for name, step in (("grows", 1), ("fan", 7), ("big", 9973)):
        hand.open(name)
        system, wrong, data = machine.Machine(graphs.EMPTY), [], hand.pages.data[name]
        for number, moment in enumerate(moments_of(data)):
            event = event_of(data, moment)
            if event:
                system.apply(event)
            if number % step == 0 and state_of(system) != hand.browser.ask(READ % number):
                wrong.append((number, moment))
        hand.same("states of %s" % name, [], wrong[:3])


def try_large(hand):
    """A thousand nodes and a hundred thousand events open in two seconds by the clock, once in a few times. Where the machine has more work than
    processors, a line says how long it took, and the processors' time is judged. All of it can be shown."""
    told = []
    while len(told) < OFTEN and not (told and min(told)[0] < SECONDS):
        before = hand.browser.processor_seconds()
        passed = hand.open("big")
        told.append((passed, hand.browser.processor_seconds() - before))
    passed, used = min(told)
    size, events = os.path.getsize(hand.pages.files["big"]), sum(bool(event_of(hand.pages.data["big"], moment)) for moment in moments_of(hand.pages.data["big"]))
    print("a page of %.1f MB with %d nodes and %d events was drawn in %.2f s, %.2f s of processors" % (size / 1e6, len(hand.pages.data["big"]["nodes"]), events, passed, used))
    is_busy = os.getloadavg()[0] > os.cpu_count()
    if passed >= SECONDS and is_busy:
        print("the machine was busy: whether it is drawn in %g seconds by the clock wasn't judged" % SECONDS)
    hand.tries.want("a large page opens in %g seconds" % SECONDS, 0 < used < SECONDS and (passed < SECONDS or is_busy), told)
    hand.browser.click("#unfold")
    hand.same("all nodes are shown", 1000, len(hand.boxes()))
    hand.browser.press("End")
    hand.same("the last moment", "true", hand.browser.ask("String(page.moment === page.course.length - 1)"))


def try_looks(hand, pictures):
    """Light and dark, wide and narrow: nothing stands out of the page."""
    for name in ("fan", "plan", "session", "big"):
        for size in (WIDE, NARROW):
            backs = []
            for scheme in ("light", "dark"):
                hand.browser.size(*size)
                hand.browser.scheme(scheme)
                hand.open(name, "#change-3" if name == "fan" else "")
                backs.append(hand.browser.ask("getComputedStyle(document.body).backgroundColor"))
                hand.same("%s is as wide as %d" % (name, size[0]), size[0], hand.browser.ask("document.documentElement.scrollWidth"))
                if pictures:
                    hand.browser.screenshot(os.path.join(pictures, "%s-%d-%s.png" % (name, size[0], scheme)))
            hand.same("%s is light and dark" % name, ["rgb(255, 255, 255)", "rgb(20, 24, 31)"], backs)
    hand.browser.size(*WIDE)
    hand.browser.scheme("light")


GROUPS = (try_opening, try_keys, try_folding, try_zoom, try_time, try_search, try_tables, try_plans, try_states, try_large)


def try_all(tries, pages, program, pictures):
    browser = Browser(program)
    try:
        browser.size(*WIDE)
        hand = Hand(tries, pages, browser)
        for each in GROUPS:
            try:
                each(hand)
            except Broken as broken:
                tries.want("%s comes to its end" % each.__name__, False, broken)
            hand.faultless("what %s did" % each.__name__)
        try_looks(hand, pictures)
    finally:
        browser.close()
