"""The board of a running system, over HTTP: who is let in, what is told, plans and changes under load, and the command that serves one."""
import asyncio
import contextlib
import json
import os
import re
import signal
import socket
import subprocess
import sys
import tempfile
import threading
import urllib.error
import urllib.request

import board_in_browser
import browser
import processes
from small import ends, planted, running, until, writing
from tareslater import board as of_board
from tareslater.board import FILES, HEADERS, HOST, NAMES, Board

SECONDS = 120
OPENER = urllib.request.build_opener(urllib.request.ProxyHandler({}))
HELD = ["c.out", "r.asking", "r.detached", "r.slowly", "r.undeclared"]


def said(request):
    """The status, the headers and the text that come."""
    try:
        with OPENER.open(request, timeout=SECONDS) as came:
            return came.status, came.headers, came.read().decode()
    except urllib.error.HTTPError as fault:
        with fault:
            return fault.code, fault.headers, fault.read().decode()


async def aside(work, *words):
    """Work that waits, beside the loop of the system."""
    return await asyncio.get_running_loop().run_in_executor(None, work, *words)


def request(board, path, question=None, token=True, **headers):
    """A request as the page makes it, but for headers that are named; one that is None is left out."""
    shown = {"Authorization": "Bearer " + board.token, "Content-Type": "application/json"} if token else {}
    shown.update({name.replace("_", "-"): value for name, value in headers.items()})
    body = question if question is None or isinstance(question, bytes) else json.dumps(question).encode()
    return urllib.request.Request("http://%s:%d%s" % (HOST, board.port, path), body, {name: value for name, value in shown.items() if value is not None})


async def asked(board, path, question=None, token=True, **headers):
    """What comes of it: the status, and the answer where it is JSON, else the text."""
    status, head, text = await aside(said, request(board, path, question, token, **headers))
    return status, json.loads(text) if head.get_content_type() == "application/json" else text


def raw(board, *lines, source=HOST):
    """The first line that comes when these are sent, or what went wrong."""
    try:
        with socket.create_connection((HOST, board.port), 20, (source, 0)) as came:
            came.sendall("\r\n".join([*lines, "", ""]).encode("latin-1"))
            return came.makefile("rb").readline().decode().strip()
    except OSError as fault:
        return type(fault).__name__


class Stream:
    """What is told, event by event."""

    def __init__(self, board, **headers):
        self.came = OPENER.open(request(board, "/events", **headers), timeout=SECONDS)
        self.kind = self.came.headers["Content-Type"]

    def next(self):
        """The next event, as (name, what it tells); None behind the last."""
        name, text = "", ""
        for line in self.came:
            line = line.decode().rstrip("\n")
            if line.startswith("event: "):
                name = line[7:]
            elif line.startswith("data: "):
                text = line[6:]
            elif not line and name:
                return name, json.loads(text)
        return None

    def until(self, is_found):
        """The first event that is sought."""
        while (event := self.next()) is not None:
            if is_found(*event):
                return event[1]
        return None

    def close(self):
        self.came.close()


@contextlib.asynccontextmanager
async def boarded(manager, **words):
    """A small system under load, with its board."""
    async with running(manager, **words) as system:
        async with Board(system) as board:
            yield system, board


# ---- who is let in


async def try_page(tries):
    """The bare page: what it names is there, and nothing is from elsewhere."""
    async with boarded(tries.manager) as (_, board):
        status, head, page = await aside(said, request(board, "/", token=False))
        tries.same("the page", (200, "text/html; charset=utf-8"), (status, head["Content-Type"]))
        tries.same("what is said beside it", list(HEADERS.items()), [(name, head[name]) for name in HEADERS])
        named = re.findall(r'(?:src|href)="([^"]*)"', page)
        tries.same("what the page names", sorted(NAMES), sorted(name for name in named if name != "data:,"))
        tries.same("no script or style stands in it", [], re.findall(r"<script>|<style|\son\w+=|\sstyle=", page))
        kinds = {".css": "text/css; charset=utf-8", ".js": "text/javascript; charset=utf-8"}
        for name in NAMES:
            status, head, text = await aside(said, request(board, "/" + name, token=False))
            with open(os.path.join(FILES, name)) as file:
                tries.same(name, (200, kinds[os.path.splitext(name)[1]], file.read()), (status, head["Content-Type"], text))
        for path in ("/board.py", "/../board.py", "/%2e%2e/board.py", "//etc/passwd", "/look.css?x", "/board.html", "/plan", "/favicon.ico"):
            status = (await asked(board, path))[0]
            tries.same("GET %s" % path, 200 if path == "/board.html" else 404, status)


WRONG_TOKENS = [None, "", "Bearer", "Bearer ", "Bearer x", "Basic %s", "bearer %s", "Bearer %sx", "Bearer \u00e9"]


async def try_token(tries):
    """What is shown and what is done wants the token."""
    async with boarded(tries.manager) as (system, board):
        placed = system.placed
        for path, question in (("/events", None), ("/plan", {"call": "Small(1)"}), ("/change", {"call": "Small(1)", "moving": {"t": "t"}})):
            for form in WRONG_TOKENS:
                came = await asked(board, path, question, Authorization=form and form.replace("%s", board.token).encode("utf-8").decode("latin-1"))
                tries.same("%s with %r" % (path, form), (401, "the token is wanted that stands behind the # of the board's address\n"), came)
        tries.want("nothing was changed", system.placed is placed)
        async with Board(system) as other:
            tries.same("another board's token", 401, (await asked(board, "/plan", {"call": "Small(1)"}, Authorization="Bearer " + other.token))[0])
            tries.want("tokens are long", len(board.token) >= 32 and board.token != other.token, board.token)
        tries.same("the address", "http://127.0.0.1:%d/#%s" % (board.port, board.token), board.address)


async def try_origins(tries):
    """Another origin and another name of this machine are refused, with the token too."""
    async with boarded(tries.manager) as (_, board):
        port, question = board.port, {"call": "Small(0)"}
        for origin in ("http://evil.example", "http://127.0.0.1", "http://127.0.0.1:%d" % (port + 1), "https://127.0.0.1:%d" % port, "null", "http://127.0.0.1:%d.evil.example" % port):
            for path, body in (("/", None), ("/board.js", None), ("/events", None), ("/plan", question)):
                tries.same("%s from %s" % (path, origin), (403, "another origin\n"), await asked(board, path, body, Origin=origin))
        for site in ("cross-site", "same-site", "x"):
            tries.same("a request that is %s" % site, (403, "another origin\n"), await asked(board, "/", Sec_Fetch_Site=site))
        for fine in ({"Origin": "http://127.0.0.1:%d" % port}, {"Origin": "http://localhost:%d" % port}, {"Sec_Fetch_Site": "same-origin"}, {"Sec_Fetch_Site": "none"}):
            tries.same("a request with %s" % fine, 200, (await asked(board, "/plan", question, **fine))[0])
        for name in ("evil.example", "evil.example:%d" % port, "127.0.0.1", "127.0.0.1:%d" % (port + 1), "127.0.0.1:%d.evil.example" % port, "0.0.0.0:%d" % port, ""):
            for path, body in (("/", None), ("/plan", question)):
                tries.same("%s by the name %r" % (path, name), (403, "another host's name\n"), await asked(board, path, body, Host=name))
        tries.same("by its other name", 200, (await asked(board, "/", Host="localhost:%d" % port))[0])
        fine = "Host: 127.0.0.1:%d" % port
        for lines, wanted in [
            (["GET / HTTP/1.1", fine], "HTTP/1.1 200 OK"),
            (["GET / HTTP/1.1"], "HTTP/1.1 403 Forbidden"),
            (["GET / HTTP/1.1", fine, "Host: evil.example"], "HTTP/1.1 403 Forbidden"),
            (["GET / HTTP/1.1", fine, "Origin: http://127.0.0.1:%d" % port, "Origin: http://evil.example"], "HTTP/1.1 403 Forbidden"),
            (["PUT / HTTP/1.1", fine], "HTTP/1.1 501 Not Implemented"),
            (["OPTIONS /change HTTP/1.1", fine, "Origin: http://evil.example"], "HTTP/1.1 403 Forbidden"),
            (["nonsense"], "Bad request syntax ('nonsense')"),
        ]:
            came = await aside(raw, board, *lines)
            tries.same(str(lines), wanted, came)


async def try_addresses(tries):
    """It listens at one address, and hears who comes from there."""
    async with boarded(tries.manager) as (_, board):
        lines = ["GET / HTTP/1.1", "Host: 127.0.0.1:%d" % board.port]
        tries.same("from the same address", "HTTP/1.1 200 OK", await aside(raw, board, *lines))
        came = await aside(lambda: raw(board, *lines, source="127.0.0.2"))
        tries.want("from another", came in ("", "ConnectionResetError"), came)
        for other in {"127.0.0.2", *addresses()} - {HOST}:
            with contextlib.closing(socket.socket()) as tried:
                tried.settimeout(5)
                tries.want("at %s nobody listens" % other, tried.connect_ex((other, board.port)) != 0)
        tries.same("where it listens", (HOST, board.port), board.server.socket.getsockname())


def addresses():
    """Other addresses of this machine."""
    with contextlib.suppress(OSError):
        return {info[4][0] for info in socket.getaddrinfo(socket.gethostname(), None, socket.AF_INET)}
    return set()


BAD = [
    (b"", 400, "isn't JSON"), (b"{", 400, "isn't JSON"), (b"\xff", 400, "isn't JSON"), (b"[" * 50000, 400, "isn't JSON"),
    ([], 400, "has `call`"), ({}, 400, "has `call`"), ({"call": 1}, 400, "has `call`"), ({"call": "Small(1)", "x": 1}, 400, "has `call`"),
    *[({"call": "Small(1)", "within": within}, 400, "has `call`") for within in (0, -1, 1e9, "5", True, None, [1])],
    (b'{"call": "Small(1)", "within": NaN}', 400, "has `call`"), (b'{"call": "Small(1)", "within": 1e999}', 400, "has `call`"),
    ({"call": "Small(1)", "moving": ["t"]}, 400, "has `call`"), ({"call": "Small(1)", "moving": {"t": 1}}, 400, "has `call`"),
    ({"call": "Small(1)", "losing": "t"}, 400, "has `call`"), ({"call": "Small(1)", "by_parts": 1}, 400, "has `call`"),
    (b'{"call": "' + b"x" * 65536 + b'"}', 413, "too long"),
]


async def try_questions(tries):
    """Questions that are none change nothing."""
    async with boarded(tries.manager) as (system, board):
        placed = system.placed
        for question, status, why in BAD:
            for path in ("/plan", "/change"):
                came = await asked(board, path, question)
                tries.want("%s %s" % (path, str(question)[:60]), came[0] == status and why in came[1], came)
        fine = json.dumps({"call": "Small(1)", "losing": ["t"]}).encode()
        for path, headers, status in [
            ("/change", {"Content_Type": "text/plain"}, 415),
            ("/change", {"Content_Type": "application/x-www-form-urlencoded"}, 415),
            ("/changes", {}, 404),
            ("/", {}, 404),
        ]:
            tries.same("POST %s %s" % (path, headers), status, (await asked(board, path, fine, **headers))[0])
        head = ["POST /change HTTP/1.1", "Host: 127.0.0.1:%d" % board.port, "Authorization: Bearer " + board.token, "Content-Type: application/json"]
        for lengths in ([], ["Content-Length: x"], ["Content-Length: -5"], ["Content-Length: 5", "Content-Length: 5"], ["Transfer-Encoding: chunked"]):
            tries.same(str(lengths), "HTTP/1.1 411 Length Required", await aside(raw, board, *head, *lengths))
        tries.want("nothing was changed", system.placed is placed and not system.past)


# ---- what is told


async def try_events(tries):
    """The graph, what goes through it, and the last changes."""
    async with boarded(tries.manager) as (system, board):
        stream = await aside(Stream, board)
        tries.same("its kind", "text/event-stream; charset=utf-8", stream.kind)
        events = [await aside(stream.next) for _ in range(3)]
        tries.same("what comes first", ["graph", "now", "past"], sorted(name for name, _ in events))
        found = dict(events)
        graph = found["graph"]
        nodes = [{"path": "c", "shown": "Client(0)"}, {"path": "r", "shown": "Caller(0)"}, {"path": "s", "shown": "Server(0)"}, {"path": "t", "shown": "Store(0)"}]
        tries.same("the graph", ("Small(0)", nodes), (graph["call"], sorted(graph["nodes"], key=lambda node: node["path"])))
        paths = [node["path"] for node in graph["nodes"]]
        links = sorted((paths[link["from"]], paths[link["to"]], link["name"]) for link in graph["links"])
        wanted = [("c", "s", "c.out"), ("s", "t", "s.other"), ("s", "t", "s.store")] + [("r", "s", "r." + name) for name in ("asking", "detached", "nested", "undeclared")] + [("r", "t", "r.slowly")]
        tries.same("its links", sorted(wanted), links)
        tries.same("where requirements lead", ("s.ask", "t.write", "", ""), tuple(graph["requirements"][name] for name in ("c.out", "r.slowly", "r.loose", "s.back")))
        tries.same("nothing was changed yet", [], found["past"])
        done, began = system["c"].done, asyncio.get_running_loop().time()
        seen = [await aside(stream.until, lambda name, _: name == "now") for _ in range(6)]
        often = (system["c"].done - done) / (asyncio.get_running_loop().time() - began)
        rates = sorted(now["of"]["c.out"][0] for now in seen[2:])
        tries.want("requests a second", often / 4 < rates[len(rates) // 2] < often * 4, (often, rates))
        tries.want("a requirement that nobody uses", all(now["of"]["r.slowly"] == [0, 0, 0, True] for now in seen), seen[-1])
        async with writing(system):
            now = await aside(stream.until, lambda name, now: name == "now" and now["of"]["r.slowly"][1] == 1)
            tries.same("what serves", 1, now["serving"]["t"])
        await system.here.rest()
        traffic = (await system.here.seen()).traffic
        counts = [traffic[key].uses for key in (("c", "out"), ("s", "store"), ("s", "other"), ("r", "slowly"), ("r", "loose"))]
        tries.same("each root and each call is counted", [system["c"].done, system["c"].done, 0, 1, 0], counts)
        now = await aside(stream.until, lambda name, now: name == "now" and now["of"]["c.out"][3] is False and now["of"]["c.out"][2] == 4)
        tries.want("who waits at a closed gate", now is not None)
        await system.here.reopen([("c", "out")])
        stream.close()


async def try_streams(tries):
    """So many may follow, and the place of one that goes is free; a heart beats where the loop is kept busy; the board's end is theirs."""
    with planted((of_board, "STREAMS", 2), (of_board, "BEAT", 0.2)):
        async with running(tries.manager) as system:
            async with Board(system) as board:
                first, second = await aside(Stream, board), await aside(Stream, board)
                tries.same("one too many", (503, "too many follow already\n"), await asked(board, "/events"))
                first.close()
                third = None
                for _ in range(100):
                    await asyncio.sleep(0.1)
                    with contextlib.suppress(urllib.error.HTTPError):
                        third = await aside(Stream, board)
                        break
                tries.want("a place that is free", third is not None and (await aside(third.next))[0] == "graph")
                beats = []
                listening = threading.Thread(target=lambda: beats.extend(line for line, _ in zip(second.came, range(60)) if line.startswith(b":")))
                listening.start()
                board.looking.cancel()
                await aside(listening.join, SECONDS)
                tries.want("a heart beats", beats[:1] == [b": still here\n"], beats[:1])
                port = board.port
            tries.same("the streams have ended", None, await aside(lambda: third.until(lambda *_: False)))
            async with Board(system, port) as again:
                tries.same("the port is free again", 200, (await asked(again, "/"))[0])
                tries.same("and is taken now", "OSError: [Errno 98] Address already in use", await ends(Board(system, port).open()))


# ---- plans and changes


async def try_changes(tries):
    """Plans and changes by the board under load, as by the system itself; nothing is lost."""
    async with boarded(tries.manager) as (system, board):
        stream = await aside(Stream, board)
        plan = (await system.plan("Small(1)"))._asdict()
        tries.same("a plan", (200, {"ended": "planned", **plan}), await asked(board, "/plan", {"call": "Small(1)"}))
        tries.same("what it moves", (["t"], []), [(came["moved"], came["lost"]) for _, came in [await asked(board, "/plan", {"call": "Small(1)", "moving": {"t": "t"}})]][0])
        for version in (1, 2, 3):
            status, made = await asked(board, "/change", {"call": "Small(%d)" % version, "within": 20, "moving": {"t": "t"}, "by_parts": version == 3})
            tries.same("change %d" % version, (200, "made", HELD), (status, made["ended"], sorted(made["held"])))
            tries.want("its times", 0 < made["waited_seconds"] <= made["held_seconds"] <= made["seconds"], made)
            graph = await aside(stream.until, lambda name, graph: name == "graph" and graph["call"] == "Small(%d)" % version)
            tries.want("the graph that is told then", {"path": "t", "shown": "Store(%d)" % version} in graph["nodes"], graph)
        for question, wanted in [
            ({"call": "Small(4)"}, ("WouldLose", "t")),
            ({"call": "Small("}, ("ValueError", "'Small(' is no call of a component, as `Shop(2)`")),
            ({"call": "None_such"}, ("Refused", "description %s: NoTop None_such" % system.file)),
            ({"call": "Small(4)", "moving": {"s": "t"}}, ("Refused", "moving s -> t: the first has to be removed, and the second to be made")),
        ]:
            came = await asked(board, "/change", question)
            tries.same(str(question), (409, {"ended": wanted[0], "said": wanted[1]}), came)
        came = await asked(board, "/plan", {"call": "None_such"})
        tries.same("a plan that is refused", (409, "Refused"), (came[0], came[1]["ended"]))
        past = await aside(stream.until, lambda name, past: name == "past" and len(past) == 3)
        tries.same("the last changes", [("Small(3)", "made"), ("Small(2)", "made"), ("Small(1)", "made")], [(one["call"], one["ended"]) for one in past])
        stream.close()
        client, store = system["c"], system["t"]
    tries.same("nothing is lost", client.done, store.count)


async def try_under_way(tries):
    """A change that waits: what it holds, since when, and for what; then it is given up, and another as the board is closed."""
    async with boarded(tries.manager) as (system, board):
        stream = await aside(Stream, board)
        async with writing(system):
            question = {"call": "Small(1)", "within": 3, "moving": {"t": "t"}}
            changing = asyncio.ensure_future(asked(board, "/change", question))
            now = await aside(stream.until, lambda name, now: name == "now" and now["change"] and now["change"]["waits"] == {"r.slowly": 1})
            change = now["change"]
            tries.same("a change under way", ("Small(1)", 3, "waiting", HELD), (change["call"], change["within"], change["phase"], sorted(change["held"])))
            tries.same("what it would do", (["t"], ["t"], {"t": "t"}), (change["gone"], change["made"], change["moving"]))
            later = await aside(stream.until, lambda name, now: name == "now" and now["change"] and now["change"]["seconds"] > change["seconds"])
            tries.want("since when", later["change"]["seconds"] < 60 and later["of"]["c.out"][3] is False, later["change"])
            came = await changing
            tries.same("it is given up", (409, {"ended": "GivenUp", "said": "still under way: r.slowly"}), came)
            past = await aside(stream.until, lambda name, past: name == "past" and past)
            tries.same("and told", ("Small(1)", "GivenUp", "still under way: r.slowly"), (past[0]["call"], past[0]["ended"], past[0]["said"]))
            tries.want("with its times", 2.5 < past[0]["waited_seconds"] <= past[0]["held_seconds"], past[0])
            tries.same("nothing is under way then", None, (await aside(stream.until, lambda name, now: name == "now" and now["change"] is None))["change"])
            placed, before = system.placed, system["c"].done
            changing = asyncio.ensure_future(asked(board, "/change", {**question, "within": 60}))
            await aside(stream.until, lambda name, now: name == "now" and now["change"] and now["change"]["phase"] == "waiting")
            await board.close()
            tries.same("a change as the board is closed", (503, {"ended": "Closed", "said": "the board was closed"}), await changing)
            await until(lambda: not system.under_way)
            tries.want("all is as before", await until(lambda: system["c"].done > before) and system.placed is placed)
            await board.open()
        tries.same("and a change is made", "made", (await asked(board, "/change", question))[1]["ended"])


async def try_processes(tries):
    """A system of several processes: where each component is, and what goes through requirements there; one that has died tells nothing."""
    async with processes.running(tries.manager) as system:
        async with Board(system) as board:
            stream = await aside(Stream, board)
            graph = await aside(stream.until, lambda name, _: name == "graph")
            shown = {node["path"]: node["shown"] for node in graph["nodes"]}
            tries.same("where each is", {"f[0]": "Front(0)", "f[1]": "Front(0) in front", "a": "Asker(0)", "s": "Server(0) in server", "t": "Store(0) in store0"}, shown)
            now = await aside(stream.until, lambda name, now: name == "now" and now["of"].get("s.store", [0])[0] > 0)
            tries.want("what goes on elsewhere", now["of"]["f[1].out"][0] > 0, now)
            os.kill(system.sites["front"].process.pid, signal.SIGKILL)
            now = await aside(stream.until, lambda name, now: name == "now" and "f[1].out" not in now["of"])
            tries.want("and what goes on when one has died", "s.store" in now["of"])
            stream.close()


# ---- the command

MODULE = """import asyncio
from small import *
class Told(Store):
    async def close(self, owns):
        print("closed", owns, flush=True)
class Failing(Store):
    async def open(self):
        raise OSError("no room")
def made():
    return System(TEXT, [Client, Caller, Server, Told], MANAGER, grace=60)
def failing():
    return System(TEXT, [Client, Caller, Server, Failing], MANAGER)
Told.__name__ = Failing.__name__ = "Store"
system = made()
nothing = 5
"""


class Command:
    """The command in a folder with a module of one's own."""

    def __init__(self, folder, manager):
        self.folder = folder
        with open(os.path.join(folder, "own.py"), "w") as file:
            file.write(MODULE.replace("MANAGER", repr(manager)))
        self.environment = dict(os.environ, PYTHONPATH=os.pathsep.join([os.path.dirname(os.path.dirname(FILES)), os.path.dirname(os.path.abspath(__file__))]))

    def start(self, *words):
        pipe = subprocess.PIPE
        return subprocess.Popen([sys.executable, "-m", "tareslater", "board", *words], cwd=self.folder, stdout=pipe, stderr=pipe, env=self.environment, universal_newlines=True)

    def ended(self, *words):
        process = self.start(*words)
        text, errors = process.communicate(timeout=SECONDS)
        return process.returncode, text, errors


def try_command(tries):
    with tempfile.TemporaryDirectory() as folder:
        command = Command(folder, tries.manager)
        for name, number in (("system", signal.SIGINT), ("made", signal.SIGTERM)):
            process = command.start("own:%s" % name, "Small( 1 )")
            address = process.stdout.readline().strip()
            found = re.fullmatch(r"http://127\.0\.0\.1:(\d+)/#([\w-]{32,})", address)
            tries.want("the address is printed", bool(found), address)
            if found:
                answer = urllib.request.Request("http://127.0.0.1:%s/plan" % found[1], b'{"call": "Small(1)"}', {"Authorization": "Bearer " + found[2], "Content-Type": "application/json"})
                status, _, text = said(answer)
                tries.same("a plan of the command's system", (200, [], []), (status, json.loads(text)["made"], json.loads(text)["lost"]))
            process.send_signal(number)
            text, errors = process.communicate(timeout=SECONDS)
            tries.same("its end", (0, "closed True\n", ""), (process.returncode, text, errors))
        with contextlib.closing(socket.socket()) as taken:
            taken.bind((HOST, 0))
            taken.listen()
            port = str(taken.getsockname()[1])
            for words, wanted in [
                (["own:none_such", "Small(1)"], "tareslater board: module 'own' has no attribute 'none_such'\n"),
                (["none_such:x", "Small(1)"], "tareslater board: No module named 'none_such'\n"),
                (["own:nothing", "Small(1)"], "tareslater board: own:nothing is no System, and no function that gives one\n"),
                (["own:system", "Small("], "tareslater board: 'Small(' is no call of a component, as `Shop(2)`\n"),
                (["--port", port, "own:system", "Small(1)"], "tareslater board: port %s: Address already in use\n" % port),
            ]:
                tries.same("board %s" % words, (2, "", wanted), command.ended(*words))
        status, _, errors = command.ended("own:system", "None_such")
        tries.want("a system that isn't there", status == 2 and errors.startswith("tareslater board: description ") and errors.endswith(": NoTop None_such\n"), errors)
        status, _, errors = command.ended("own:failing", "Small(1)")
        tries.want("what one's own code raises is shown whole", status == 1 and errors.startswith("Traceback") and errors.endswith("OSError: no room\n"), errors)
        for words in ([], ["own:system"], ["--port", "x", "own:system", "Small(1)"]):
            tries.same("usage of %s" % words, 2, command.ended(*words)[0])


TRIES = [try_page, try_token, try_origins, try_addresses, try_questions, try_events, try_streams, try_changes, try_under_way, try_processes]


def tries(tries):
    for each in TRIES:
        asyncio.run(each(tries))
    try_command(tries)
    program = browser.found()
    if program is None:
        print("there is no Chromium (Debian's package `chromium`): the board wasn't tried in a browser")
    elif not tries.is_elsewhere:
        board_in_browser.try_all(tries, program, tries.pictures)
