"""A page on this machine that follows a running system, and has it changed by who knows the board's token.

    async with Board(system) as board:
        print(board.address)

The server is of the standard library. It listens at 127.0.0.1 alone and answers no other name, so that no page of another place reaches it
by a name of its own. The bare page is open to all on this machine; what it shows, and what it does, wants the token, which stands behind
the `#` of the address and is sent in a header. A page of another origin has neither.
"""
import asyncio
import concurrent.futures
import hmac
import http.server
import json
import math
import os
import secrets
import socketserver
import sys
import threading
from typing import Any, Callable, Coroutine, Dict, List, NamedTuple, Optional, Set, Tuple, Type

from .components import outside
from .system import System
from .watching import Watch

HOST = "127.0.0.1"
FILES = os.path.join(os.path.dirname(os.path.abspath(__file__)), "page_files")
KINDS = {".html": "text/html", ".css": "text/css", ".js": "text/javascript"}
NAMES = ("look.css", "board.css", "elements.js", "layout.js", "tree.js", "drawing.js", "board.js")
# what is said with every answer: nothing of the page comes from elsewhere, and it is shown in no frame
HEADERS = {
    "Cache-Control": "no-store",
    "Content-Security-Policy": "default-src 'none'; script-src 'self'; style-src 'self'; connect-src 'self'; img-src data:; "
    "base-uri 'none'; form-action 'none'; frame-ancestors 'none'",
    "Cross-Origin-Opener-Policy": "same-origin",
    "Cross-Origin-Resource-Policy": "same-origin",
    "Referrer-Policy": "no-referrer",
    "X-Content-Type-Options": "nosniff",
}
BEAT = 5.0  # so many seconds pass at most without a byte of a stream
SILENCE = 30.0  # who is silent for so many seconds, or takes nothing, isn't served any more
STREAMS = 32  # so many may follow at once
LONGEST = 65536  # bytes of a question
MOST = 3600.0  # seconds that a change may take
Answer = Dict[str, Any]


class Bad(Exception):
    """A request that isn't served, with its status and why."""

    def __init__(self, status: int, why: str) -> None:
        super().__init__(why)
        self.status = status


class Asked(NamedTuple):
    """A change that is asked for, or its plan."""

    call: str
    within: float = 5.0
    moving: Dict[str, str] = {}
    losing: List[str] = []
    by_parts: bool = False


def is_texts(value: Any) -> bool:
    """Whether it is a list of texts."""
    return isinstance(value, list) and all(isinstance(one, str) for one in value)


CHECKS: Dict[str, Callable[[Any], bool]] = {
    "call": lambda value: isinstance(value, str),
    "within": lambda value: type(value) in (int, float) and math.isfinite(value) and 0 < value <= MOST,
    "moving": lambda value: isinstance(value, dict) and is_texts(list(value.values())),
    "losing": is_texts,
    "by_parts": lambda value: isinstance(value, bool),
}


def asked(text: bytes) -> Asked:
    """What a question asks for."""
    try:
        found = json.loads(text.decode())
    except (ValueError, RecursionError):
        raise Bad(400, "the question isn't JSON")
    if not isinstance(found, dict) or "call" not in found or not all(name in CHECKS and CHECKS[name](value) for name, value in found.items()):
        raise Bad(400, "the question has `call`, and may have `within`, `moving`, `losing` and `by_parts`")
    return Asked(**found)


class Board:
    """The page of a system. It belongs to the loop in which it is opened, and has to be closed there. With port 0 any free one is taken."""

    def __init__(self, system: System, port: int = 0) -> None:
        self.system, self.port = system, port
        self.token = secrets.token_urlsafe(24)
        self.watch = Watch(system)
        self.asking: Set["concurrent.futures.Future[Answer]"] = set()

    @property
    def address(self) -> str:
        """Where the page is, with its token."""
        return "http://%s:%d/#%s" % (HOST, self.port, self.token)

    async def open(self) -> None:
        """Serves the page from here on."""
        self.loop = asyncio.get_running_loop()
        self.server = Server(self, self.port)
        self.port = self.server.server_address[1]
        self.looking = outside(self.loop, self.watch.look())
        threading.Thread(target=self.server.serve_forever, args=(0.1,), daemon=True, name="tareslater board").start()

    async def close(self) -> None:
        """Serves nothing any more. A change that was asked for here and isn't made yet is given up."""
        self.looking.cancel()
        self.watch.news.end()
        for asking in list(self.asking):
            asking.cancel()
        await self.loop.run_in_executor(None, self.server.shutdown)
        self.server.server_close()

    async def __aenter__(self) -> "Board":
        await self.open()
        return self

    async def __aexit__(self, *_: Any) -> None:
        await self.close()

    # ---- questions

    async def plan(self, asked: Asked) -> Answer:
        """What a change would do."""
        return {"ended": "planned", **(await self.system.plan(asked.call, asked.moving))._asdict()}

    async def change(self, asked: Asked) -> Answer:
        """Has the system changed."""
        made = (await self.system.change(*asked))._asdict()
        return {"ended": "made", **made, "lines": len(made["lines"])}

    def answer(self, work: Coroutine[Any, Any, Answer]) -> Tuple[int, Answer]:
        """What comes of a question in the loop, as a thread beside it hears it. Status 409: the change isn't made; in parts, those made before stay."""
        asking = asyncio.run_coroutine_threadsafe(work, self.loop)
        self.asking.add(asking)
        try:
            return 200, asking.result()
        except concurrent.futures.CancelledError:
            return 503, {"ended": "Closed", "said": "the board was closed"}
        except Exception as fault:
            return 409, {"ended": type(fault).__name__, "said": str(fault)}
        finally:
            self.asking.discard(asking)


class Server(socketserver.ThreadingMixIn, http.server.HTTPServer):
    """Serves a board's page, each connection by a thread."""

    daemon_threads = True
    block_on_close = False

    def __init__(self, board: Board, port: int) -> None:
        self.board, self.streams = board, threading.BoundedSemaphore(STREAMS)
        super().__init__((HOST, port), Handler)
        names = ["%s:%d" % (name, self.server_port) for name in (HOST, "localhost")]
        self.names, self.origins = set(names), {"http://" + name for name in names}

    def server_bind(self) -> None:
        """Binds, without a look for the name of this machine."""
        socketserver.TCPServer.server_bind(self)
        self.server_name, self.server_port = HOST, self.server_address[1]

    def verify_request(self, request: Any, client_address: Any) -> bool:
        """Who comes from another address isn't heard."""
        return bool(client_address[0] == HOST)

    def handle_error(self, request: Any, client_address: Any) -> None:
        """A client that goes is no fault."""
        if not isinstance(sys.exc_info()[1], OSError):
            super().handle_error(request, client_address)


class Handler(http.server.BaseHTTPRequestHandler):
    """A connection."""

    server: Server
    protocol_version = "HTTP/1.1"
    server_version, sys_version = "tareslater", ""
    timeout = SILENCE

    def log_message(self, format: str, *words: Any) -> None:
        """What is asked isn't logged."""

    def end_headers(self) -> None:
        for name, value in HEADERS.items():
            self.send_header(name, value)
        super().end_headers()

    def send_error(self, code: int, message: Optional[str] = None, explain: Optional[str] = None) -> None:
        """Says that what came has no form."""
        self.refuse(Bad(code, message or "nothing that is served"))

    def parse_request(self) -> bool:
        """Reads the head of a request, and refuses what doesn't come from this page or a program of this machine."""
        if not super().parse_request():
            return False
        try:
            self.judge()
        except Bad as bad:
            self.refuse(bad)
            return False
        return True

    def judge(self) -> None:
        """Refuses another name of this machine, and another origin."""
        names, origins = self.headers.get_all("Host") or [], self.headers.get_all("Origin") or []
        if len(names) != 1 or names[0] not in self.server.names:
            raise Bad(403, "another host's name")
        if not self.server.origins.issuperset(origins) or self.headers.get("Sec-Fetch-Site", "none") not in ("none", "same-origin"):
            raise Bad(403, "another origin")

    def refuse(self, bad: Bad) -> None:
        """Says why a request isn't served, and hears no more: what stands behind its head wasn't read."""
        self.close_connection = True
        self.reply(bad.status, "text/plain", str(bad).encode() + b"\n")

    def reply(self, status: int, kind: str, content: bytes) -> None:
        """A whole answer."""
        self.send_response(status)
        self.send_header("Content-Type", kind + "; charset=utf-8")
        self.send_header("Content-Length", str(len(content)))
        if status == 401:
            self.send_header("WWW-Authenticate", "Bearer")
        if self.close_connection:
            self.send_header("Connection", "close")
        self.end_headers()
        self.wfile.write(content)

    def must_know(self) -> None:
        """Refuses who doesn't know the token."""
        said = self.headers.get("Authorization", "").encode("utf-8", "surrogateescape")
        if not hmac.compare_digest(said, b"Bearer " + self.server.board.token.encode()):
            raise Bad(401, "the token is wanted that stands behind the # of the board's address")

    # ---- what is served

    def do_GET(self) -> None:
        try:
            name = "board.html" if self.path == "/" else self.path[1:]
            if self.path == "/events":
                self.must_know()
                self.follow()
            elif name in ("board.html", *NAMES):
                with open(os.path.join(FILES, name), "rb") as file:
                    self.reply(200, KINDS[os.path.splitext(name)[1]], file.read())
            else:
                raise Bad(404, "nothing is here")
        except Bad as bad:
            self.refuse(bad)

    def do_POST(self) -> None:
        board = self.server.board
        try:
            work = {"/plan": board.plan, "/change": board.change}.get(self.path)
            if work is None:
                raise Bad(404, "nothing is here")
            self.must_know()
            status, answer = board.answer(work(asked(self.question())))
            self.reply(status, "application/json", json.dumps(answer).encode())
        except Bad as bad:
            self.refuse(bad)

    def question(self) -> bytes:
        """The bytes of a question."""
        lengths = self.headers.get_all("Content-Length") or []
        if len(lengths) != 1 or not lengths[0].isdigit() or "Transfer-Encoding" in self.headers:
            raise Bad(411, "the length of the question is wanted")
        if len(lengths[0]) > 9 or int(lengths[0]) > LONGEST:
            raise Bad(413, "the question is too long")
        if self.headers.get_content_type() != "application/json":
            raise Bad(415, "the question has to be application/json")
        return self.rfile.read(int(lengths[0]))

    def follow(self) -> None:
        """Tells what is seen, event by event, until the client has gone."""
        if not self.server.streams.acquire(blocking=False):
            raise Bad(503, "too many follow already")
        try:
            self.close_connection = True
            self.send_response(200)
            self.send_header("Content-Type", "text/event-stream; charset=utf-8")
            self.send_header("Connection", "close")
            self.end_headers()
            known: Dict[str, int] = {}
            while (news := self.server.board.watch.news.wait(known, BEAT)) is not None:
                known.update((name, number) for name, number, _ in news)
                told = "".join("event: %s\ndata: %s\n\n" % (name, text) for name, _, text in news)
                self.wfile.write(told.encode() or b": still here\n\n")
        finally:
            self.server.streams.release()
