"""HTTP on 127.0.0.1: who may ask, and which address is what. Every address begins with the token; Host must be the
server's own, and so must the Origin of a POST; nothing is loaded from elsewhere."""
import hmac
import json
import pathlib
import re
import secrets
import socket
import time
import urllib.parse
from http.server import BaseHTTPRequestHandler
from typing import Any, Dict, Optional, Tuple, Union

from desk import lines, statuses
from screen import papers, requests
from screen.holding import Holding
from screen.library import Unasked, Wrong
from screen.order import FOILS
from screen.session import Fault, Refused, Session
from screen.tabs import Tabs

HERE = "127.0.0.1"
PAGE = pathlib.Path(__file__).resolve().parent / "page"
FILE = re.compile(r"[a-z0-9][a-z0-9-]*\.(html|js|css|svg)")
KINDS = {"html": "text/html", "js": "text/javascript", "css": "text/css", "svg": "image/svg+xml"}
# the longest body of a request in bytes, and the longest that it may take to come, in seconds
MOST, COMING = 4_500_000, 10
POLICY = ("default-src 'none'; script-src 'self'; style-src 'self'; img-src 'self' data: blob:; connect-src 'self'; "
          "base-uri 'none'; form-action 'none'; frame-ancestors 'none'")
# the policy of a page for print, and of a picture: a style of its own, and no script
PAPER = ("default-src 'none'; style-src 'unsafe-inline'; img-src data:; base-uri 'none'; form-action 'none'; "
         "sandbox allow-modals")
STATUSES = {"stale": 409, "unread": 409, "unsaved": 409, "taken": 409, "open": 409, "name": 400, "absent": 404,
            "asked": 400, "large": 413, "files": 500, "barred": 403, "mistake": 500}


class Server(Holding):
    """The server of the tabs."""

    def __init__(self, tabs: Tabs, port: int = 0, token: Optional[str] = None) -> None:
        super().__init__((HERE, port), Handler)
        self.tabs, self.token = tabs, token or secrets.token_urlsafe(24)
        self.host = f"{HERE}:{self.server_address[1]}"

    @property
    def session(self) -> Session:
        """The session of the tab that asked last."""
        return self.tabs.shown(None)

    @property
    def address(self) -> str:
        """Where the page is."""
        return f"http://{self.host}/{self.token}/"


class Handler(BaseHTTPRequestHandler):
    """A connection. One that has given no request with the token counts as a stranger's (screen/holding.py)."""
    server: Server
    protocol_version = "HTTP/1.1"
    # what is no request is answered with a status all the same
    default_request_version = "HTTP/1.0"
    disable_nagle_algorithm = True
    wbufsize = -1

    def setup(self) -> None:
        """A connection is there: it may say nothing for a short while."""
        self.timeout = self.server.silent
        super().setup()
        self.known = False

    def handle(self) -> None:
        """Requests, one after the other. Between them a connection of the page may rest for longer."""
        self.close_connection = False
        while not self.close_connection:
            self.close_connection, self.command = True, ""
            self.handle_one_request()
            if not self.close_connection:
                self.server.rests(self.request, self.known)
                self.connection.settimeout(self.server.resting if self.known else self.server.silent)

    def parse_request(self) -> bool:
        """A request has begun: the rest of it comes without a pause."""
        self.connection.settimeout(self.server.silent)
        self.known = False
        return super().parse_request()

    def version_string(self) -> str:
        """What is told of the server: no version, nor that of Python."""
        return "foil-screen"

    def log_message(self, *_: Any) -> None:
        """Nothing is logged."""

    def send_error(self, code: int, message: Optional[str] = None, explain: Optional[str] = None) -> None:
        """What is no request is answered in few words, and the connection ends."""
        self.send(code, "text/plain", "this is no request\n", PAPER)

    # who may ask

    def inside(self) -> Tuple[str, Dict[str, str]]:
        """The address behind the token, with its query; a fault for whoever may not ask."""
        try:
            parts = urllib.parse.urlsplit(self.path)
        except ValueError:
            raise Fault("asked", "this is no address")
        if self.headers.get_all("Host") != [self.server.host]:
            raise Fault("barred", "this is not the Host that was asked")
        token, slash, rest = parts.path[1:].partition("/")
        if not hmac.compare_digest(token.encode(), self.server.token.encode()) or not slash:
            raise Fault("barred", "the address has not the token that ./foil-screen has printed")
        self.known = True
        self.server.works(self.request)
        return rest, dict(urllib.parse.parse_qsl(parts.query))

    def body(self) -> Any:
        """The values of a request, which must come from the page of this server."""
        if self.headers.get_all("Origin") != ["http://" + self.server.host]:
            raise Fault("barred", "the request is not from the page of this server")
        if self.headers.get("Content-Type", "").partition(";")[0].strip() != "application/json":
            raise Fault("barred", "the request is no JSON")
        given = self.headers.get("Content-Length", "")
        if not re.fullmatch("[0-9]{1,9}", given) or self.headers.get("Transfer-Encoding"):
            raise Fault("asked", "the request has no length")
        if int(given) > MOST:
            raise Fault("large", "the request has more than %d bytes" % MOST)
        try:
            return json.loads(self.whole(int(given)))
        except (ValueError, RecursionError):
            raise Fault("asked", "the request is no JSON")

    def whole(self, length: int) -> bytes:
        """So many bytes, or a fault where fewer come."""
        made, until = bytearray(), time.monotonic() + COMING
        while len(made) < length:
            self.connection.settimeout(max(until - time.monotonic(), 0.001))
            try:
                part = self.rfile.read1(length - len(made))
            except socket.timeout:
                part = b""
            if not part:
                raise Fault("asked", f"the request has {len(made)} bytes, and not the {length} that it says")
            made += part
        return bytes(made)

    # what is asked

    def do_GET(self) -> None:
        """A file of the page, a paper, or what a save would write."""
        try:
            rest, query = self.inside()
            kind, content, policy = self.got(rest, query)
        except Unasked as unasked:
            self.send(503, "text/plain", "the library could not be asked: %s\n" % unasked, PAPER)
        except Fault as fault:
            self.send(STATUSES[fault.kind], "text/plain", fault.why + "\n", PAPER)
        except Exception as fault:
            self.send(500, "text/plain", statuses.mistake(fault) + "\n", PAPER)
        else:
            self.send(200, kind, content, policy)

    do_HEAD = do_GET

    def got(self, rest: str, query: Dict[str, str]) -> Tuple[str, Union[str, bytes], str]:
        """What is at an address: its kind, its content and its policy."""
        if not rest or FILE.fullmatch(rest):
            return page_file(rest or "index.html")
        folder, _, word = rest.partition("/")
        session, k = self.server.tabs.shown(query.get("screen")), query.get("foil", "0")
        if not re.fullmatch("[0-7]", k):
            raise Fault("asked", "foils are numbered from 0 to %d" % (FOILS - 1))
        with session.lock:
            if folder == "print":
                return "text/html", paper(session, word, int(k), query), PAPER
            if folder == "file":
                return file_of(session, word, int(k))
        raise Fault("absent", "there is nothing at this address")

    def do_POST(self) -> None:
        """A request of the page."""
        tabs, session, status = self.server.tabs, None, 200
        try:
            rest, _ = self.inside()
            if not rest.startswith("api/"):
                raise Fault("absent", "there is nothing at this address")
            asked = requests.Asked(self.body())
            if rest == "api/leave":
                tabs.leave(asked.word("screen", 64))
                made = {"answer": {}}
            else:
                session = tabs.of(asked.word("screen", 64)) if asked.has("screen") else tabs.shown(None)
                made = {"answer": requests.done(session, rest[4:], asked)}
        except Refused as refused:
            made = {"refused": refused.told}
        except Unasked as unasked:
            status, made = 503, {"unasked": {"why": str(unasked), **session.texts()}}
        except Wrong as wrong:
            status, made = 400, {"fault": {"kind": "asked", "why": str(wrong)}}
        except lines.Strange as strange:
            why = "what the library answered cannot be believed: %s" % strange
            status, made = 503, {"unasked": {"why": why, **session.texts()}}
        except Fault as fault:
            status, made = STATUSES[fault.kind], {"fault": {"kind": fault.kind, "why": fault.why, **fault.told}}
        except OSError as fault:
            status, made = 500, {"fault": {"kind": "files", "why": "%s: %s" % (fault.filename, fault.strerror)}}
        except Exception as fault:
            status, made = 500, {"fault": {"kind": "mistake", "why": statuses.mistake(fault)}}
        about = session.envelope() if session else {}
        self.send(status, "application/json", answer_of({**about, **made}), POLICY)

    def refuse(self):
        """Another method than GET and POST."""
        self.send(405, "text/plain", "only GET and POST\n", PAPER)

    do_PUT = do_DELETE = do_OPTIONS = do_PATCH = refuse

    def send(self, status, kind, content, policy):
        """Sends an answer. After one that is none the connection ends, since a body may be left unread."""
        content = content if isinstance(content, bytes) else content.encode()
        self.send_response(status)
        for name, value in (
                ("Content-Type", kind + "; charset=utf-8"), ("Content-Length", str(len(content))),
                ("Content-Security-Policy", policy), ("X-Content-Type-Options", "nosniff"),
                ("X-Frame-Options", "DENY"), ("Referrer-Policy", "no-referrer"), ("Cache-Control", "no-store"),
                ("Cross-Origin-Resource-Policy", "same-origin"), ("Cross-Origin-Opener-Policy", "same-origin")):
            self.send_header(name, value)
        if status >= 400:
            self.send_header("Connection", "close")
            self.close_connection = True
        self.end_headers()
        if self.command != "HEAD":
            self.wfile.write(content)
        self.wfile.flush()


def answer_of(values):
    """An answer as JSON, which has no number that is none."""
    return json.dumps(values, separators=(",", ":"), allow_nan=False)


def page_file(name):
    """A file of the page."""
    try:
        content = PAGE.joinpath(name).read_bytes()
    except OSError:
        raise Fault("absent", "there is nothing at this address")
    return KINDS[name.rpartition(".")[2]], content, POLICY


def paper(session, word, k, query):
    """A page for print."""
    if word == "carton":
        return papers.carton_page(session, k)
    if word == "foil":
        try:
            mm = float(query.get("mm", "1"))
        except ValueError:
            raise Fault("asked", "`mm` is no number")
        return papers.printed(session, k, mm)
    raise Fault("absent", "there is nothing at this address")


def file_of(session, word, k):
    """What a save would write of a foil."""
    if word == "text":
        return "text/plain", session.order.texts[k], PAPER
    if word == "job":
        text = session.order.reads[k].text
        if not text:
            raise Fault("unread", "the text of foil %d cannot be read, or is empty" % k)
        return "application/octet-stream", text.job, PAPER
    if word == "picture":
        return "image/svg+xml", papers.drawn(session, k), PAPER
    if word == "slip":
        return "text/plain", session.account(k).held["slip"], PAPER
    raise Fault("absent", "there is nothing at this address")
