"""What the tests are given: a server over the built library, which all of them share, an orders' folder for each, and a
page that asks."""
import atexit
import functools
import http.client
import json
import os
import pathlib
import random
import shutil
import tempfile
import threading
import unittest
from typing import Callable, List, Optional, Tuple

from desk import program, textform
from keyfoil.library import BUILT as LIBRARY
from screen import library, order, shelf
from screen.serving import Server
from screen.session import Session
from screen.tabs import Tabs

SAMPLES = program.ROOT / "samples"
FOUND = pathlib.Path(os.environ.get(library.VARIABLE) or LIBRARY)
JOB = pathlib.Path(os.environ.get("FOIL_JOB") or program.ROOT / "target" / "bin" / "job_main")

NO_LIBRARY = "the library is not built (%s): hosts/build builds it, or FOIL_LIBRARY names another" % FOUND
NO_JOB = "the job program is not built (%s): ./foil-job builds it, or FOIL_JOB names another" % JOB
with_library = unittest.skipUnless(FOUND.is_file(), NO_LIBRARY)
with_job = unittest.skipUnless(os.access(JOB, os.X_OK), NO_JOB)

SMALL = "board 9 9 0, patch 4 2 5 7\ntrack 1 1 4 7 4\ntrack 2 1 5 7 3  # net: second\nend\n"


def sample(name):
    """A sample's text."""
    return SAMPLES.joinpath(name + ".txt").read_text(encoding="utf-8")


def strips_text(width=4096, height=4096):
    """A text whose foil has 4,096 strips: 63 level bars at 63 rows, each over a column of points, and so on."""
    lines = ["board %d %d 0" % (width, height)]
    # 64 upright bars part each of 64 bands of rows, which level bars keep apart, into 64 strips
    lines += ["patch %d 0 %d %d" % (64 * at + 63, 64 * at + 64, height) for at in range(63)]
    lines += ["patch 0 %d %d %d" % (64 * at + 63, width, 64 * at + 64) for at in range(63)]
    return "\n".join(lines + ["end", ""])


class Page:
    """A page: it asks the server over one connection, as a browser would."""

    def __init__(self, server, screen="one"):
        self.server, self.screen, self.version = server, screen, None
        self.line = http.client.HTTPConnection(*server.server_address, timeout=120)
        self.status, self.headers = None, {}

    def close(self):
        """Ends the connection."""
        self.line.close()

    def send(self, method, path, body=None, headers=None):
        """A request as it stands: the bytes of the answer."""
        given = {"Host": self.server.host, **(headers or {})}
        self.line.request(method, path, body, {key: value for key, value in given.items() if value is not None})
        answer = self.line.getresponse()
        self.status, self.headers = answer.status, answer.headers
        return answer.read()

    def get(self, rest, **headers):
        """What is at an address behind the token."""
        return self.send("GET", "/%s/%s" % (self.server.token, rest), headers=headers)

    def post(self, word, values, **headers):
        """A request with its values: the whole answer."""
        given = {"Origin": "http://" + self.server.host, "Content-Type": "application/json", **headers}
        told = json.loads(self.send("POST", "/%s/api/%s" % (self.server.token, word), json.dumps(values), given))
        self.version = told.get("version", self.version)
        return told

    def ask(self, word, **values):
        """A request: the whole answer."""
        return self.post(word, {"screen": self.screen, **values})

    def change(self, word, **values):
        """A change at the version that the page knows: the whole answer."""
        return self.ask(word, version=self.version, **values)

    def state(self, k=0):
        """The order as it stands."""
        told = self.ask("state", foil=k)
        if "answer" not in told:
            raise AssertionError(told)
        return told["answer"]


@functools.lru_cache(maxsize=None)
def process() -> library.Library:
    """The library's process that all tests share."""
    made = library.Library(FOUND)
    atexit.register(made.stop)
    return made


SHARED: List[Server] = []


def shared(tabs: Tabs) -> Server:
    """The server that all tests share, with the tabs of one."""
    if not SHARED:
        server, ends = started(tabs)
        for end in reversed(ends):
            atexit.register(end)
        SHARED.append(server)
    SHARED[0].tabs = tabs
    return SHARED[0]


def started(tabs: Tabs) -> Tuple[Server, List[Callable[[], None]]]:
    """A server that serves, and what ends it, step by step."""
    server = Server(tabs)
    thread = threading.Thread(target=server.serve_forever, args=[0.02])
    thread.daemon = True
    thread.start()
    return server, [server.shutdown, thread.join, server.server_close]


@with_library
class Served(unittest.TestCase):
    """Tests of the server with an orders' folder of their own."""

    def setUp(self) -> None:
        self.folder = pathlib.Path(tempfile.mkdtemp())
        self.addCleanup(shutil.rmtree, self.folder)
        self.library = process()
        self.server = shared(self.tabs())
        self.page = self.tab("one")

    def tabs(self) -> Tabs:
        """Tabs that begin with an order without a name."""
        return Tabs(self.session(), self.session)

    def session(self) -> Session:
        """A session on the orders' folder of the test."""
        kept = shelf.Shelf(self.folder / "orders")
        self.addCleanup(os.close, kept.root)
        self.addCleanup(kept.release)
        return Session(self.library, kept, kept.begin(order.Order()))

    def tab(self, name: str, server: Optional[Server] = None) -> Page:
        """Another tab, which has asked for its order."""
        page = Page(server or self.server, name)
        self.addCleanup(page.close)
        page.state()
        return page

    def serve(self, name: str = "one") -> Tuple[Server, Page]:
        """Another server on the same orders' folder, and its page."""
        server, ends = started(self.tabs())
        for end in reversed(ends):
            self.addCleanup(end)
        return server, self.tab(name, server)

    def have(self, text, k=0):
        """Has a text on a foil: the foil."""
        told = self.page.change("text", foil=k, text=text)
        self.assertIn("answer", told, told)
        return told["answer"]["state"]["foil"]

    def foil(self, k=0):
        """A foil as it stands."""
        return self.page.state(k)["foil"]


def job_of(text):
    """The job of a text, in hexadecimal."""
    return textform.read(text).job.hex()


def chances(count):
    """So many sources of chance, the same ones at each run."""
    return [random.Random(seed) for seed in range(count)]
