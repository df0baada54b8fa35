"""Connections: what is no request, what does not come whole, what says nothing, and a thousand of these."""
import json
import resource
import socket
import time
from typing import Any, List
from unittest import mock

from screen import holding, serving
from screen.tests import given

IDLE = 1000
# how long something is waited for that must come, in seconds
LONGEST = 20


class Connections(given.Served):
    def connected(self) -> socket.socket:
        """A connection to the server."""
        made = socket.create_connection(self.server.server_address, LONGEST)
        self.addCleanup(made.close)
        return made

    def said(self, sent: bytes, ends: bool = False) -> bytes:
        """All that is said to what is sent, until the server closes the connection."""
        made = self.connected()
        made.sendall(sent)
        if ends:
            made.shutdown(socket.SHUT_WR)
        return everything(made)

    def request(self, word: str, body: bytes, length: int) -> bytes:
        """A request of the page that says another length than its body has."""
        return (f"POST /{self.server.token}/api/{word} HTTP/1.1\r\nHost: {self.server.host}\r\nOrigin: http://"
                f"{self.server.host}\r\nContent-Type: application/json\r\nContent-Length: {length}\r\n\r\n"
                ).encode() + body

    def assert_nothing_told(self, answer: bytes, status: int) -> None:
        """An answer says its status, and nothing of the order, the library, the server's parts or their versions."""
        self.assertEqual(answer.split()[1], str(status).encode(), answer)
        for word in (b"version", b"library", b"pid", b"Python", b"BaseHTTP", b"Traceback", b".py", b"mistake",
                     self.server.token.encode()):
            self.assertNotIn(word, answer)

    def test_an_address_that_is_none(self) -> None:
        for method in ("POST", "GET", "HEAD"):
            for address in ("http://[/x", "http://[::1/"):
                for host in (f"Host: {self.server.host}\r\n", "Host: [\r\n", ""):
                    with self.subTest((method, address, host)):
                        sent = f"{method} {address} HTTP/1.1\r\n{host}Content-Length: 0\r\n\r\n"
                        self.assert_nothing_told(self.said(sent.encode()), 400)

    def test_what_is_no_request(self) -> None:
        for sent, status in ((b"\x16\x03\x01\x02\r\n\r\n", 400), (b"GET\r\n\r\n", 400),
                             (b"GET / HTTP/9.9\r\n\r\n", 505), (b"GET / HTTP/x\r\n\r\n", 400),
                             (b"BREW / HTTP/1.1\r\n\r\n", 501),
                             (b"GET /" + b"a" * 70_000 + b" HTTP/1.1\r\n\r\n", 414)):
            with self.subTest(sent[:20]):
                self.assert_nothing_told(self.said(sent), status)

    def test_a_body_that_ends_too_soon(self) -> None:
        before = self.page.state()
        body = json.dumps({"screen": "one", "version": before["version"], "foil": 0, "text": given.SMALL}).encode()
        for length in (len(body) + 1, len(body) + 1000, 4_000_000):
            answer = self.said(self.request("text", body, length), ends=True)
            self.assertEqual(answer.split()[1], b"400", answer)
            self.assertIn(f"has {len(body)} bytes, and not the {length}".encode(), answer)
        self.assertEqual(self.page.state(), before)

    def test_a_body_that_does_not_come(self) -> None:
        before = self.page.state()
        body = json.dumps({"screen": "one", "version": before["version"], "foil": 0, "text": given.SMALL}).encode()
        with mock.patch.object(serving, "COMING", 0.2):
            answer = self.said(self.request("text", body, len(body) + 1))
        self.assertEqual((answer.split()[1], b"not the" in answer), (b"400", True), answer)
        self.assertEqual(self.page.state(), before)

    def test_a_connection_that_says_nothing_is_closed(self) -> None:
        self.assertLessEqual(self.server.silent, 10)
        with mock.patch.object(self.server, "silent", 0.2):
            for sent in (b"", b"GET /", b"GET / HTTP/1.1\r\nHost:"):
                self.assertEqual(self.said(sent), b"")
            answered = self.said(f"GET / HTTP/1.1\r\nHost: {self.server.host}\r\n\r\n".encode())
            self.assertEqual(answered.split()[1], b"403")

    def test_the_page_is_served_beside_a_thousand_that_say_nothing(self) -> None:
        soft, hard = resource.getrlimit(resource.RLIMIT_NOFILE)
        wanted = IDLE + holding.MOST + 500
        if hard != resource.RLIM_INFINITY and hard < wanted:
            self.skipTest(f"{wanted} open files are wanted, and {hard} are allowed")
        if soft != resource.RLIM_INFINITY and soft < wanted:
            resource.setrlimit(resource.RLIMIT_NOFILE, (wanted, hard))
            self.addCleanup(resource.setrlimit, resource.RLIMIT_NOFILE, (soft, hard))
        self.assertLess(holding.MOST, IDLE // 4)
        self.page.get("")
        line = self.page.line.sock
        idle: List[socket.socket] = [self.connected() for _ in range(IDLE)]
        fresh = given.Page(self.server, "one")
        self.addCleanup(fresh.close)
        for page in (fresh, self.page):
            page.get("")
            self.assertEqual(page.status, 200)
            self.assertIn("answer", page.ask("state", foil=0))
        # the page's own connection was not given up for those of strangers
        self.assertIs(self.page.line.sock, line)
        self.assertLessEqual(len(self.server.held), holding.MOST)
        for one in idle[:IDLE - holding.MOST]:
            self.assertEqual(everything(one), b"")

    def test_connections_that_are_answered_are_not_given_up(self) -> None:
        with mock.patch.object(self.server, "most", 1 + len(self.server.held)):
            watching = self.connected()
            watching.sendall(self.request("watch", b'{"screen":"one"}', 16)[:-1])
            self.wait_until_answered(watching)
            idle = [self.connected() for _ in range(3)]
            for one in idle[:2]:
                self.assertEqual(everything(one), b"")
            watching.sendall(b"}")
            self.assertEqual(watching.recv(12), b"HTTP/1.1 200")

    def wait_until_answered(self, made: socket.socket) -> None:
        """Waits until the request of this connection is being answered, as that of the page may be still."""
        until = time.monotonic() + LONGEST
        while made.getsockname() not in self.answered():
            self.assertLess(time.monotonic(), until)
            time.sleep(0.01)

    def answered(self) -> List[Any]:
        """The other sides of the connections whose requests are being answered."""
        with self.server.room:
            return [other_side(one) for one, known in self.server.held.items() if known is None]


def other_side(held: socket.socket) -> Any:
    """The address of the other side of a connection; none where it is gone."""
    try:
        return held.getpeername()
    except OSError:
        return None


def everything(made: socket.socket) -> bytes:
    """All that comes until the connection is closed by the other side."""
    parts = []
    try:
        while True:
            part = made.recv(1 << 16)
            if not part:
                break
            parts.append(part)
    except ConnectionResetError:
        pass
    return b"".join(parts)
