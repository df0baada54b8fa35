"""Who may ask, and what may be reached: the token, Host and Origin, names, links, sizes and the page's policy."""
import json
import os
import re
import socket
import unittest

from screen import serving
from screen.tests import given


class Barred(given.Served):
    def barred(self, told):
        self.assertEqual(self.page.status, 403, told)
        self.assertEqual(json.loads(told)["fault"]["kind"] if told[:1] == b"{" else "barred", "barred")
        self.assertNotIn(self.server.token.encode(), told)

    def post(self, path=None, body=b'{"foil":0}', **headers):
        """A request with other headers than the page's."""
        headers = {"Origin": "http://" + self.server.host, "Content-Type": "application/json", **headers}
        return self.page.send("POST", path or "/%s/api/state" % self.server.token, body,
                              {key.replace("_", "-"): value for key, value in headers.items()})

    def test_only_this_machine(self):
        self.assertEqual(self.server.server_address[0], "127.0.0.1")
        self.assertEqual(self.server.socket.getsockname()[0], "127.0.0.1")
        for other in {info[4][0] for info in socket.getaddrinfo(socket.gethostname(), None, socket.AF_INET)}:
            if not other.startswith("127."):
                with self.assertRaises(OSError):
                    socket.create_connection((other, self.server.server_address[1]), 1).close()

    def test_the_token(self):
        self.assertGreaterEqual(len(self.server.token), 32)
        for path in ("/", "/x/", "/%s/" % self.server.token[:-1], "/%s" % self.server.token, "//", "/index.html",
                     "/%s/" % self.server.token.swapcase(), "/..%2f" + self.server.token):
            with self.subTest(path):
                self.barred(self.page.send("GET", path))
                self.barred(self.post(path + "api/state"))
        self.assertNotEqual(self.server.token, self.serve("two")[0].token)

    def test_the_host(self):
        port = self.server.server_address[1]
        for host in ("evil.example", "evil.example:%d" % port, "localhost:%d" % port, "127.0.0.1", "127.0.0.1:1", ""):
            with self.subTest(host):
                self.barred(self.page.get("", Host=host))
                self.barred(self.post(Host=host))

    def test_the_origin(self):
        before = self.page.state()["version"]
        for origin in (None, "null", "http://evil.example", "http://localhost:%d" % self.server.server_address[1],
                       "https://" + self.server.host, "http://127.0.0.1:1",
                       "http://%s.evil.example" % self.server.host):
            with self.subTest(origin):
                body = json.dumps({"version": before, "foil": 0, "text": given.SMALL})
                self.barred(self.post("/%s/api/text" % self.server.token, body, Origin=origin))
        self.assertEqual(self.page.state()["version"], before)
        self.assertEqual(self.foil()["text"], "")

    def test_a_form_is_no_request(self):
        for kind in ("text/plain", "application/x-www-form-urlencoded", "multipart/form-data", None):
            self.barred(self.post(Content_Type=kind))

    def test_other_methods(self):
        for method in ("PUT", "DELETE", "OPTIONS", "PATCH"):
            self.page.send(method, "/%s/api/state" % self.server.token, b"{}")
            self.assertEqual(self.page.status, 405)
            self.assertIsNone(self.page.headers.get("Access-Control-Allow-Origin"))

    def test_a_body_that_is_too_large(self):
        self.page.line.putrequest("POST", "/%s/api/text" % self.server.token, skip_host=True)
        for name, value in (("Host", self.server.host), ("Origin", "http://" + self.server.host),
                            ("Content-Type", "application/json"), ("Content-Length", str(serving.MOST + 1))):
            self.page.line.putheader(name, value)
        self.page.line.endheaders()
        answer = self.page.line.getresponse()
        self.assertEqual((answer.status, json.loads(answer.read())["fault"]["kind"]), (413, "large"))

    def test_a_body_that_is_no_request(self):
        for body in (b"", b"{", b"[]", b"7", b"\xff", b"[" * 100_000, b'{"foil":9}', b'{"foil":"0"}', b'{"foil":true}'):
            with self.subTest(body[:10]):
                told = json.loads(self.post(body=body))
                self.assertEqual((self.page.status, told["fault"]["kind"]), (400, "asked"))

    def test_the_policy(self):
        self.page.get("")
        self.assertEqual(self.page.status, 200)
        policy = self.page.headers["Content-Security-Policy"]
        self.assertIn("default-src 'none'", policy)
        self.assertFalse(re.search(r"https?:|\*|unsafe", policy))
        self.assertEqual(self.page.headers["X-Content-Type-Options"], "nosniff")
        self.assertEqual(self.page.headers["Referrer-Policy"], "no-referrer")
        self.assertEqual(self.page.headers["Cache-Control"], "no-store")

    def test_the_page_has_nothing_from_outside(self):
        for path in sorted(serving.PAGE.iterdir()):
            with self.subTest(path.name):
                self.assertTrue(serving.FILE.fullmatch(path.name))
                found = re.findall(r"(?:https?:)?//[a-z0-9.-]+\.[a-z]+[^\s\"']*", path.read_text(encoding="utf-8"))
                self.assertEqual([address for address in found if "www.w3.org/" not in address], [])


class Names(given.Served):
    BAD = ("..", ".", "", "a/b", "../a", "a/../../b", "/etc", ".screen", "a..b", "a\0b", "a\nb", " a", "a ", "-a",
           "a" * 61, "a\\b", "~", "a:b", "%2e%2e")

    def setUp(self):
        super().setUp()
        self.have(given.SMALL)

    def tree(self):
        """All that is under the test's folder, but for what screens keep for themselves."""
        return sorted(str(path.relative_to(self.folder)) for path in self.folder.rglob("*")
                      if ".screen" not in path.parts)

    def test_no_name_leaves_the_folder(self):
        before = self.tree()
        for name in self.BAD:
            for word in ("save", "open", "template"):
                with self.subTest((word, name)):
                    told = self.page.change(word, name=name, discard=True, over="")
                    self.assertEqual(told["fault"]["kind"], "name")
        self.assertEqual(self.tree(), before)

    def test_no_address_leaves_the_page(self):
        for rest in ("../serving.py", "..%2fserving.py", "%2e%2e/serving.py", "page/../../README.md", "serving.py",
                     "a/b.js", "file/../../x", "file/text/../..", "print/../index.html", "/etc/passwd", "Index.html",
                     ".html"):
            with self.subTest(rest):
                self.page.get(rest)
                self.assertIn(self.page.status, (404, 400))

    def test_no_link_is_followed(self):
        outside = self.folder / "outside"
        outside.mkdir()
        outside.joinpath("linked.txt").write_text("board 3 3 0\nend\n")
        orders = self.folder / "orders"
        orders.joinpath("linked").symlink_to(outside)
        for word in ("save", "open", "template"):
            told = self.page.change(word, name="linked", discard=True, over="")
            self.assertEqual(told["fault"]["kind"], "name", told)
        self.assertEqual(os.listdir(outside), ["linked.txt"])
        self.assertEqual(self.page.ask("orders")["answer"]["orders"], [])

    def test_no_linked_file_is_read_or_written_through(self):
        secret = self.folder / "secret"
        secret.write_text("board 3 3 0\nend\n")
        order = self.folder / "orders" / "plain"
        order.mkdir()
        order.joinpath("plain.txt").symlink_to(secret)
        self.assertEqual(self.page.change("open", name="plain", discard=True)["fault"]["kind"], "absent")
        fault = self.page.change("save", name="plain")["fault"]
        self.assertIn("plain.txt is a link", fault["why"])
        self.assertIn("answer", self.page.change("save", name="plain", over=fault["digest"]))
        self.assertEqual(secret.read_text(), "board 3 3 0\nend\n")
        self.assertFalse(order.joinpath("plain.txt").is_symlink())
        self.assertEqual(order.joinpath("plain.txt").read_text(), given.SMALL)

    def test_a_file_is_written_beside_and_renamed(self):
        self.assertIn("answer", self.page.change("save", name="keys"))
        text = self.folder / "orders" / "keys" / "keys.txt"
        kept = text.open()
        self.addCleanup(kept.close)
        self.have("board 3 3 0\nend\n")
        self.assertIn("answer", self.page.change("save"))
        self.assertEqual(kept.read(), given.SMALL)
        self.assertEqual(text.read_text(), "board 3 3 0\nend\n")
        self.assertFalse([name for name in os.listdir(text.parent) if name.endswith(".new")])

    def test_a_folder_that_cannot_be_written(self):
        (self.folder / "orders" / "file").write_text("")
        told = self.page.change("save", name="file")
        self.assertEqual(told["fault"]["kind"], "name")


if __name__ == "__main__":
    unittest.main()
