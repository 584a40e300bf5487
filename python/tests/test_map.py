"""The example with a map, without its browser."""

import http.client
import importlib.util
import json
import sys
import threading
import unittest.mock
from typing import Any, Dict, Optional, Tuple

import gist
from tests import REPOSITORY, Case, box_of, entries

MAP = REPOSITORY / "python" / "examples" / "map"


def module(name: str) -> Any:
    """A module of the example."""
    spec = importlib.util.spec_from_file_location(name, MAP / f"{name}.py")
    assert spec and spec.loader
    found = importlib.util.module_from_spec(spec)
    spec.loader.exec_module(found)
    return found


class Map(Case):
    """What the page asks."""

    def setUp(self) -> None:
        super().setUp()
        self.new()
        self.fill(0, 100)
        self.index = gist.open(self.path)
        self.addCleanup(self.index.close)
        self.serve = module("serve")
        server = self.serve.Server(self.index, 0)
        self.addCleanup(server.server_close)
        self.port = server.server_port
        thread = threading.Thread(target=server.serve_forever, args=(0.01,))
        thread.start()
        self.addCleanup(thread.join)
        self.addCleanup(server.shutdown)

    def ask(self, path: str, body: Optional[str] = None,
            kind: str = "application/json") -> Tuple[int, str]:
        """The status and the text of an answer."""
        to = http.client.HTTPConnection("127.0.0.1", self.port, timeout=60)
        try:
            to.request("POST" if body else "GET", path, body,
                       {"Content-Type": kind})
            answer = to.getresponse()
            return answer.status, answer.read().decode()
        finally:
            to.close()

    def told(self, path: str, *corners: int) -> Dict[str, Any]:
        """What is answered about a box; other paths than /boxes change it."""
        box = dict(zip(("x1", "y1", "x2", "y2"), corners))
        query = "&".join(f"{name}={at}" for name, at in box.items())
        status, text = (self.ask(f"{path}?{query}") if path == "/boxes"
                        else self.ask(path, json.dumps(box)))
        self.assertEqual(status, 200, text)
        return dict(json.loads(text))

    def test_page(self) -> None:
        status, text = self.ask("/")
        self.assertEqual(status, 200)
        self.assertEqual(text, (MAP / "map.html").read_text())
        # (it needs nothing else)
        self.assertNotRegex(text, r"(src|href)=\"(?!data:)|https?://")

    def test_views(self) -> None:
        _, text = self.ask("/extent")
        self.assertEqual(json.loads(text), {"extent": [0, -99, 995, 99]})
        self.assertEqual(self.told("/boxes", 15, 0, 35, 0), {
            "count": 3, "boxes": [[row, *box_of(row)] for row in (1, 2, 3)]})
        wide = 10 ** 12
        with unittest.mock.patch.object(self.serve, "MOST", 20):
            found = self.told("/boxes", -wide, -wide, wide, wide)
        self.assertEqual(found["count"], 100)
        self.assertEqual(len(found["boxes"]), 20)

    def test_changes(self) -> None:
        added = self.told("/add", 2000, 2000, 2009, 2009)["row"]
        self.assertEqual(self.told("/boxes", 2005, 2005, 2005, 2005)["boxes"],
                         [[added, 2000, 2000, 2009, 2009]])
        small = self.told("/add", 2006, 2006, 2004, 2004)["row"]
        for row in (small, added, None):
            self.assertEqual(self.told("/delete", 2005, 2005, 2005, 2005),
                             {"row": row})
        self.index.close()
        self.assertEqual(self.found(), entries(0, 100))

    def test_busy(self) -> None:
        with self.index.transaction() as t:
            t.insert(7, (2000, 2000, 2009, 2009))
            body = '{"x1": 2000, "y1": 2000, "x2": 2001, "y2": 2001}'
            status, text = self.ask("/delete", body)
            self.assertEqual(status, 503, text)
        self.assertEqual(self.ask("/delete", body), (200, '{"row": 7}'))

    def test_what_is_wrong(self) -> None:
        self.assertEqual(self.ask("/nothing")[0], 404)
        self.assertEqual(self.ask("/add")[0], 404)
        for query in ("", "?x1=1&y1=1&x2=2", "?x1=1&y1=1&x2=2&y2=x"):
            self.assertEqual(self.ask(f"/boxes{query}")[0], 400)
        for body in ("{}", "[1, 2, 3, 4]", "x", "[" * 400, " " * 600,
                     '{"x1": 1, "y1": 1, "x2": 2, "y2": NaN}'):
            self.assertEqual(self.ask("/add", body)[0], 400)
        self.assertEqual(self.ask("/add", "{}", "text/plain")[0], 400)

    def test_boxes(self) -> None:
        with unittest.mock.patch.object(sys, "argv", ["boxes.py", "50"]):
            with unittest.mock.patch("builtins.print") as printed:
                module("boxes").main()
        self.assertEqual(printed.call_count, 51)
