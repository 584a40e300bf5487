#!/usr/bin/env python3
"""A map in the browser: shows the boxes of an index and changes them.

    python3 serve.py places.gist
"""

import argparse
import json
import random
import signal
import sys
from http.server import BaseHTTPRequestHandler, ThreadingHTTPServer
from itertools import islice
from pathlib import Path
from typing import Any, Dict, Optional, Tuple
from urllib.parse import parse_qsl, urlsplit

import gist

HTML = Path(__file__).with_name("map.html")
PLANE = gist.Box(gist.MIN_CORNER, gist.MIN_CORNER,
                 gist.MAX_CORNER, gist.MAX_CORNER)
#: So many boxes are sent at most for a view.
MOST = 20_000
#: A request waits so many seconds for one of the eight sessions.
WAIT = 5.0
#: A body of a request has at most so many bytes.
LONGEST = 500


def box_of(corners: Dict[str, Any]) -> gist.Box:
    """The box with these corners, cut off where the plane ends."""
    x1, y1, x2, y2 = (
        min(max(int(corners[name]), gist.MIN_CORNER), gist.MAX_CORNER)
        for name in ("x1", "y1", "x2", "y2"))
    return gist.Box(min(x1, x2), min(y1, y2), max(x1, x2), max(y1, y2))


class Boxes:
    """What the page asks of an index; each call is a transaction."""

    def __init__(self, index: gist.Index) -> None:
        self._index = index

    def extent(self) -> Dict[str, Any]:
        """The box around all boxes; each of them is read for it."""
        boxes = (box for _, box in self._index.search(PLANE))
        x1, y1, x2, y2 = next(boxes, (0, 0, 1000, 1000))
        for box in boxes:
            x1, y1 = min(x1, box.x1), min(y1, box.y1)
            x2, y2 = max(x2, box.x2), max(y2, box.y2)
        return {"extent": [x1, y1, x2, y2]}

    def view(self, box: gist.Box) -> Dict[str, Any]:
        """The boxes that overlap this one: all are counted, some sent."""
        found = self._index.search(box)
        return {"count": len(found),
                "boxes": [[row, *box] for row, box in islice(found, MOST)]}

    def add(self, box: gist.Box) -> Dict[str, Any]:
        """Adds the box under a new row."""
        row = random.getrandbits(53)
        self._index.retry(lambda t: t.insert(row, box), wait=WAIT)
        return {"row": row}

    def delete(self, box: gist.Box) -> Dict[str, Any]:
        """Deletes the smallest box that overlaps this one."""
        return {"row": self._index.retry(
            lambda t: self._delete_smallest(t, box), wait=WAIT)}

    @staticmethod
    def _delete_smallest(t: gist.Transaction,
                         box: gist.Box) -> Optional[int]:
        found = list(t.overlap(box))
        if not found:
            return None
        row, smallest = min(found, key=lambda it: (
            (it[1].x2 - it[1].x1) * (it[1].y2 - it[1].y1), it[0]))
        t.delete(row, smallest)
        return row


class Server(ThreadingHTTPServer):
    """Serves the page and answers what it asks, a thread a connection."""

    daemon_threads = True

    def __init__(self, index: gist.Index, port: int) -> None:
        super().__init__(("127.0.0.1", port), Handler)
        self.boxes = Boxes(index)

    def handle_error(self, *request: Any) -> None:
        """Says nothing if the browser has left."""
        if not isinstance(sys.exc_info()[1], ConnectionError):
            super().handle_error(*request)


class Handler(BaseHTTPRequestHandler):
    """Answers one request after the other of a connection."""

    protocol_version = "HTTP/1.1"
    server: Server

    def do_GET(self) -> None:
        url = urlsplit(self.path)
        if url.path == "/":
            self._send(200, HTML.read_bytes(), "text/html; charset=utf-8")
        else:
            self._answer("GET", url.path, dict(parse_qsl(url.query)))

    def do_POST(self) -> None:
        length = self.headers.get("Content-Length", "")
        # (a form of another site can't name this type)
        if (self.headers.get_content_type() != "application/json"
                or not length.isdecimal() or int(length) > LONGEST):
            self.close_connection = True
            self._send_json(400, {"error": "a short JSON text is wanted"})
            return
        try:
            corners = json.loads(self.rfile.read(int(length)))
        except ValueError:
            corners = None
        self._answer("POST", self.path, corners)

    def _answer(self, method: str, path: str, corners: Any) -> None:
        status, answer = self._answer_to(method, path, corners)
        self._send_json(status, answer)

    def _answer_to(self, method: str, path: str,
                   corners: Any) -> Tuple[int, Dict[str, Any]]:
        boxes = self.server.boxes
        calls = {("GET", "/boxes"): boxes.view, ("POST", "/add"): boxes.add,
                 ("POST", "/delete"): boxes.delete}
        try:
            if (method, path) == ("GET", "/extent"):
                return 200, boxes.extent()
            if (method, path) not in calls:
                return 404, {"error": "there is no such page"}
            return 200, calls[method, path](box_of(corners))
        except (gist.Busy, gist.NoSession) as fault:
            # (the page tries again)
            return 503, {"error": str(fault)}
        except gist.GistError as fault:
            return 500, {"error": str(fault)}
        except (KeyError, TypeError, ValueError, OverflowError):
            return 400, {"error": "four corners are wanted"}

    def _send_json(self, status: int, answer: Dict[str, Any]) -> None:
        self._send(status, json.dumps(answer).encode(), "application/json")

    def _send(self, status: int, body: bytes, kind: str) -> None:
        self.send_response(status)
        self.send_header("Content-Type", kind)
        self.send_header("Content-Length", str(len(body)))
        self.end_headers()
        self.wfile.write(body)

    def log_request(self, *_: object) -> None:
        """Says nothing of requests that were answered."""


def main() -> None:
    parser = argparse.ArgumentParser(description="Serves a map of an index.")
    parser.add_argument("index", help="the file of the index")
    parser.add_argument("--port", type=int, default=8000)
    asked = parser.parse_args()
    signal.signal(signal.SIGTERM, lambda *_: sys.exit(0))
    try:
        with gist.open(asked.index, wait=WAIT) as index:
            if index.dimensions != 2:
                sys.exit(f"serve.py: {asked.index} is of boxes of space, "
                         "and a map is flat")
            with Server(index, asked.port) as server:
                print(f"http://127.0.0.1:{server.server_port}/", flush=True)
                server.serve_forever()
    except KeyboardInterrupt:
        sys.exit(130)
    except (gist.GistError, OSError) as fault:
        sys.exit(f"serve.py: {fault}")


if __name__ == "__main__":
    main()
