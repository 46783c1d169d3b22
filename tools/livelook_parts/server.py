"""The server of the page: one loop over all clients, so that none of them costs a thread or holds up another."""

import contextlib
import os
import selectors
import socket
import time

from .asked import Names, request_of

HERE = os.path.dirname(os.path.realpath(__file__))
MOST_CLIENTS, MOST_WAITING_BYTES, MOST_REQUEST_BYTES, PIECE_BYTES = 100, 64000, 8192, 16384
# for so long a client may need for its request, or take nothing of the answer
IDLE_SECONDS = 10.0
# how often what has changed is sent, and how often all the same
SOON_SECONDS, LATE_SECONDS = 0.4, 2.0
TURN_SECONDS = 0.1
FILES = {"/": ("page.html", "text/html; charset=utf-8"), "/look.css": ("look.css", "text/css; charset=utf-8"),
         "/look.js": ("look.js", "text/javascript; charset=utf-8")}
POLICY = ("default-src 'none'; script-src 'self'; style-src 'self'; connect-src 'self'; base-uri 'none'; form-action 'none'; frame-ancestors 'none'; "
          "require-trusted-types-for 'script'")
REASONS = {200: "OK", 400: "Bad Request", 404: "Not Found", 405: "Method Not Allowed", 421: "Misdirected Request", 431: "Request Header Fields Too Large",
           503: "Service Unavailable"}
OPENMETRICS = "application/openmetrics-text; version=1.0.0; charset=utf-8"
TEXT = "text/plain; charset=utf-8"


def head_of(status, kind, length=None, more=()):
    lines = [f"HTTP/1.1 {status} {REASONS[status]}", f"Content-Type: {kind}", "Connection: close", "Cache-Control: no-store", "X-Content-Type-Options: nosniff",
             "Referrer-Policy: no-referrer", f"Content-Security-Policy: {POLICY}", *more]
    if length is not None:
        lines.append(f"Content-Length: {length}")
    return "\r\n".join([*lines, "", ""]).encode()


def answer_of(status, kind, content, is_head=False, more=()):
    return head_of(status, kind, len(content), more) + (b"" if is_head else content)


class Client:
    """One connection: what came of its request, and what it hasn't taken yet of the answer."""

    def __init__(self, opened):
        self.opened, self.request, self.waiting = opened, b"", b""
        self.is_asking, self.is_stream, self.until = True, False, time.monotonic() + IDLE_SECONDS


class Server:
    """Answers what `status` says."""

    def __init__(self, address, names, looking, status):
        self.looking, self.status, self.names = looking, status, Names(address, names)
        self.selector, self.clients = selectors.DefaultSelector(), {}
        self.files = {path: (self._content(name), kind) for path, (name, kind) in FILES.items()}
        self.sent_changes, self.sent_at = -1, 0.0
        self.listener = socket.socket(socket.AF_INET, socket.SOCK_STREAM)
        self.listener.setsockopt(socket.SOL_SOCKET, socket.SO_REUSEADDR, 1)
        self.listener.bind(address)
        self.listener.listen(MOST_CLIENTS)
        self.listener.setblocking(False)
        self.selector.register(self.listener, selectors.EVENT_READ)

    @staticmethod
    def _content(name):
        with open(os.path.join(HERE, name), "rb") as file:
            return file.read()

    def run(self):
        """Serves for ever."""
        while True:
            self.turn()

    def turn(self):
        # what came by now is answered before a client counts as idle, however long others took
        now = time.monotonic()
        for key, _ in self.selector.select(TURN_SECONDS):
            if key.fileobj is self.listener:
                self._accept()
            elif key.data.opened.fileno() >= 0:
                self._tend(key.data)
        self._send_events()
        for client in [client for client in self.clients.values() if now > client.until]:
            self._close(client)

    def _accept(self):
        with contextlib.suppress(OSError):
            opened, _ = self.listener.accept()
            opened.setblocking(False)
            # what the system keeps for it counts too
            opened.setsockopt(socket.SOL_SOCKET, socket.SO_SNDBUF, MOST_WAITING_BYTES)
            # a peer that vanishes closes nothing: if it acknowledges nothing for so long, the system ends the connection
            opened.setsockopt(socket.IPPROTO_TCP, socket.TCP_USER_TIMEOUT, round(1000 * IDLE_SECONDS))
            if len(self.clients) >= MOST_CLIENTS:
                opened.send(answer_of(503, TEXT, b"too many clients\n"))
                opened.close()
                return
            client = self.clients[opened.fileno()] = Client(opened)
            self.selector.register(opened, selectors.EVENT_READ, client)

    def _close(self, client):
        self.selector.unregister(client.opened)
        del self.clients[client.opened.fileno()]
        client.opened.close()

    def _tend(self, client):
        try:
            if client.waiting:
                self._write(client)
            else:
                self._read(client)
        except BlockingIOError:
            pass
        except OSError:
            self._close(client)

    def _read(self, client):
        piece = client.opened.recv(PIECE_BYTES)
        if not piece:
            self._close(client)
        elif client.is_asking:
            client.request += piece
            if b"\r\n\r\n" in client.request or len(client.request) > MOST_REQUEST_BYTES:
                client.is_asking = False
                self._put(client, self._answer(client))

    def _put(self, client, content):
        """What goes out; as long as some of it waits, the client is given nothing more."""
        client.waiting += content
        client.until = time.monotonic() + IDLE_SECONDS
        self.selector.modify(client.opened, selectors.EVENT_WRITE, client)

    def _write(self, client):
        count = client.opened.send(client.waiting)
        client.waiting = client.waiting[count:]
        client.until = time.monotonic() + IDLE_SECONDS
        if client.waiting:
            return
        if client.is_stream:
            client.until = float("inf")
            self.selector.modify(client.opened, selectors.EVENT_READ, client)
        else:
            self._close(client)

    # what is answered

    def _answer(self, client):
        head, end, _ = client.request.partition(b"\r\n\r\n")
        client.request = b""
        if not end:
            return answer_of(431, TEXT, b"the request is too long\n")
        request = request_of(head)
        if request is None:
            return answer_of(400, TEXT, b"no request of HTTP\n")
        if not self.names.allow(request, client.opened.getsockname()[0]):
            return answer_of(421, TEXT, b"this name isn't served here: see --name\n")
        if request.method not in ("GET", "HEAD"):
            return answer_of(405, TEXT, b"GET and HEAD alone\n", more=("Allow: GET, HEAD",))
        return self._page(client, request.path, request.method == "HEAD")

    def _page(self, client, path, is_head):
        if path in self.files:
            content, kind = self.files[path]
            return answer_of(200, kind, content, is_head)
        if path == "/events":
            client.is_stream = not is_head
            return head_of(200, "text/event-stream; charset=utf-8") + (b"" if is_head else self._event())
        with self.looking.asked():
            if path == "/status.json":
                return answer_of(200, "application/json; charset=utf-8", self.status.json(MOST_WAITING_BYTES), is_head)
            if path == "/metrics":
                return answer_of(200, OPENMETRICS, self.status.metrics(), is_head)
            if path == "/health":
                is_well, words = self.status.health()
                return answer_of(200 if is_well else 503, TEXT, f"{words}\n".encode("utf-8", "backslashreplace"), is_head)
        return answer_of(404, TEXT, b"there is no such page\n", is_head)

    def _event(self):
        with self.looking.asked():
            return b"data: " + self.status.json(MOST_WAITING_BYTES) + b"\n\n"

    def _send_events(self):
        """Sends how things are to all who took what they were sent before. Who is slow gets it later, and then as it is by then."""
        now, changes = time.monotonic(), self.looking.changes
        waited = now - self.sent_at
        if waited < (SOON_SECONDS if changes != self.sent_changes else LATE_SECONDS):
            return
        self.sent_at, self.sent_changes = now, changes
        ready = [client for client in self.clients.values() if client.is_stream and not client.waiting]
        if ready:
            event = self._event()
            for client in ready:
                self._put(client, event)
