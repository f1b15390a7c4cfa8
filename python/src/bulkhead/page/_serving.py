"""The page's own server: few connections, short heads, and no longer than a while for each.

It is `http.server` of the standard library, which parses; what a client may take of time and room is bounded here.
"""

from __future__ import annotations

import io
import os
import socket
import sys
import threading
import time
from collections.abc import Iterable
from contextlib import suppress
from http.client import responses
from http.server import BaseHTTPRequestHandler, ThreadingHTTPServer
from typing import TYPE_CHECKING, Any, Optional
from weakref import WeakSet

from .._closing import Closing
from .._unraisable import tell_unraisable
from ..errors import Refused, Stopped
from ._endpoints import Answer, Asked, Endpoints, refusal
from ._watch import Watch, watch_of

if TYPE_CHECKING:
    from ..service import CommandService

# connections at one time, bytes of a head, and seconds to read a head or to write an answer
CONNECTIONS, HEAD_ROOM, PATIENCE = 16, 8192, 10.0
_END = b"\r\n\r\n"


class _TooLong(Exception):
    """A head is longer than it may be, or takes longer."""


class _Handler(BaseHTTPRequestHandler):
    """The requests of a connection, one after another."""

    protocol_version = "HTTP/1.1"
    server: _Server

    def setup(self) -> None:
        super().setup()
        self._ahead = b""

    def handle_one_request(self) -> None:
        """Reads a head within its time, and answers it."""
        self.close_connection = True
        try:
            head = self._head()
            if head is None:
                return
            self.rfile = io.BytesIO(head)
            self.raw_requestline = self.rfile.readline()
            if self.parse_request():
                self._send(self.server.endpoints.answer(self._asked()))
        except _TooLong as error:
            self._refuse(*error.args)
        except OSError:
            self.close_connection = True  # the client went, or was slow

    def _head(self) -> Optional[bytes]:
        """The bytes of a head, or None where the connection ends before one begins."""
        until, told = time.monotonic() + self.server.patience, self._ahead
        while (end := told.find(_END)) < 0:
            if len(told) > HEAD_ROOM:
                raise _TooLong(431, f"a head has at most {HEAD_ROOM} bytes")
            piece = self._piece(until)
            if piece is None and told:
                raise _TooLong(408, "the head took too long")
            if not piece:
                return None
            told += piece
        end += len(_END)
        if end > HEAD_ROOM:
            raise _TooLong(431, f"a head has at most {HEAD_ROOM} bytes")
        self._ahead = told[end:]
        return told[:end]

    def _piece(self, until: float) -> Optional[bytes]:
        """What the client sent, which is nothing where it ended; or None where it sent nothing in time."""
        left = until - time.monotonic()
        if left <= 0:
            return None
        self.connection.settimeout(left)
        try:
            piece: bytes = self.connection.recv(4096)
        except socket.timeout:
            return None
        return piece

    def _asked(self) -> Asked:
        hosts: list[str] = self.headers.get_all("Host", [])
        has_body = self.headers.get("Content-Length", "0") != "0" or "Transfer-Encoding" in self.headers
        host = hosts[0] if len(hosts) == 1 else None
        return Asked(self.command, self.path, host, self.headers.get("Sec-Fetch-Site"), has_body)

    def _send(self, answer: Answer) -> None:
        """Writes an answer within its time. Where it is a refusal the connection ends behind it."""
        if answer.status != 200:
            self.close_connection = True
        self.connection.settimeout(self.server.patience)  # of all that `sendall` sends
        self.connection.sendall(_bytes_of(answer, self.command != "HEAD", self.close_connection, self.date_time_string()))

    def _refuse(self, status: int, why: str) -> None:
        self.command = ""  # the head may not have been read
        with suppress(OSError):
            self._send(refusal(status, why))

    # what the base class calls

    def handle_expect_100(self) -> bool:
        return True  # a request with a body is refused

    def send_error(self, code: int, message: Optional[str] = None, explain: Optional[str] = None) -> None:
        self._refuse(code, message if message else str(responses.get(code, "no request of HTTP")))

    def log_message(self, *_: Any) -> None:
        """Nothing is written anywhere."""


def _bytes_of(answer: Answer, has_body: bool, is_last: bool, date: str) -> bytes:
    lines = [
        f"HTTP/1.1 {answer.status} {responses.get(answer.status, 'Refused')}",
        "Server: bulkhead",
        f"Date: {date}",
        f"Content-Length: {len(answer.body)}",
        f"Connection: {'close' if is_last else 'keep-alive'}",
        *(f"{name}: {value}" for name, value in answer.headers),
    ]
    head = "\r\n".join(lines).encode("latin-1") + _END
    return head + answer.body if has_body else head


class _Server(ThreadingHTTPServer):
    """The listening socket, with a thread for each connection."""

    daemon_threads, block_on_close, request_queue_size = True, False, CONNECTIONS

    def __init__(self, address: tuple[str, int], endpoints: Endpoints, patience: float) -> None:
        self.endpoints, self.patience = endpoints, patience
        self.address_family = socket.AF_INET6 if ":" in address[0] else socket.AF_INET
        # the connections that are open, each with its thread
        self._open: dict[socket.socket, threading.Thread] = {}
        self._opening = threading.Lock()
        super().__init__(address, _Handler)

    def server_bind(self) -> None:
        """Binds the socket. The base class would look up the name of the machine, which may take long."""
        self.socket.setsockopt(socket.SOL_SOCKET, socket.SO_REUSEADDR, 1)
        self.socket.bind(self.server_address)
        self.server_address = self.socket.getsockname()

    def process_request(self, request: Any, client_address: Any) -> None:
        """Gives a connection a thread, or where there are too many refuses it."""
        thread = threading.Thread(
            target=self._work, args=(request, client_address), name="bulkhead-page-connection", daemon=True
        )
        with self._opening:
            has_room = len(self._open) < CONNECTIONS
            if has_room:
                self._open[request] = thread
        if has_room:
            thread.start()
            return
        request.settimeout(0)
        with suppress(OSError):
            request.sendall(_bytes_of(refusal(503, f"{CONNECTIONS} connections are open"), True, True, _now()))
        self.shutdown_request(request)

    def _work(self, request: Any, client_address: Any) -> None:
        try:
            self.process_request_thread(request, client_address)
        finally:
            with self._opening:
                self._open.pop(request, None)

    def handle_error(self, request: Any, client_address: Any) -> None:
        """Tells of an error that no client brings about."""
        error = sys.exc_info()[1]
        if isinstance(error, Exception) and not isinstance(error, OSError):
            tell_unraisable(error, self)

    def end_connections(self) -> None:
        """Ends each connection, and waits for its thread."""
        with self._opening:
            open_now = [*self._open.items()]
        for connection, thread in open_now:
            with suppress(OSError):
                connection.shutdown(socket.SHUT_RDWR)
            thread.join(self.patience)


def _now() -> str:
    return time.strftime("%a, %d %b %Y %H:%M:%S GMT", time.gmtime())


class MetricsServer(Closing):
    """The page and the endpoints of a service at a port, until it is closed. `service.serve_metrics` gives it."""

    def __init__(
        self, watch: Watch, port: int, address: str, hosts: Iterable[str], patience: float = PATIENCE, owner: object = None
    ) -> None:
        if type(port) is not int or not 0 <= port < 1 << 16:
            raise Refused(f"a port is a whole number of 0 to 65535, and not {port!r}")
        # a service that is dropped is closed, so its server keeps it
        self.watch, self.address, self._process, self._owner = watch, address, os.getpid(), owner
        self._server = _Server((address, port), Endpoints(watch, hosts), patience)
        self.port: int = self._server.server_address[1]
        self._thread = threading.Thread(
            target=self._server.serve_forever, args=(0.1,), name="bulkhead-page", daemon=True
        )
        self._thread.start()
        _servers.add(self)

    @property
    def url(self) -> str:
        """Where the page is."""
        host = f"[{self.address}]" if ":" in self.address else self.address
        return f"http://{host}:{self.port}/"

    def close(self) -> None:
        """Gives the port back, ends all connections, and waits for their threads."""
        if self._process == os.getpid() and self in _servers:
            _servers.discard(self)
            self._server.shutdown()
            self._server.server_close()
            self._server.end_connections()
            self._thread.join()

    def forget(self) -> None:
        """In a forked process: the port is the parent's alone."""
        with suppress(OSError):
            self._server.socket.close()


_servers: WeakSet[MetricsServer] = WeakSet()


def _forget_all() -> None:
    for server in [*_servers]:
        server.forget()
    _servers.clear()


if hasattr(os, "register_at_fork"):
    os.register_at_fork(after_in_child=_forget_all)


def serve(service: CommandService, port: int, address: str = "127.0.0.1", hosts: Iterable[str] = ()) -> MetricsServer:
    """The page of a service at a port, as `service.serve_metrics` has it."""
    if not service.turns.is_open:
        raise Stopped("the service is closed")
    return MetricsServer(watch_of(service), port, address, hosts, owner=service)
