"""What the tests of the page share: a watch whose clock a test moves, and a client that says what it wants."""

from __future__ import annotations

import http.client
import json
import socket
from typing import Any, NamedTuple, Optional

from bulkhead.page import MetricsServer
from bulkhead.page._watch import Watch
from played import World
from support import Case


class Reply(NamedTuple):
    """What came back: the status, the headers in small letters, and the body."""

    status: int
    headers: dict[str, str]
    body: bytes

    @property
    def json(self) -> Any:
        return json.loads(self.body)


class PageCase(Case):
    """A test with a page before a world that is played."""

    def watched(self, commands: int = 4, upto: int = 0, **options: Any) -> tuple[World, Watch]:
        """A world, and a watch that looked at each second of it."""
        world = World(commands, **options)
        watch = Watch(world, is_ticking=False)
        self.play(world, watch, upto)
        return world, watch

    def play(self, world: World, watch: Watch, upto: int) -> None:
        """Goes on to a second, with a look at each."""
        for second in range(world.moment // 1000 + 1, upto + 1):
            world.advance(second * 1000)
            watch.look()

    def served(self, watch: Watch, patience: float = 10.0, **options: Any) -> MetricsServer:
        """A server at a free port."""
        server = MetricsServer(watch, 0, "127.0.0.1", options.pop("hosts", ()), patience, **options)
        self.addCleanup(server.close)
        return server

    def ask(
        self, server: MetricsServer, path: str, method: str = "GET", host: Optional[str] = "127.0.0.1", **headers: str
    ) -> Reply:
        """Asks for a path. In names of headers an underscore stands for a hyphen."""
        connection = http.client.HTTPConnection("127.0.0.1", server.port, timeout=10)
        self.addCleanup(connection.close)
        connection.putrequest(method, path, skip_host=True)
        for name, value in {"Host": host, **{name.replace("_", "-"): value for name, value in headers.items()}}.items():
            if value is not None:
                connection.putheader(name, value)
        connection.endheaders()
        answer = connection.getresponse()
        told = Reply(answer.status, {name.lower(): value for name, value in answer.getheaders()}, answer.read())
        connection.close()
        return told

    def raw(self, server: MetricsServer, sent: bytes) -> socket.socket:
        """A connection on which some bytes were sent."""
        connection = socket.create_connection(("127.0.0.1", server.port), timeout=10)
        self.addCleanup(connection.close)
        connection.sendall(sent)
        return connection

    def rest(self, connection: socket.socket) -> bytes:
        """All that comes until the end."""
        told = b""
        try:
            while piece := connection.recv(65536):
                told += piece
        except ConnectionResetError:
            pass
        return told
