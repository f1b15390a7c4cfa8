"""The server of a page: each endpoint, and each request that is refused."""

from __future__ import annotations

import asyncio
import socket
import threading
from typing import Any

import bulkhead
from bulkhead.page import App, MetricsServer
from bulkhead.page._endpoints import Endpoints
from bulkhead.page._serving import CONNECTIONS, HEAD_ROOM
from page_support import PageCase

PATHS = ("/", "/state.json", "/metrics", "/hystrix.stream", "/healthz")
FIELDS = b"Host: 127.0.0.1\r\n\r\n"


class Endpoint(PageCase):
    def setUp(self) -> None:
        self.world, self.watch = self.watched(upto=58)
        self.server = self.served(self.watch)

    def test_each_endpoint_has_its_kind(self) -> None:
        for path, kind in zip(PATHS, ("text/html", "application/json", "text/plain; version=0.0.4", "text/event-stream", "text/plain")):
            told = self.ask(self.server, path)
            self.assertEqual((told.status, told.headers["content-type"].startswith(kind)), (200, True), path)
            self.assertEqual(told.headers["x-content-type-options"], "nosniff")
            self.assertIn(told.headers["cache-control"], ("no-store", "no-cache"))
            self.assertNotIn("access-control-allow-origin", told.headers)

    def test_a_head_has_no_body_and_the_same_length(self) -> None:
        for path in PATHS:
            told, whole = self.ask(self.server, path, "HEAD"), self.ask(self.server, path)
            self.assertEqual((told.status, told.body, told.headers["content-length"]), (200, b"", str(len(whole.body))), path)

    def test_the_page_has_a_policy(self) -> None:
        policy = self.ask(self.server, "/").headers["content-security-policy"]
        for part in ("default-src 'none'", "frame-ancestors 'none'", "connect-src 'self'", "script-src 'sha256-"):
            self.assertIn(part, policy)
        self.assertNotIn("unsafe", policy)

    def test_columns_from_a_number_on(self) -> None:
        whole = self.ask(self.server, "/state.json").json
        later = self.ask(self.server, "/state.json?from=57").json
        self.assertEqual((whole["columns"]["first"], later["columns"]["first"], later["columns"]["next"]), (0, 57, 58))
        self.assertEqual(later["run"], whole["run"])
        for wrong in ("-1", "x", "1e3", "9" * 30, "1%00", ""):
            self.assertEqual(self.ask(self.server, f"/state.json?from={wrong}").status, 400, wrong)

    def test_health_goes_by_the_age_of_the_last_look(self) -> None:
        self.world.advance(62_999)
        self.assertEqual(self.ask(self.server, "/healthz").status, 200)
        self.world.advance(63_000)
        told = self.ask(self.server, "/healthz")
        self.assertEqual((told.status, told.body), (503, b"the last look is 5000 ms old\n"))
        self.watch.look()
        self.assertEqual(self.ask(self.server, "/healthz").body, b"ok\n")

    def test_no_request_looks_or_makes_a_step(self) -> None:
        before = [(one.counters.counted(), one.circuit) for group in self.world.groups for one in group.commands]
        self.world.look = lambda: self.fail("a request looked")  # type: ignore[method-assign]
        for path in PATHS:
            self.assertEqual(self.ask(self.server, path).status, 200)
        after = [(one.counters.counted(), one.circuit) for group in self.world.groups for one in group.commands]
        self.assertEqual(before, after)

    def test_other_paths_are_not_there(self) -> None:
        for path in ("/nothing", "/../etc/passwd", "/index.html", "/state.json/", "//metrics/x"):
            self.assertIn(self.ask(self.server, path).status, (404, 421), path)


class Refused(PageCase):
    def setUp(self) -> None:
        _, self.watch = self.watched(upto=3)
        self.server = self.served(self.watch, hosts=["Shop.example"])

    def test_other_methods_are_refused(self) -> None:
        for path in PATHS:
            for method in ("POST", "PUT", "DELETE", "PATCH", "OPTIONS", "TRACE", "CONNECT", "get"):
                told = self.ask(self.server, path, method)
                self.assertEqual((told.status, told.headers["allow"]), (405, "GET, HEAD"), (path, method))

    def test_a_request_with_a_body_is_refused(self) -> None:
        for field in (b"Content-Length: 5", b"Transfer-Encoding: chunked"):
            rest = self.rest(self.raw(self.server, b"GET /healthz HTTP/1.1\r\n" + field + b"\r\n" + FIELDS + b"GET /metrics"))
            self.assertTrue(rest.startswith(b"HTTP/1.1 400 "), rest)
            self.assertEqual(rest.count(b"HTTP/1.1"), 1)

    def test_a_host_of_a_foreign_name_is_refused(self) -> None:
        for host in ("evil.example", "evil.example:80", f"127.0.0.1.evil.example:{self.server.port}", "", "localhost@evil", "[", "a b", None):
            for path in PATHS:
                self.assertEqual(self.ask(self.server, path, host=host).status, 421, host)

    def test_addresses_localhost_and_listed_names_are_ones_own(self) -> None:
        for host in ("localhost", f"LOCALHOST:{self.server.port}", "[::1]", "[::1]:80", "10.1.2.3:9000", "shop.EXAMPLE", "shop.example:443"):
            self.assertEqual(self.ask(self.server, "/healthz", host=host).status, 200, host)

    def test_two_hosts_are_none(self) -> None:
        rest = self.rest(self.raw(self.server, b"GET /healthz HTTP/1.1\r\nHost: localhost\r\n" + FIELDS))
        self.assertTrue(rest.startswith(b"HTTP/1.1 421 "), rest)

    def test_the_host_of_an_absolute_target_counts(self) -> None:
        self.assertEqual(self.ask(self.server, "http://evil.example/state.json").status, 421)
        self.assertEqual(self.ask(self.server, "http://localhost/state.json", host="evil.example").status, 200)

    def test_a_page_of_another_site_reads_nothing(self) -> None:
        for site in ("cross-site", "same-site", "odd"):
            for path in PATHS[1:]:
                self.assertEqual(self.ask(self.server, path, Sec_Fetch_Site=site).status, 403, (site, path))
        for site in ("same-origin", "none"):
            self.assertEqual(self.ask(self.server, "/state.json", Sec_Fetch_Site=site).status, 200)
        self.assertEqual(self.ask(self.server, "/", Sec_Fetch_Site="cross-site").status, 200, "a link leads to the page")

    def test_a_long_head_is_refused(self) -> None:
        rest = self.rest(self.raw(self.server, b"GET / HTTP/1.1\r\nA: " + b"a" * HEAD_ROOM + b"\r\n" + FIELDS))
        self.assertTrue(rest.startswith(b"HTTP/1.1 431 "), rest[:80])
        rest = self.rest(self.raw(self.server, b"GET /" + b"a" * HEAD_ROOM * 2))
        self.assertTrue(not rest or rest.startswith(b"HTTP/1.1 431 "), rest[:80])
        self.assertEqual(self.ask(self.server, "/healthz", A="a" * (HEAD_ROOM - 200)).status, 200)

    def test_what_is_no_request_is_refused(self) -> None:
        for sent in (b"\x16\x03\x01\x02\x00\r\n\r\n", b"GET\r\n\r\n", b"GET / HTTP/9.9\r\n\r\n", b"GET / HTTP/1.1\r\nno field\r\n\r\n"):
            rest = self.rest(self.raw(self.server, sent))
            self.assertNotIn(b" 200 ", rest, sent)
        self.assertEqual(self.ask(self.server, "/healthz").status, 200)


class Connections(PageCase):
    def setUp(self) -> None:
        _, self.watch = self.watched(upto=3)

    def test_a_connection_takes_request_after_request(self) -> None:
        server = self.served(self.watch)
        connection = self.raw(server, (b"GET /healthz HTTP/1.1\r\n" + FIELDS) * 3 + b"GET /no HTTP/1.1\r\n" + FIELDS)
        rest = self.rest(connection)
        self.assertEqual((rest.count(b"HTTP/1.1 200 OK"), rest.count(b"HTTP/1.1 404 ")), (3, 1))

    def test_a_head_that_is_not_sent_in_time_ends_the_connection(self) -> None:
        server = self.served(self.watch, patience=0.05)
        self.assertEqual(self.rest(self.raw(server, b"")), b"")
        self.assertTrue(self.rest(self.raw(server, b"GET / HT")).startswith(b"HTTP/1.1 408 "))

    def test_a_reader_that_does_not_read_ends_in_time(self) -> None:
        server = self.served(self.watch, patience=0.05)
        slow = socket.socket()
        self.addCleanup(slow.close)
        slow.setsockopt(socket.SOL_SOCKET, socket.SO_RCVBUF, 1024)
        slow.connect(("127.0.0.1", server.port))
        slow.sendall((b"GET / HTTP/1.1\r\n" + FIELDS) * 80)
        self.until(lambda: not server._server._open)
        self.assertEqual(self.ask(self.served(self.watch), "/healthz").status, 200)

    def test_more_than_sixteen_are_refused_until_one_ends(self) -> None:
        server = self.served(self.watch)
        idle = [self.raw(server, b"GET") for _ in range(CONNECTIONS)]
        self.until(lambda: len(server._server._open) == CONNECTIONS)
        rest = self.rest(self.raw(server, b""))
        self.assertTrue(rest.startswith(b"HTTP/1.1 503 "), rest)
        idle[0].close()
        self.until(lambda: len(server._server._open) < CONNECTIONS)
        self.assertEqual(self.ask(server, "/healthz").status, 200)

    def test_idle_connections_hold_nobody_up(self) -> None:
        server = self.served(self.watch)
        for number in range(8):
            self.raw(server, b"GET /hystrix.stream HTTP/1.1\r\n" + FIELDS if number % 2 else b"")
        self.assertEqual({self.ask(server, "/state.json").status for _ in range(20)}, {200})

    def test_its_end_gives_the_port_back_and_ends_connections(self) -> None:
        threads = threading.active_count()
        with MetricsServer(self.watch, 0, "127.0.0.1", ()) as server:
            idle = self.raw(server, b"GET")
            self.until(lambda: server._server._open)
            port = server.port
        self.assertEqual(self.rest(idle), b"")
        self.assertEqual(threading.active_count(), threads)
        server.close()
        with socket.socket() as again:
            again.setsockopt(socket.SOL_SOCKET, socket.SO_REUSEADDR, 1)
            again.bind(("127.0.0.1", port))

    def test_a_port_that_is_none_or_taken_is_told(self) -> None:
        server = self.served(self.watch)
        for port in (-1, 65_536, "80", True, None):
            with self.assertRaises(bulkhead.Refused, msg=port):
                MetricsServer(self.watch, port, "127.0.0.1", ())  # type: ignore[arg-type]
        with self.assertRaises(OSError):
            MetricsServer(self.watch, server.port, "127.0.0.1", ())
        self.assertEqual(server.url, f"http://127.0.0.1:{server.port}/")

    def test_an_error_within_is_told_and_the_server_goes_on(self) -> None:
        hooked, server = self.hooked(), self.served(self.watch)
        self.watch.keep_on = lambda: 1 // 0  # type: ignore[assignment, method-assign]
        self.assertEqual(self.rest(self.raw(server, b"GET /healthz HTTP/1.1\r\n" + FIELDS)), b"")
        del self.watch.keep_on
        self.assertEqual((self.ask(server, "/healthz").status, [one.exc_type for one in hooked]), (200, [ZeroDivisionError]))


class Apps(PageCase):
    """The same within another server, by the two protocols."""

    def setUp(self) -> None:
        _, self.watch = self.watched(upto=3)
        self.app = App.__new__(App)
        self.app._endpoints = Endpoints(self.watch, ["shop.example"])

    def wsgi(self, path: str, method: str = "GET", **environ: str) -> tuple[str, dict[str, str], bytes]:
        told: list[Any] = []
        given = {"REQUEST_METHOD": method, "PATH_INFO": path, "HTTP_HOST": "shop.example", "QUERY_STRING": "", **environ}
        body = b"".join(self.app(given, lambda *answer: told.extend(answer)))
        return told[0], dict(told[1]), body

    def asgi(self, path: str, method: str = "GET", host: str = "shop.example", **more: Any) -> tuple[int, dict[str, str], bytes]:
        sent: list[Any] = []
        scope = {"type": "http", "method": method, "path": path, "query_string": b"", "headers": [(b"host", host.encode())], **more}

        async def receive() -> Any:
            return {"type": "http.request"}

        async def send(message: Any) -> None:
            sent.append(message)

        asyncio.run(self.app(scope, receive, send))
        headers = {name.decode(): value.decode() for name, value in sent[0]["headers"]}
        return sent[0]["status"], headers, sent[1]["body"]

    def test_by_wsgi(self) -> None:
        status, headers, body = self.wsgi("/metrics")
        self.assertEqual((status, headers["Content-Length"]), ("200 OK", str(len(body))))
        self.assertEqual(self.wsgi("/metrics", "HEAD")[2], b"")
        self.assertEqual(self.wsgi("/state.json", QUERY_STRING="from=2")[0], "200 OK")
        self.assertEqual(self.wsgi("/state.json", QUERY_STRING="from=x")[0], "400 Bad Request")
        self.assertEqual(self.wsgi("/metrics", "POST")[0], "405 Method Not Allowed")
        self.assertEqual(self.wsgi("/metrics", HTTP_HOST="evil.example")[0], "421 Misdirected Request")
        self.assertEqual(self.wsgi("/metrics", HTTP_SEC_FETCH_SITE="cross-site")[0], "403 Forbidden")

    def test_by_asgi(self) -> None:
        status, headers, body = self.asgi("/metrics")
        self.assertEqual((status, headers["content-length"]), (200, str(len(body))))
        self.assertEqual(self.asgi("/metrics", "HEAD")[2], b"")
        self.assertEqual(self.asgi("/state.json", query_string=b"from=x")[0], 400)
        self.assertEqual((self.asgi("/metrics", "POST")[0], self.asgi("/metrics", host="evil.example")[0]), (405, 421))
        site = [(b"host", b"localhost"), (b"sec-fetch-site", b"cross-site")]
        self.assertEqual((self.asgi("/metrics", headers=site)[0], self.asgi("/metrics", headers=[])[0]), (403, 421))

    def test_where_it_is_mounted_it_goes_by_what_stands_behind_its_place(self) -> None:
        self.assertEqual(self.wsgi("/healthz", SCRIPT_NAME="/bulkhead")[0], "200 OK")
        self.assertEqual(self.asgi("/bulkhead/healthz", root_path="/bulkhead")[0], 200)
        status, headers, _ = self.wsgi("", SCRIPT_NAME="/in/bulkhead")
        self.assertEqual((status, headers["Location"]), ("308 Permanent Redirect", "/in/bulkhead/"))
        status, headers, _ = self.asgi("/in/bulkhead", root_path="/in/bulkhead")
        self.assertEqual((status, headers["location"]), (308, "/in/bulkhead/"))
        self.assertEqual((self.wsgi("")[0], self.wsgi("/", SCRIPT_NAME="/bulkhead")[0]), ("200 OK", "200 OK"))

    def test_the_life_of_a_server_is_followed(self) -> None:
        sent: list[Any] = []
        asked = iter([{"type": "lifespan.startup"}, {"type": "lifespan.shutdown"}])

        async def receive() -> Any:
            return next(asked)

        async def send(message: Any) -> None:
            sent.append(message["type"])

        asyncio.run(self.app({"type": "lifespan"}, receive, send))
        asyncio.run(self.app({"type": "websocket"}, receive, send))
        self.assertEqual(sent, ["lifespan.startup.complete", "lifespan.shutdown.complete", "websocket.close"])
