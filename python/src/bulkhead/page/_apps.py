"""The page within a server that runs already, by ASGI or by WSGI. Connections and heads are bounded by that server."""

from __future__ import annotations

import asyncio
from collections.abc import Awaitable, Callable, Iterable, MutableMapping
from http.client import responses
from typing import TYPE_CHECKING, Any
from urllib.parse import quote

from ..errors import Stopped
from ._endpoints import Answer, Asked, Endpoints, refusal
from ._watch import watch_of

if TYPE_CHECKING:
    from ..service import CommandService

Scope = MutableMapping[str, Any]
Receive = Callable[[], Awaitable[MutableMapping[str, Any]]]
Send = Callable[[MutableMapping[str, Any]], Awaitable[None]]
StartResponse = Callable[..., Any]


def app(service: CommandService, hosts: Iterable[str] = ()) -> App:
    """The page and the endpoints of a service as an application of ASGI and of WSGI.

    A request has to name an address, "localhost" or one of `hosts` as its Host. Raises `Stopped` after the service's end.
    """
    if not service.turns.is_open:
        raise Stopped("the service is closed")
    return App(service, hosts)


class App:
    """An application that `app` gives. It may be called either way; `asgi` and `wsgi` are for servers that look which it is."""

    def __init__(self, service: CommandService, hosts: Iterable[str] = ()) -> None:
        self._service, self.watch = service, watch_of(service)
        self._endpoints = Endpoints(self.watch, hosts)

    def __call__(self, *given: Any) -> Any:
        """`(scope, receive, send)` by ASGI, or `(environ, start_response)` by WSGI."""
        return self.asgi(*given) if len(given) == 3 else self.wsgi(*given)

    # -- WSGI

    def wsgi(self, environ: dict[str, Any], start_response: StartResponse) -> list[bytes]:
        """The application by WSGI."""
        asked = _asked_by_wsgi(environ)
        answer = self._endpoints.answer(asked) if asked.target else _moved(environ["SCRIPT_NAME"])
        status = f"{answer.status} {responses.get(answer.status, 'Refused')}"
        start_response(status, [*answer.headers, ("Content-Length", str(len(answer.body)))])
        return [] if environ["REQUEST_METHOD"] == "HEAD" else [answer.body]

    # -- ASGI

    async def asgi(self, scope: Scope, receive: Receive, send: Send) -> None:
        """The application by ASGI."""
        if scope["type"] == "lifespan":
            await _live(receive, send)
        elif scope["type"] == "http":
            # a body of many commands takes a while, for which the loop does not wait
            asked = _asked_by_asgi(scope)
            if asked.target:
                answer = await asyncio.get_running_loop().run_in_executor(None, self._endpoints.answer, asked)
            else:
                answer = _moved(scope["root_path"])
            await _send(answer, asked.method, send)
        else:
            await send({"type": "websocket.close", "code": 1000})


def _asked_by_wsgi(environ: dict[str, Any]) -> Asked:
    path = environ.get("PATH_INFO") or ("" if environ.get("SCRIPT_NAME") else "/")
    has_body = environ.get("CONTENT_LENGTH") not in (None, "", "0") or "HTTP_TRANSFER_ENCODING" in environ
    site, host = environ.get("HTTP_SEC_FETCH_SITE"), environ.get("HTTP_HOST")
    target = _target(path, environ.get("QUERY_STRING", ""))
    return Asked(environ["REQUEST_METHOD"], target, host, site, has_body)


def _asked_by_asgi(scope: Scope) -> Asked:
    named: dict[str, list[str]] = {}
    for name, value in scope["headers"]:
        named.setdefault(name.decode("latin-1").lower(), []).append(value.decode("latin-1"))
    path, root = scope["path"], scope.get("root_path", "")
    if root and path.startswith(root):
        path = path[len(root) :]
    hosts, sites = named.get("host", []), named.get("sec-fetch-site", [None])  # type: ignore[list-item]
    has_body = named.get("content-length", ["0"]) != ["0"] or "transfer-encoding" in named
    target = _target(path, scope.get("query_string", b"").decode("latin-1"))
    return Asked(scope["method"], target, hosts[0] if len(hosts) == 1 else None, sites[0], has_body)


def _target(path: str, query: str) -> str:
    """The target in its own form: where an application is mounted, what stands behind its place. It may be empty there."""
    told = quote("/" + path.lstrip("/"), errors="replace") if path else ""
    return f"{told}?{query}" if query and told else told


def _moved(place: str) -> Answer:
    """The page reads what lies beside it, and so its own address ends by a slash."""
    return refusal(308, "the page is at an address that ends by a slash", ("Location", quote(f"/{place.strip('/')}/")))


async def _send(answer: Answer, method: str, send: Send) -> None:
    headers = [(name.lower().encode(), value.encode("latin-1")) for name, value in answer.headers]
    headers.append((b"content-length", str(len(answer.body)).encode()))
    await send({"type": "http.response.start", "status": answer.status, "headers": headers})
    await send({"type": "http.response.body", "body": b"" if method == "HEAD" else answer.body})


async def _live(receive: Receive, send: Send) -> None:
    while True:
        told = (await receive())["type"]
        await send({"type": f"{told}.complete"})
        if told == "lifespan.shutdown":
            return

