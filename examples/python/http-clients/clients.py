"""HTTP clients whose requests are commands: each host has a group of its own, so that one host cannot disturb another."""

from __future__ import annotations

import re
import threading
from typing import Any
from urllib.parse import urlsplit

import httpx
import requests

import bulkhead


def fails(response: Any) -> bool:
    """Whether a response is a failure of its host. A status such as 404 is an answer."""
    return bool(response.status_code >= 500)


class Hosts:
    """The groups of hosts, each of which is registered with its first request."""

    def __init__(self, service: bulkhead.CommandService, like: str, send: Any) -> None:
        self._service, self._like, self._lock = service, like, threading.Lock()
        self._send = service.command(like, failed_result=fails)(send)
        self._known: dict[str, Any] = {}

    def of(self, url: str) -> Any:
        """What sends a request to the host of a URL."""
        name = group_name(url)
        command = self._known.get(name)
        if command is None:
            with self._lock:
                if name not in self._known:
                    self._service.register(name, like=self._like)
                    self._known[name] = self._send.of(name)
                command = self._known[name]
        return command


def group_name(url: str) -> str:
    """The group of a URL's host: such a name has letters, digits, hyphens and underscores, 32 at most."""
    return re.sub(r"[^A-Za-z0-9_-]", "-", urlsplit(url).netloc)[-32:]


class Session(requests.Session):
    """A session of `requests`, each request of which is a command of its host.

    It raises what a command raises: `GroupFull` and other refusals, `TimedOut`, and `FailedResult` with the response.
    """

    def __init__(self, service: bulkhead.CommandService, like: str) -> None:
        super().__init__()
        self._hosts = Hosts(service, like, super().send)

    def send(self, request: requests.PreparedRequest, **options: Any) -> requests.Response:
        response: requests.Response = self._hosts.of(request.url or "")(request, **options)
        return response


class Transport(httpx.BaseTransport):
    """The same for a client of `httpx`: `httpx.Client(transport=Transport(service, "hosts"))`."""

    def __init__(self, service: bulkhead.CommandService, like: str) -> None:
        self._inner = httpx.HTTPTransport()
        self._hosts = Hosts(service, like, self._inner.handle_request)

    def handle_request(self, request: httpx.Request) -> httpx.Response:
        response: httpx.Response = self._hosts.of(str(request.url))(request)
        return response
