"""What is answered to a request, whichever server took it: nothing that is asked here changes anything."""

from __future__ import annotations

import ipaddress
import re
from base64 import b64encode
from collections.abc import Iterable
from functools import lru_cache
from hashlib import sha256
from pathlib import Path
from typing import NamedTuple, Optional
from urllib.parse import parse_qs, urlsplit

from ._hystrix import stream
from ._state import metrics_text, state_json
from ._watch import FRESH_MS, Watch

_COLUMN = re.compile("[0-9]{1,15}")
# a name or an address, and perhaps a port
_HOST = re.compile(r"(\[[0-9A-Fa-f:.]+\]|[^][:/@?#\s]+)(?::[0-9]*)?")
_PLAIN = "text/plain; charset=utf-8"
_HEADERS = (
    ("Cache-Control", "no-store"),
    ("X-Content-Type-Options", "nosniff"),
    ("Cross-Origin-Resource-Policy", "same-origin"),
    ("Referrer-Policy", "no-referrer"),
)


class Asked(NamedTuple):
    """A request: its target as it stands in its first line, and the two fields that tell where it comes from."""

    method: str
    target: str
    host: Optional[str]
    site: Optional[str] = None
    has_body: bool = False


class Answer(NamedTuple):
    """An answer, whose body is sent unless the request was a HEAD."""

    status: int
    headers: tuple[tuple[str, str], ...]
    body: bytes


class Endpoints:
    """What there is to read of a service."""

    def __init__(self, watch: Watch, hosts: Iterable[str] = (), name: str = "") -> None:
        self.watch, self._name = watch, name
        self._hosts = frozenset(host.lower() for host in ((hosts,) if isinstance(hosts, str) else hosts))

    def answer(self, asked: Asked) -> Answer:
        """The answer to a request. Raises nothing that a request brings about."""
        if asked.method not in ("GET", "HEAD"):
            return refusal(405, "only GET and HEAD: nothing here changes anything", ("Allow", "GET, HEAD"))
        if asked.has_body:
            return refusal(400, "a GET has no body here")
        try:
            url = urlsplit(asked.target)
        except ValueError:
            return refusal(400, "the target is none")
        # a target in absolute form has a host of its own, which counts in place of the field
        if not is_own_host(url.netloc or asked.host, self._hosts):
            return refusal(421, "the Host is no address, not localhost, and none of hosts=")
        if url.path != "/" and (asked.site or "none") not in ("none", "same-origin"):
            return refusal(403, "asked for by a page of another site")
        self.watch.keep_on()
        return self._found(url.path, url.query)

    def _found(self, path: str, query: str) -> Answer:
        if path == "/":
            return _page()
        if path == "/state.json":
            return self._state(query)
        if path == "/metrics":
            return _read("text/plain; version=0.0.4; charset=utf-8", metrics_text(self.watch))
        if path == "/hystrix.stream":
            return _read("text/event-stream; charset=utf-8", stream(self.watch))
        if path == "/healthz":
            return self._health()
        return refusal(404, "there are /, /state.json, /metrics, /hystrix.stream and /healthz")

    def _state(self, query: str) -> Answer:
        since = parse_qs(query, keep_blank_values=True).get("from", ["0"])[0]
        if not _COLUMN.fullmatch(since):
            return refusal(400, "from is no number of a column")
        return _read("application/json", state_json(self.watch, int(since), self._name))

    def _health(self) -> Answer:
        age = self.watch.age()
        if age < FRESH_MS:
            return _read(_PLAIN, b"ok\n")
        return refusal(503, f"the last look is {age} ms old")


def refusal(status: int, why: str, *more: tuple[str, str]) -> Answer:
    """An answer that tells why there is no other."""
    return Answer(status, (("Content-Type", _PLAIN), *_HEADERS, *more), f"{why}\n".encode(errors="replace"))


def _read(kind: str, body: bytes) -> Answer:
    return Answer(200, (("Content-Type", kind), *_HEADERS), body)


@lru_cache(maxsize=1)
def _page() -> Answer:
    page = path().read_bytes()
    headers = (
        ("Content-Type", "text/html; charset=utf-8"),
        ("Content-Security-Policy", policy(page)),
        ("X-Frame-Options", "DENY"),
        ("Cache-Control", "no-cache"),
        *_HEADERS[1:],
    )
    return Answer(200, headers, page)


def path() -> Path:
    """Where the page lies: beside this file, or where the repository has it."""
    here = Path(__file__).resolve()
    beside = here.with_name("index.html")
    return beside if beside.exists() else here.parents[4] / "page" / "index.html"


def policy(page: bytes) -> str:
    """The policy of the page: its one script and its one style by their hashes, and what it reads from where it came."""
    script, style = (_hash_of(page, tag) for tag in (b"script", b"style"))
    return (
        f"default-src 'none'; script-src '{script}'; style-src '{style}'; connect-src 'self'; img-src data:; base-uri 'none'; "
        "form-action 'none'; frame-ancestors 'none'; require-trusted-types-for 'script'; trusted-types 'none'"
    )


def _hash_of(page: bytes, tag: bytes) -> str:
    found = re.search(b"<%s>(.*?)</%s>" % (tag, tag), page, re.S)
    assert found is not None, "the page has the element"
    return f"sha256-{b64encode(sha256(found[1]).digest()).decode()}"


def is_own_host(host: Optional[str], names: frozenset[str]) -> bool:
    """Whether a Host is an address, "localhost" or one of the names.

    A page of another site that had its name lead here has a name in Host, and no address.
    """
    told = _HOST.fullmatch(host or "")
    if told is None:
        return False
    name = told[1].strip("[]").lower()
    if name == "localhost" or name in names:
        return True
    try:
        ipaddress.ip_address(name)
    except ValueError:
        return False
    return True
