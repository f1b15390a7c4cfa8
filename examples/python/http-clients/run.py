"""One host fails and hangs, and requests to the other go on."""

from __future__ import annotations

import sys
from concurrent.futures import ThreadPoolExecutor
from pathlib import Path
from typing import Any, Callable

import httpx
import requests

import bulkhead
from clients import Session, Transport, group_name
from recipe import Dependency, replay, say, scratch, until

HERE = Path(__file__).parent


def outcome(ask: Callable[[str], Any], url: str) -> str:
    """What a request comes to, as a word."""
    try:
        return str(ask(url).status_code)
    except bulkhead.CommandError as error:
        return type(error).__name__


def check(ask: Callable[[str], Any], service: bulkhead.CommandService, good: Dependency, bad: Dependency) -> None:
    """Has requests made to two hosts, of which one fails."""
    assert [outcome(ask, one.url + "/lamp") for one in (good, bad)] == ["200", "200"]
    assert outcome(ask, good.url + "/unicorn") == "404", "an answer that is no failure"
    with bad.down():
        told = [outcome(ask, bad.url + "/lamp") for _ in range(12)]
        assert set(told) == {"FailedResult", "ShortCircuited"} and told[-1] == "ShortCircuited", told
        assert outcome(ask, good.url + "/lamp") == "200", "the other host goes on"
    until(lambda: outcome(ask, bad.url + "/lamp") == "200", "the circuit closes")
    say(f"a host that is down is asked {told.count('FailedResult')} times of 12")


def fill(ask: Callable[[str], Any], good: Dependency, bad: Dependency) -> None:
    """Has more requests made to a host that hangs than its group has slots."""
    with bad.hanging(), ThreadPoolExecutor(12) as pool:
        told = sorted({*pool.map(lambda _: outcome(ask, bad.url + "/lamp"), range(12))})
        assert "GroupFull" in told and "TimedOut" in told, told
        assert outcome(ask, good.url + "/lamp") == "200", "the other host goes on"
    say(f"a host that hangs: {', '.join(told)}")


def main() -> None:
    """Runs it with both clients."""
    folder = scratch()
    for number, name in enumerate(("requests", "httpx")):
        good, bad = Dependency(), Dependency()
        with bulkhead.open(HERE / "settings.toml") as service:
            service.record(folder / f"record-{number}.jsonl", replies=folder / f"replies-{number}.jsonl")
            ask: Any = None
            if name == "requests":
                session = Session(service, "hosts")
                session.trust_env = False
                ask = session.get
            else:
                ask = httpx.Client(transport=Transport(service, "hosts"), trust_env=False).get
            check(ask, service, good, bad)
            fill(ask, good, bad)
            assert {group_name(good.url), group_name(bad.url)} <= {*service.metrics()}
    say(f"{replay(folder, 2)} records answer as they did")


if __name__ == "__main__":
    sys.exit(main())
