"""Baskets of a catalog that hangs, fails and comes back, and 200 of them at once."""

from __future__ import annotations

import sys
import time
from collections import Counter
from pathlib import Path
from typing import Any

from recipe import Dependency, free_port, get, load, program, replay, say, scratch, until

HERE = Path(__file__).parent


def whys(answers: list[tuple[int, Any]]) -> Counter[str]:
    """How many items had a price, and why the others had none."""
    assert {status for status, _ in answers} == {200}, Counter(status for status, _ in answers)
    return Counter(item.get("why", "price") for _, basket in answers for item in basket)


def share_answers(url: str, dependency: Dependency) -> None:
    """Equal items of a basket are asked for once, and those of two baskets twice."""
    for times in (1, 2):
        assert whys([get(f"{url}/basket/lamp,lamp,chair,lamp")]) == {"price": 4}
        assert (dependency.asked["/lamp"], dependency.asked["/chair"]) == (times, times), dependency.asked
    say("a basket with three lamps asks for one")


def hang(url: str, dependency: Dependency) -> None:
    """A catalog that hangs keeps nobody waiting longer than its timeout."""
    with dependency.hanging():
        began = time.monotonic()
        told = whys(load(f"{url}/basket/table", 10, at_once=10))
        took = time.monotonic() - began
    assert told == {"timeout": 10} and took < 30, (told, took)
    say(f"ten baskets of a catalog that hangs are answered after {took:.1f} s")


def fail(url: str, dependency: Dependency) -> None:
    """A catalog that fails is asked no more."""
    with dependency.down():
        told = whys(load(f"{url}/basket/stool", 200))
        assert told["short-circuited"] > 100 and told["price"] == 0, told
    until(lambda: whys([get(f"{url}/basket/lamp")]) == {"price": 1}, "the circuit closes")
    say(f"200 baskets of a catalog that fails: {dict(told)}")


def main() -> None:
    """Runs it."""
    dependency, folder, url = Dependency(), scratch(), f"http://127.0.0.1:{free_port()}"
    words = [sys.executable, "-m", "uvicorn", "app:app", "--port", url.rpartition(":")[2], "--log-level", "error"]
    environment = {"SHOP_CATALOG": dependency.url, "SHOP_RECORDS": str(folder)}
    with program(*words, folder=HERE, ready=f"{url}/metrics", **environment):
        share_answers(url, dependency)
        hang(url, dependency)
        fail(url, dependency)
        told = whys(load(f"{url}/basket/lamp,chair", 200, at_once=100))
        assert sum(told.values()) == 400 and set(told) <= {"price", "timeout", "short-circuited"}, told
        until(lambda: whys([get(f"{url}/basket/lamp")]) == {"price": 1}, "the catalog is asked again")
        say(f"200 baskets with two items, 100 at once: {dict(told)}")
        assert 'bulkhead_busy_runs{group="catalog",command="catalog"} 0' in get(f"{url}/metrics")[1]
    say(f"{replay(folder)} record answers as it did")


if __name__ == "__main__":
    main()
