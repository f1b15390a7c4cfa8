"""Four preloaded workers, each with a service of its own, and the same with one shared service: a catalog that goes down."""

from __future__ import annotations

import sys
from collections import Counter
from contextlib import ExitStack
from pathlib import Path
from typing import Any

from recipe import PROGRAM, Dependency, free_port, get, load, program, replay, say, scratch, until

HERE = Path(__file__).parent
WORKERS, THRESHOLD = 4, 20


def serve(stack: ExitStack, dependency: Dependency, **environment: str) -> str:
    """Has gunicorn serve the shop: its URL."""
    url = f"http://127.0.0.1:{free_port()}"
    words = [sys.executable, "-m", "gunicorn", "--preload", "--workers", str(WORKERS), "--threads", "4", "--log-level", "error"]
    words += ["--bind", url.removeprefix("http://"), "app:app"]
    stack.enter_context(program(*words, folder=HERE, ready=f"{url}/price/lamp", SHOP_CATALOG=dependency.url, **environment))
    return url


def prices(answers: list[tuple[int, Any]]) -> Counter[str]:
    """How many answers had a price, and why the others had none."""
    assert {status for status, _ in answers} == {200}, Counter(status for status, _ in answers)
    return Counter("price" if told["price"] is not None else told["why"] for _, told in answers)


def outage(url: str, dependency: Dependency) -> int:
    """Has the catalog go down and come back: how many requests reached it while it was down."""
    assert prices(load(f"{url}/price/lamp", 8)) == {"price": 8}
    assert [get(f"{url}/price/unicorn")[0] for _ in range(20)] == [404] * 20, "that is no failure of the catalog"
    with dependency.down():
        told = prices(load(f"{url}/price/chair", 400))
    assert told["short-circuited"] > told["failure"] and told["price"] == 0, told
    until(lambda: prices(load(f"{url}/price/lamp", 40)) == {"price": 40}, "all circuits are closed again")
    return dependency.asked["/chair"]


def each_its_own() -> None:
    """Each worker has a service of its own."""
    dependency, folder = Dependency(), scratch()
    with ExitStack() as stack:
        url = serve(stack, dependency, SHOP_RECORDS=str(folder))
        reached = outage(url, dependency)
        workers = {told["process"] for _, told in load(f"{url}/price/lamp", 100)}
        assert 'bulkhead_circuit_state{group="catalog",command="catalog",state="closed"} 1' in get(f"{url}/metrics")[1]
    assert len(workers) > 1 and reached >= THRESHOLD, (workers, reached)
    # the file of the process that loaded the shop is empty
    say(f"{len(workers)} workers find out for themselves: of 400 requests while it is down the catalog gets {reached}")
    say(f"{replay(folder, len(workers))} records answer as they did")


def shared() -> None:
    """All workers ask one service."""
    dependency, folder = Dependency(), scratch()
    socket = folder / "share.sock"
    with ExitStack() as stack:
        words = [PROGRAM, "share", str(HERE / "settings.toml"), "--socket", str(socket), "--forever"]
        stack.enter_context(program(*words, folder=HERE))
        until(socket.exists, "the service is there")
        url = serve(stack, dependency, SHOP_SHARE=str(socket))
        reached = outage(url, dependency)
    say(f"with a shared service it gets {reached}")
    assert reached <= 2 * THRESHOLD, reached


if __name__ == "__main__":
    each_its_own()
    if PROGRAM:
        shared()
    else:
        say("the program is not there, and so no shared service")
