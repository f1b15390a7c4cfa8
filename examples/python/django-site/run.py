"""Baskets of a catalog that goes down and comes back, and the management command that tells of it."""

from __future__ import annotations

import os
import subprocess
import sys
from collections import Counter
from pathlib import Path

from recipe import Dependency, free_port, get, load, program, replay, say, scratch, until

HERE = Path(__file__).parent


def manage(*words: str, **environment: str) -> str:
    """What a management command prints."""
    asked = [sys.executable, "manage.py", *words]
    told = subprocess.run(asked, cwd=HERE, env={**os.environ, **environment}, capture_output=True, text=True, check=True)
    return told.stdout


def main() -> None:
    """Runs it."""
    dependency, folder, url = Dependency(), scratch(), f"http://127.0.0.1:{free_port()}"
    words = [sys.executable, "-m", "gunicorn", "--preload", "--workers", "2", "--threads", "8", "--log-level", "error"]
    words += ["--bind", url.removeprefix("http://"), "shop.wsgi"]
    environment = {"SHOP_CATALOG": dependency.url, "SHOP_RECORDS": str(folder)}
    with program(*words, folder=HERE, ready=f"{url}/metrics", **environment):
        assert get(f"{url}/basket/lamp,lamp,chair") == (200, {"price": 21})
        assert dependency.asked == {"/lamp": 1, "/chair": 1}, "a request asks for an item once"
        with dependency.down():
            told = Counter((status, answer.get("why")) for status, answer in load(f"{url}/basket/stool", 200))
            # each worker finds out for itself, and then lets a call through every half a second: on a slow machine that is many
            assert told[503, "short-circuited"] > 40 and told[503, "failure"] > 0 and sum(told.values()) == 200, told
            printed = manage("dependencies", "--ask", "lamp", SHOP_CATALOG=dependency.url)
            assert "lamp: failure\ncatalog: the circuit is closed; 0 succeeded, 1 failed, 0 timed out\n" == printed, printed
        say(f"200 baskets of a catalog that is down: {dict(told)}")
        until(lambda: {status for status, _ in load(f"{url}/basket/lamp", 20)} == {200}, "all circuits are closed again")
        printed = manage("dependencies", "--ask", "lamp", SHOP_CATALOG=dependency.url)
        assert "lamp costs 7\n" in printed and "1 succeeded" in printed, printed
    say(f"{replay(folder, 2)} records answer as they did")


if __name__ == "__main__":
    main()
