"""Orders that are charged while payments are down: few reach them, and the others are charged once they are back."""

from __future__ import annotations

import os
import sys
from collections import Counter
from pathlib import Path

from recipe import Dependency, program, replay, say, scratch, until

HERE = Path(__file__).parent
PROCESSES, ORDERS, THRESHOLD = 2, 24, 3


def main() -> None:
    """Runs it."""
    dependency, folder = Dependency(), scratch()
    for name in ("queue", "results"):
        (folder / name).mkdir()
    os.environ |= {"SHOP_PLACE": str(folder), "SHOP_PAYMENTS": dependency.url}
    from tasks import charge

    words = [sys.executable, "-W", "ignore", "-m", "celery", "--quiet", "-A", "tasks", "worker", "--pool", "prefork"]
    words += ["-c", str(PROCESSES), "-l", "error", "--without-gossip", "--without-mingle", "--without-heartbeat"]
    with program(*words, folder=HERE, SHOP_RECORDS=str(folder)):
        with dependency.down():
            results = [charge.delay(order) for order in range(ORDERS)]
            until(lambda: sum(result.ready() for result in results) >= THRESHOLD, "some payments have failed")
            until(lambda: sum(result.state == "RETRY" for result in results) >= ORDERS // 2, "most orders are put off")
        until(lambda: all(result.ready() for result in results), "each order is charged")
        told = Counter(result.get() for result in results)
    assert told["paid"] >= ORDERS // 2 and told["paid"] + told["failed"] == ORDERS, told
    say(f"of {ORDERS} orders {told['failed']} failed, and {told['paid']} were paid when the payments were back")
    say(f"{replay(folder, PROCESSES)} records answer as they did")


if __name__ == "__main__":
    main()
