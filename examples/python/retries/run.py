"""Retries by `tenacity`, around a command and not within it.

Around it each try is a call of the command: it takes a permit of its own, has the timeout for itself, and counts as one run, so
the circuit breaker sees each failure, and once it is open further tries are refused at once and reach nobody. Within it all
tries would share one permit and one timeout, and of three failures the circuit breaker would see one, or none.
"""

from __future__ import annotations

import sys
from pathlib import Path
from typing import Any

import tenacity

import bulkhead
from recipe import Dependency, get, replay, say, scratch

HERE = Path(__file__).parent


def main() -> None:
    """Runs it."""
    dependency, folder = Dependency(), scratch()
    with bulkhead.open(HERE / "settings.toml") as service:
        service.record(folder / "record.jsonl", replies=folder / "replies.jsonl")

        # what the command raises is retried, unless the circuit is open: then a try would be in vain
        @tenacity.retry(
            retry=tenacity.retry_if_exception_type(bulkhead.CommandError)
            & tenacity.retry_if_not_exception_type(bulkhead.ShortCircuited),
            stop=tenacity.stop_after_attempt(3),
            wait=tenacity.wait_random_exponential(multiplier=0.01, max=0.05),
            reraise=True,
        )
        @service.command("catalog", failed_result=lambda told: told[0] >= 500)
        def price(item: str) -> tuple[int, Any]:
            return get(f"{dependency.url}/{item}")

        assert price("lamp")[0] == 200
        told = []
        with dependency.down():
            for _ in range(4):
                try:
                    price("chair")
                except bulkhead.CommandError as error:
                    told.append(type(error).__name__)
        # three tries of the first call and the fourth failure of five runs; what comes then is refused
        assert told == ["FailedResult", "ShortCircuited", "ShortCircuited", "ShortCircuited"], told
        assert dependency.asked["/chair"] == service.metrics("catalog").failure == 4, dependency.asked
        say(f"four calls with three tries each reach a dependency that is down {dependency.asked['/chair']} times")
    replay(folder)


if __name__ == "__main__":
    sys.exit(main())
