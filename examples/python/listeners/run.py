"""A dependency that succeeds, fails and hangs, as three listeners tell it."""

from __future__ import annotations

import logging
import sys
from pathlib import Path
from typing import Any

from prometheus_client import CollectorRegistry, generate_latest

import bulkhead
from listeners import log_events, measure_runs, trace_events
from recipe import Dependency, get, replay, say, scratch, until

HERE = Path(__file__).parent


class Kept(logging.Handler):
    """A handler that keeps what is logged."""

    def __init__(self) -> None:
        super().__init__()
        self.records: list[logging.LogRecord] = []

    def emit(self, record: logging.LogRecord) -> None:
        self.records.append(record)


class Attributes(dict[str, Any]):
    """A span that keeps its attributes."""

    set_attribute = dict.__setitem__


def main() -> None:
    """Runs it."""
    dependency, folder, kept, spans = Dependency(), scratch(), Kept(), []
    logger = logging.getLogger("dependencies")
    logger.addHandler(kept)
    logger.propagate, registry = False, CollectorRegistry()
    with bulkhead.open(HERE / "settings.toml") as service:
        service.record(folder / "record.jsonl", replies=folder / "replies.jsonl")
        log_events(service, logger)
        measure_runs(service, registry)
        trace_events(service, lambda name: Attributes(), spans.append)

        @service.command("catalog", fallback=lambda item, *, cause: None, failed_result=lambda told: told[0] >= 500)
        def price(item: str) -> tuple[int, Any]:
            return get(f"{dependency.url}/{item}")

        for _ in range(3):
            price("lamp")
        with dependency.down():
            price("lamp")
        until(lambda: len(spans) == 4, "four spans")
        until(lambda: kept.records, "a line of the log")
        told = generate_latest(registry).decode()
        assert 'dependency_run_seconds_count{command="catalog",end="success"} 3.0' in told, told
        assert 'dependency_run_seconds_count{command="catalog",end="failure"} 1.0' in told, told
    assert [span["bulkhead.end"] for span in spans] == ["success", "success", "success", "failure"], spans
    assert spans[-1]["exception.type"] == "FailedResult", spans
    (record,) = kept.records
    assert (record.levelname, record.getMessage()) == ("WARNING", "catalog: failure"), record
    assert record.exc_info is not None and record.exc_info[0] is bulkhead.FailedResult
    say("a log, histograms and spans tell the same four runs")
    replay(folder)


if __name__ == "__main__":
    sys.exit(main())
