"""A shop under Flask, whose catalog is a dependency. `gunicorn --preload` loads it once, and forks its workers.

Each worker goes on with a service of its own, which its first call opens; or where SHOP_SHARE is the socket of a `bulkhead
share`, all of them ask that one.
"""

from __future__ import annotations

import os
from pathlib import Path
from typing import Any

import requests
from flask import Flask, Response

import bulkhead

SETTINGS = Path(__file__).parent / "settings.toml"
CATALOG = os.environ["SHOP_CATALOG"]

if "SHOP_SHARE" in os.environ:
    service: Any = bulkhead.connect(os.environ["SHOP_SHARE"], SETTINGS)
else:
    service = bulkhead.open(SETTINGS)
    if "SHOP_RECORDS" in os.environ:
        folder = Path(os.environ["SHOP_RECORDS"])
        service.record(folder / "record.jsonl", replies=folder / "replies.jsonl")


class NoSuchItem(Exception):
    """The catalog has no such item, which says nothing of the catalog."""


def no_price(item: str, *, cause: bulkhead.CommandError) -> dict[str, Any]:
    """What a page shows while the catalog cannot be asked."""
    return {"item": item, "price": None, "why": cause.cause}


@service.command("catalog", fallback=no_price, ignored=NoSuchItem)
def price(item: str) -> dict[str, Any]:
    """The price of an item."""
    answer = requests.get(f"{CATALOG}/{item}", timeout=2)
    if answer.status_code == 404:
        raise NoSuchItem(item)
    answer.raise_for_status()
    told: dict[str, Any] = answer.json()
    return told


app = Flask(__name__)


@app.get("/price/<item>")
def show_price(item: str) -> dict[str, Any]:
    """A price as JSON, with the process that answers."""
    return price(item) | {"process": os.getpid()}


@app.errorhandler(NoSuchItem)
def show_none(error: NoSuchItem) -> tuple[str, int]:
    """The answer where there is no such item."""
    return f"no {error}\n", 404


@app.get("/metrics")
def show_metrics() -> Response:
    """The metrics of the process that answers; with a shared service, those of all."""
    return Response(service.prometheus(), mimetype="text/plain")
