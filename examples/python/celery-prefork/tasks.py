"""Tasks of Celery in its prefork pool, whose payments are a dependency.

The pool forks its processes, and each goes on with a service of its own. A task whose command is short-circuited knows that
nothing was asked, so it may be tried again later without harm. One whose run failed is not: the payment may have been made.
"""

from __future__ import annotations

import os
from pathlib import Path
from typing import Any

import requests
from celery import Celery
from celery.signals import worker_process_shutdown

import bulkhead

PLACE = Path(os.environ["SHOP_PLACE"])

app = Celery("shop", broker="filesystem://", backend=f"file://{PLACE / 'results'}")
app.conf.broker_transport_options = {
    "data_folder_in": str(PLACE / "queue"),
    "data_folder_out": str(PLACE / "queue"),
    "store_processed": False,
}
app.conf.task_serializer = app.conf.result_serializer = "json"

service = bulkhead.open(Path(__file__).parent / "settings.toml")
if "SHOP_RECORDS" in os.environ:
    folder = Path(os.environ["SHOP_RECORDS"])
    service.record(folder / "record.jsonl", replies=folder / "replies.jsonl")


@worker_process_shutdown.connect
def close(**_: Any) -> None:
    """A process of the pool ends without the interpreter's end, so the rest of its record is written here."""
    service.close()


@service.command("payment")
def pay(order: int) -> int:
    """Pays an order."""
    answer = requests.get(f"{os.environ['SHOP_PAYMENTS']}/{order}", timeout=1)
    answer.raise_for_status()
    price: int = answer.json()["price"]
    return price


@app.task(bind=True, max_retries=None)
def charge(self: Any, order: int) -> str:
    """Charges an order: "paid" or "failed". While the circuit breaker is open it is retried a second later."""
    try:
        pay(order)
    except bulkhead.ShortCircuited as error:
        raise self.retry(exc=error, countdown=1)
    except bulkhead.CommandError:
        return "failed"
    return "paid"
