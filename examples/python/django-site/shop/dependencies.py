"""The catalog as a command, and the middleware that has each request be a request context."""

from __future__ import annotations

import os
from collections.abc import Callable
from pathlib import Path
from typing import Any

import requests
from django.http import HttpRequest, HttpResponse, JsonResponse

import bulkhead

SETTINGS = Path(__file__).parents[1] / "settings.toml"

# the workers of a server share one service where there is one, so that the management command tells what all of them did
if "SHOP_SHARE" in os.environ:
    service: Any = bulkhead.connect(os.environ["SHOP_SHARE"], SETTINGS)
else:
    service = bulkhead.open(SETTINGS)
    if "SHOP_RECORDS" in os.environ:
        folder = Path(os.environ["SHOP_RECORDS"])
        service.record(folder / "record.jsonl", replies=folder / "replies.jsonl")


@service.command("catalog", key=lambda item: item)
def price(item: str) -> int:
    """The price of an item, which is asked for once in a request."""
    answer = requests.get(f"{os.environ['SHOP_CATALOG']}/{item}", timeout=2)
    answer.raise_for_status()
    told: int = answer.json()["price"]
    return told


def within_context(answer: Callable[[HttpRequest], HttpResponse]) -> Callable[[HttpRequest], HttpResponse]:
    """The middleware. A page without what it wants of a dependency is answered by 503, and by when to ask again."""

    def middleware(request: HttpRequest) -> HttpResponse:
        with service.context():
            return answer(request)

    def process_exception(request: HttpRequest, error: Exception) -> Any:
        if not isinstance(error, bulkhead.CommandError):
            return None
        refused = JsonResponse({"why": error.cause}, status=503)
        refused["Retry-After"] = "1"
        return refused

    middleware.process_exception = process_exception  # type: ignore[attr-defined]
    return middleware
