"""A shop under FastAPI, whose catalog is asked by coroutines. Within a request equal questions share one answer."""

from __future__ import annotations

import asyncio
import os
from collections.abc import Awaitable, Callable
from pathlib import Path
from typing import Any

import httpx
from fastapi import FastAPI, Request, Response

import bulkhead

service = bulkhead.open(Path(__file__).parent / "settings.toml")
if "SHOP_RECORDS" in os.environ:
    folder = Path(os.environ["SHOP_RECORDS"])
    service.record(folder / "record.jsonl", replies=folder / "replies.jsonl")

# the permits of the command are the bound, and not the connections of the client: a request that is cancelled may keep its one
limits = httpx.Limits(max_connections=None, max_keepalive_connections=20)
catalog = httpx.AsyncClient(base_url=os.environ["SHOP_CATALOG"], trust_env=False, timeout=None, limits=limits)
app = FastAPI()


@app.middleware("http")
async def within_context(request: Request, answer: Callable[[Request], Awaitable[Response]]) -> Response:
    """Has each request be a request context."""
    with service.context():
        return await answer(request)


def no_price(item: str, *, cause: bulkhead.CommandError) -> dict[str, Any]:
    """What a basket shows while the catalog cannot be asked."""
    return {"item": item, "price": None, "why": cause.cause}


def is_down(answer: Any) -> bool:
    """Whether an answer is a failure of the catalog."""
    return isinstance(answer, httpx.Response) and answer.status_code >= 500


@service.command("catalog", key=lambda item: item, failed_result=is_down, fallback=no_price)
async def ask(item: str) -> Any:
    """The catalog's answer about an item. At its timeout the task is cancelled, and with it the request."""
    return await catalog.get(f"/{item}")


async def price(item: str) -> dict[str, Any]:
    """The price of an item, or why there is none."""
    answer = await ask(item)
    return answer.json() if isinstance(answer, httpx.Response) else answer  # type: ignore[no-any-return]


@app.get("/basket/{items}")
async def show_basket(items: str) -> list[dict[str, Any]]:
    """The prices of items, which are separated by commas. All are asked for at once."""
    return list(await asyncio.gather(*[price(item) for item in items.split(",")]))


@app.get("/metrics")
async def show_metrics() -> Response:
    """The metrics."""
    return Response(service.prometheus(), media_type="text/plain")
