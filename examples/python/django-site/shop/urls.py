"""The pages of the shop."""

from __future__ import annotations

from django.http import HttpRequest, HttpResponse, JsonResponse
from django.urls import path

from .dependencies import price, service


def show_basket(request: HttpRequest, items: str) -> JsonResponse:
    """What the items of a basket cost, which are separated by commas."""
    return JsonResponse({"price": sum(price(item) for item in items.split(","))})


def show_metrics(request: HttpRequest) -> HttpResponse:
    """The metrics of the process that answers."""
    return HttpResponse(service.prometheus(), content_type="text/plain")


urlpatterns = [path("basket/<items>", show_basket), path("metrics", show_metrics)]
