"""How a service of commands opens that of its steps, and what is in force then."""

from __future__ import annotations

from . import settings as of_settings
from ._lint import explain
from .errors import Refused
from .settings import GroupSettings
from .steps import Service


def opened_by(settings: bytes) -> Service:
    """The service step by step. Raises `Refused`, with what the program says of it."""
    try:
        return Service(settings)
    except Refused as refused:
        explain(refused, settings)
        raise


def by_name(opened: Service) -> dict[str, GroupSettings]:
    """What is in force, by the names of the groups in their order."""
    return {group.name: group for group in of_settings.in_force(opened.check())}
