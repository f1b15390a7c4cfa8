"""What `open` and `reload` warn of."""

from __future__ import annotations

import warnings
from collections.abc import Iterable

from ._limits import surprises
from ._lint import unknown_names
from .errors import SettingsWarning, UnknownNameWarning
from .settings import GroupSettings


def warn_of(settings: bytes, groups: Iterable[GroupSettings]) -> None:
    """Warns the caller of the caller of what may surprise in settings. Whoever switches the names off asks no program."""
    for surprise in surprises(groups):
        warnings.warn(surprise, SettingsWarning, stacklevel=3)
    if not _is_off(UnknownNameWarning):
        for unknown in unknown_names(settings):
            warnings.warn(unknown, UnknownNameWarning, stacklevel=3)


def _is_off(category: type[Warning]) -> bool:
    """Whether no warning of a category is shown, wherever it comes from."""
    for action, message, of, module, line in warnings.filters:
        if issubclass(category, of):
            return action == "ignore" and message is None and module is None and not line
    return False
