"""What the types of commands want that Python 3.9 has not."""

from __future__ import annotations

import sys
from typing import TYPE_CHECKING

if TYPE_CHECKING:
    from typing_extensions import ParamSpec  # whoever checks types has it
elif sys.version_info >= (3, 10):
    from typing import ParamSpec
else:
    from typing import TypeVar as ParamSpec  # it stands in annotations alone, which are not evaluated

__all__ = ["ParamSpec"]
