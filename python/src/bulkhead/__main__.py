"""Prints the version of the package, and where its library lies."""

from __future__ import annotations

from . import __version__, _library


def main() -> None:
    """Prints both."""
    print(f"bulkhead {__version__}, interface {_library.INTERFACE}")
    print(_library.path())


if __name__ == "__main__":
    main()
