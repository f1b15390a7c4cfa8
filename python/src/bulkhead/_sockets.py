"""Sockets to a service: how they are opened, closed, and not inherited."""

from __future__ import annotations

import os
import socket
import struct
import threading
import weakref
from contextlib import suppress
from typing import Union

_READ = 1 << 16
# a span of time as the system reads it: seconds and microseconds
_TIME = struct.Struct("@ll")

# every socket that is open, which a forked process closes; Python has the system close them where a program is executed
_every: weakref.WeakSet[socket.socket] = weakref.WeakSet()
# no process is forked between the making of a socket and its note
_making = threading.RLock()


def opened(address: Union[str, int], timeout: float) -> socket.socket:
    """A socket that is connected to the path of a Unix socket or to a port of 127.0.0.1. Raises OSError."""
    with _making:
        made = socket.socket(socket.AF_INET if isinstance(address, int) else socket.AF_UNIX, socket.SOCK_STREAM)
        _every.add(made)
    try:
        if isinstance(address, int):
            made.settimeout(timeout)
            made.setsockopt(socket.IPPROTO_TCP, socket.TCP_NODELAY, 1)
            made.connect(("127.0.0.1", address))
        else:
            # the system lets nobody wait with a timeout of Python's where many connect at a time
            seconds = int(timeout)
            span = _TIME.pack(seconds, int((timeout - seconds) * 1e6) or 1)  # none at all would be without an end
            made.setsockopt(socket.SOL_SOCKET, socket.SO_SNDTIMEO, span)
            made.connect(address)
            made.settimeout(timeout)
    except BaseException:
        made.close()
        raise
    return made


# sockets of which the sending side is closed, until the service has closed the other one
_closing: list[socket.socket] = []
_CLOSING = 64


def close_behind(one: socket.socket, last_words: bytes) -> None:
    """Has the service read all that was sent and last words. To close it at once could take unread lines from it."""
    with suppress(OSError):
        one.settimeout(0)
        one.send(last_words)
        one.shutdown(socket.SHUT_WR)
        _closing.append(one)
        close_ended()
        return
    one.close()


def close_ended() -> None:
    """Closes those whose service has ended them, and the first of very many."""
    for one in [*_closing]:
        try:
            while one.recv(_READ):
                pass
        except BlockingIOError:
            if len(_closing) <= _CLOSING:
                continue
        except OSError:
            pass
        with suppress(ValueError):  # another thread was sooner
            _closing.remove(one)
        one.close()


def _close_in_child() -> None:
    """In a forked process: all of them are the parent's, who alone is to keep them open."""
    _making.release()
    for one in [*_every]:
        one.close()
    _closing.clear()


if hasattr(os, "register_at_fork"):
    os.register_at_fork(before=_making.acquire, after_in_parent=_making.release, after_in_child=_close_in_child)
