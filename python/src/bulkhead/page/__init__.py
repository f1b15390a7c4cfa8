"""The live page of a service, and what the tools around it read: docs/PAGE.md tells all of it.

    with service.serve_metrics(9464) as server:
        print(server.url)

serves it at a port of its own, and `app(service)` is the same for a server that runs already, by ASGI or WSGI.
"""

from __future__ import annotations

from ._apps import App, app
from ._serving import MetricsServer, serve

__all__ = ["App", "MetricsServer", "app", "serve"]
