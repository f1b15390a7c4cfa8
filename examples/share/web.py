#!/usr/bin/env python3
"""One process of a small web service, whose calls of two dependencies are decided on by a `bulkhead share`.

examples/share/web.py SOCKET SETTINGS DEPENDENCY     DEPENDENCY is the port of what it asks for stock and prices

It prints the port of its own. `GET /stock/ITEM` and `GET /prices/ITEM` are answered by what the dependency says of the
item, or with status 503 by the name of the error that the call came to.
"""

import sys
from http.server import BaseHTTPRequestHandler, ThreadingHTTPServer
from urllib.request import urlopen

import bulkhead

socket, settings, dependency = sys.argv[1:4]
client = bulkhead.connect(socket, settings)


def ask(path: str) -> str:
    """Asks the dependency, which raises where it is down."""
    with urlopen(f"http://127.0.0.1:{dependency}/{path}") as answer:
        text: str = answer.read().decode()
        return text


@client.command("stock")
def stock(item: str) -> str:
    """What is left of an item."""
    return ask(f"stock/{item}")


@client.command("prices")
def price(item: str) -> str:
    """What an item costs."""
    return ask(f"prices/{item}")


COMMANDS = {"stock": stock, "prices": price}


class Web(BaseHTTPRequestHandler):
    """A request, in a thread of its own."""

    def do_GET(self) -> None:
        _, name, item = self.path.split("/", 2)
        try:
            status, text = 200, COMMANDS[name](item)
        except bulkhead.CommandError as error:
            status, text = 503, type(error).__name__
        self.send_response(status)
        self.end_headers()
        self.wfile.write(text.encode())

    def log_message(self, format: str, *args: object) -> None:
        """Says nothing."""


with ThreadingHTTPServer(("127.0.0.1", 0), Web) as server:
    print(server.server_port, flush=True)
    server.serve_forever()
