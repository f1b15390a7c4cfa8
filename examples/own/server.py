#!/usr/bin/env python3
"""The dependency of crates/own: it answers each line by a line, and takes a second where the line begins with `slow`.

examples/own/server.py [PORT]     7499 where none is given; it ends by a signal
"""

import sys
import time
from socketserver import StreamRequestHandler, ThreadingTCPServer


class Stock(StreamRequestHandler):
    """One connection."""

    def handle(self) -> None:
        for line in self.rfile:
            if line.startswith(b"slow"):
                time.sleep(1)
            self.wfile.write(line.strip() + b": 7 left\n")


class Server(ThreadingTCPServer):
    """A thread for each connection; a port that was in use a moment ago may be taken."""

    allow_reuse_address = True
    daemon_threads = True


if __name__ == "__main__":
    with Server(("127.0.0.1", int(sys.argv[1]) if len(sys.argv) > 1 else 7499), Stock) as server:
        server.serve_forever()
