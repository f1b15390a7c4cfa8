#!/usr/bin/env python3
"""Answers standard input line by line as the program does, by calls of the library.

python/examples/run.py check FILE     python/examples/run.py run FILE

The exit status and what is written are those of `bulkhead check` and `bulkhead run`.
"""

import sys

from bulkhead import BadLine, Error, Refused, Service

FILE_LIMIT, LINE_LIMIT = 4 << 20, 1024


class Fault(Exception):
    pass


def read_file(path):
    try:
        with open(path, "rb") as file:
            settings = file.read(FILE_LIMIT + 1)
    except OSError:
        raise Fault("file") from None
    if len(settings) > FILE_LIMIT:
        raise Fault("file")
    return settings


def answer(service, line):
    if len(line) > LINE_LIMIT:
        raise Fault("line")
    try:
        return service.line(line.removesuffix(b"\r"))
    except BadLine:
        raise Fault("line") from None


def run(service):
    *lines, last = sys.stdin.buffer.read().split(b"\n")
    if last not in (b"", b"\r"):
        lines.append(last)
    for line in lines:
        sys.stdout.buffer.write(answer(service, line))


def main(words):
    if len(words) != 2 or words[0] not in ("check", "run"):
        return 2
    try:
        with Service(read_file(words[1])) as service:
            if words[0] == "run":
                run(service)
            else:
                sys.stdout.buffer.write(service.check())
    except Refused as refusal:
        print(refusal, file=sys.stderr)
        return 1
    except Fault as fault:
        print(f"fault: {fault}", file=sys.stderr)
        return 3
    except Error:
        print("fault: memory", file=sys.stderr)
        return 3
    finally:
        sys.stdout.buffer.flush()
    return 0


sys.exit(main(sys.argv[1:]))
