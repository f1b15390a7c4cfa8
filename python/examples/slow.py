#!/usr/bin/env python3
"""A slow dependency, step by step: a run that takes longer than the timeout of its command is answered by a fallback in
time, and its late end counts for nothing. The service has no clock: whoever calls makes the expire, and before the late
finish, since a finish with no expire before it is a success however late it comes.

bindings/build.sh && PYTHONPATH=python/src python3 python/examples/slow.py
"""

from typing import Any

from bulkhead import Reply, Service

SETTINGS = b"""
service.groups = ["payment"]
hystrix.command.payment.execution.isolation.thread.timeoutInMilliseconds = 300
"""

with Service(SETTINGS) as service:

    def step(operation: str, now: int, **more: Any) -> Reply:
        reply = service.step(operation, group="payment", now=now, **more)
        print(f"{now:>5} {operation}: {reply.kind} {reply.text or reply.number or ''}".rstrip())
        return reply

    print("in time, and late with no expire before its finish: both are successes")
    for submitted, takes in (0, 120), (1000, 450):
        ticket = step("submit", submitted, text="order 3").number
        step("start", submitted)
        step("finish", submitted + takes, ticket=ticket, text="paid")
        step("collect", submitted + takes, ticket=ticket)

    print("late, with the expire that its caller makes at the timeout")
    ticket = step("submit", 2000, text="order 4").number
    step("start", 2000)
    step("expire", 2300)
    step("collect", 2300, ticket=ticket)
    step("fallback-success", 2301, ticket=ticket, text="pay on delivery")
    step("collect", 2301, ticket=ticket)
    step("finish", 2450, ticket=ticket, text="paid")
