#!/usr/bin/env python3
"""A service of two groups, one of which has two commands: steps, a line, and settings that are refused.

bindings/build.sh && PYTHONPATH=python/src python3 python/examples/steps.py
"""

from bulkhead import Refused, Service

SETTINGS = b"""
service.groups = ["catalog", "payment"]
service.command.refund.group = "payment"
hystrix.threadpool.payment.coreSize = 1
"""

with Service(SETTINGS) as service:
    ticket = service.step("submit", group="payment", now=0, text="order 3").number
    print(service.step("start", group="payment", now=1))
    print(service.step("finish", group="payment", now=20, ticket=ticket, text="paid"))
    print(service.step("collect", group="payment", now=20, ticket=ticket))
    print(service.step("submit", group="payment", now=25, command="refund", text="order 2"))
    print(service.step("start", group="payment", now=26))
    print(service.line(b'{"op":"submit","group":"catalog","now":30,"arg":"item 7"}').decode(), end="")

try:
    Service(b"service.groups = []")
except Refused as refusal:
    print(refusal)
