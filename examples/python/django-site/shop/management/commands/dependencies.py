"""Prints the metrics of the dependencies: `manage.py dependencies --ask lamp`."""

from __future__ import annotations

from typing import Any

from django.core.management.base import BaseCommand, CommandParser

import bulkhead
from shop.dependencies import price, service


class Command(BaseCommand):
    """Prints metrics, a command a line: of this process, or with a shared service of all."""

    help = "prints the metrics of the dependencies"

    def add_arguments(self, parser: CommandParser) -> None:
        """Adds what may be asked for before."""
        parser.add_argument("--ask", metavar="ITEM", help="asks the catalog for an item first")

    def handle(self, *_: Any, **options: Any) -> None:
        """Prints them."""
        if options["ask"]:
            try:
                self.stdout.write(f"{options['ask']} costs {price(options['ask'])}")
            except bulkhead.CommandError as error:
                self.stdout.write(f"{options['ask']}: {error.cause}")
        for name, told in service.metrics().items():
            counts = f"{told.success} succeeded, {told.failure} failed, {told.timeout} timed out"
            self.stdout.write(f"{name}: the circuit is {told.circuit}; {counts}")
