#!/usr/bin/env python3
"""Makes the script of an incident, a minute long, in which somebody acts while the provider of payments stands.

    ./generate.py PROGRAM [SEED] >script.jsonl      PROGRAM is `bulkhead`; script.jsonl here is of seed 7

Callers, workers and a timer are those of the outage beside this folder. In between an operator changes properties: the timeout
is shortened first, then the circuit is held open by hand until the provider is well, and let go. The same seed gives the same
lines.
"""

import importlib.util
import sys
from pathlib import Path
from types import ModuleType

HERE = Path(__file__).resolve().parent
TIMEOUT = "execution.isolation.thread.timeoutInMilliseconds"
HELD_OPEN = "circuitBreaker.forceOpen"
# What the operator does, and when: a moment in milliseconds, a property of the command `payment`, and its value.
ACTS: list[tuple[int, str, int | bool]] = [
    (19_000, TIMEOUT, 300),
    (24_000, HELD_OPEN, True),
    (36_000, HELD_OPEN, False),
    (45_000, TIMEOUT, 800),
]


def load_outage() -> ModuleType:
    """The module of the outage, whose file has the name of this one."""
    path = HERE.parent / "outage" / "generate.py"
    spec = importlib.util.spec_from_file_location("outage", path)
    assert spec is not None and spec.loader is not None
    module = importlib.util.module_from_spec(spec)
    sys.modules[spec.name] = module
    spec.loader.exec_module(module)
    return module


outage = load_outage()


class Incident(outage.Outage):  # type: ignore[misc, name-defined]
    """The minute of the outage, with somebody who acts."""

    settings = HERE / "settings.toml"
    commands = [command for command in outage.COMMANDS if command.name in ("catalog", "payment")]

    def __init__(self, program: str, seed: int) -> None:
        super().__init__(program, seed)
        self.timeouts: dict[str, int] = {}
        for moment, name, value in ACTS:
            self.plan(moment, self.tune, name, value)

    def timeout(self, command: "outage.Command") -> int:  # type: ignore[name-defined]
        usual: int = super().timeout(command)
        return self.timeouts.get(command.name, usual)

    def tune(self, now: int, name: str, value: int | bool) -> None:
        """The operator changes a property of `payment`."""
        reply = self.say("tune", "payment", now, property=name, value=value)
        assert reply == {"reply": "tuned"}, reply
        if name == TIMEOUT:
            self.timeouts["payment"] = value


def main(words: list[str]) -> int:
    if len(words) not in (1, 2):
        print(__doc__, file=sys.stderr)
        return 2
    Incident(words[0], int(words[1]) if len(words) == 2 else 7).play()
    return 0


if __name__ == "__main__":
    sys.exit(main(sys.argv[1:]))
