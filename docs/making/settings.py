"""The table of the properties of settings, from the tables that the code has of them."""

import re
from pathlib import Path

from making.items import bodies

NAME = re.compile(r"Property::(?P<property>\w+) => dotted!\(\s*(?P<name>[\w.]+)\s*\)")
ROW = re.compile(r"Property::(?P<property>\w+) => (?P<row>\w+\([^()]*\)(?:\.at\(Place::\w+\))?)")
FIELD = re.compile(r"/// `(?P<name>[\w.]+)`(?P<doc>.*(?:\n\s*///.*)*)\n\s*pub (?P<field>\w+):")
TUNABLE = re.compile(r'Tuning::\w+\(_\) => "(?P<name>[\w.]+)"')
# The heads of the rows that stand under one place of a file.
PLACES = {"Command": "under `hystrix.command.KEY.`", "ThreadPool": "under `hystrix.threadpool.KEY.`"}
# The fields of properties that stand under a name of this service's own.
OWN_FIELDS = {"service.auditSteps": "audit_steps", "service.slots": "slots"}


def number(text: str) -> str:
    """A number as it is written in prose."""
    return f"{int(text.replace('_', '')):,}"


def built_in_and_range(row: str, constants: dict[str, str]) -> tuple[str, str]:
    """What holds where a file does not say, and what may stand there."""
    what, _, given = row.split(")")[0].partition("(")
    values = [constants.get(each.strip(), each.strip()) for each in given.split(",")]
    if what == "number":
        return number(values[2]).replace(",", ""), f"{number(values[0])} to {number(values[1])}"
    if what == "whole":
        return values[0], "any"
    if what == "truth":
        return values[0], ""
    return {
        "strategy": ('`"THREAD"`', '`"THREAD"` or `"SEMAPHORE"`'),
        "queue_size": ("-1", "-1, or any"),
        "audit_steps": ("none", "1 to 1,000,000"),
    }[what]


def fields_of(text: str) -> dict[str, str]:
    """The field of each property, by the name that its docstring begins with."""
    return {each["name"]: each["field"] for each in FIELD.finditer(text)}


def table(top: Path) -> str:
    """The properties in their order, with their fields, built-in values, ranges, and whether a line may change them."""
    path = top / "crates/bh_props/src/property.rt"
    text = path.read_text()
    constants = dict(re.findall(r"const (\w+): u64 = ([\d_]+);", text))
    names = {found["property"]: found["name"] for found in NAME.finditer(text)}
    fields = OWN_FIELDS | fields_of((top / "crates/bh_base/src/props.rt").read_text())
    tunable = set(TUNABLE.findall(bodies(top / "crates/bh_tuning/src/named.rt")["name_of"]))
    rows = ["| No | Property | Field | Built-in | Range | By `tune` |", "|-|-|-|-|-|-|"]
    place = ""
    for count, found in enumerate(ROW.finditer(text), 1):
        name, row = names[found["property"]], found["row"]
        at = re.search(r"Place::(\w+)", row)
        here = at[1] if at else "Service" if "audit" in row else "Command"
        if here != place and here in PLACES:
            rows.append(f"| | {PLACES[here]} | | | | |")
        place = here
        built_in, within = built_in_and_range(row, constants)
        shown = f"{name}.KEY" if here == "ServiceGroup" else name
        rows.append(f"| {count} | `{shown}` | `{fields[name]}` | {built_in} | {within} | {'yes' if name in tunable else ''} |")
    return "\n".join(rows)
