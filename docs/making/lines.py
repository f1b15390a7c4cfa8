"""The tables of lines: which words `op` may have, with which members, as the crates that read lines have them."""

import re
from pathlib import Path

from making.items import bodies, docs_of_variants

# How a member is read, and what it is then.
READS = (
    (r'members\.text\("(\w+)"\)', "`{}`, a text"),
    (r'members\.number\("(\w+)"\)', "`{}`, a number"),
    (r'members\.truth\("(\w+)"\)', "`{}`, a boolean"),
    (r"\b(command_of)\(", "perhaps `command`, a text"),
    (r"\b(cache_of)\(", "perhaps `context`, a number, and `key`, a text, both or neither"),
    (r"\b(tuning_of)\(", "`property`, a text; `value`, a number or a boolean"),
    (r"\b(fallback_end_of)\(", "which is `success`, `failure` or `missing`; with `success` also `body`, a text"),
)
WORD = re.compile(r'"(?P<word>[\w-]+)" => Some\(\w+::(?P<variant>\w+)(?:\(\w+::(?P<step>\w+)\))?\)')
# The members that each line of a step has, beside those of its operation.
OF_ALL = ("group", "now")
# The operation whose docstring tells of a look that is made by a step, where the line itself has none.
MADE_BY = {"Metrics": "Read"}


def words(body: str) -> list[tuple[str, str, str]]:
    """Each word with the kind of line that it names, and the operation where that is a step."""
    return [(found["word"], found["variant"], found["step"] or "") for found in WORD.finditer(body)]


def members(text: str, without: tuple[str, ...] = ()) -> str:
    """What members a text of the code reads, in its order."""
    found = []
    for pattern, what in READS:
        found += [(told.start(), what.format(told[1])) for told in re.finditer(pattern, text) if told[1] not in without]
    # `members.text("end")` stands within the call that reads it, so the two change places.
    told = "; ".join(what for _, what in sorted(found))
    return re.sub(r"(which is .*?, a text); (`end`), a text", r"\2, \1", told)


def arms(body: str, kind: str) -> dict[str, str]:
    """The arms of a match over an enum, each with its text."""
    places = [(found[1], found.start()) for found in re.finditer(rf"\b{kind}::(\w+)(?:\(\w+\))? =>", body)]
    ends = [at for _, at in places[1:]] + [len(body)]
    return {name: body[at:end] for (name, at), end in zip(places, ends)}


def sentence_of(docs: dict[str, str], variant: str) -> str:
    return docs.get(variant, "").rstrip(".")


class Lines:
    """What the crates that read lines say of them."""

    def __init__(self, top: Path) -> None:
        self.crates = top / "crates"
        self.steps = bodies(self.crates / "bh_lines/src/step_line.rt")
        self.operations = docs_of_variants(self.crates / "bh_base/src/step.rt", "Op")

    def of_operation(self, variant: str) -> str:
        return members(arms(self.steps["op_at"], "OpWord").get(variant, ""))

    def steps_table(self) -> str:
        """The operations of a script, beside `group` and `now`."""
        rows = ["| `op` | Further members | What it does |", "|-|-|-|"]
        for word, variant, _ in words(self.steps["op_word"]):
            rows.append(f"| `{word}` | {self.of_operation(variant)} | {sentence_of(self.operations, variant)} |")
        return "\n".join(rows)

    def control_table(self) -> str:
        """The lines of a control conversation."""
        path = self.crates / "bh_control/src/control_line.rt"
        return self.table(path, "control", "ControlWord", docs_of_variants(path, "ControlLine"))

    def shared_table(self) -> str:
        """The lines of a service that connections share: those that are steps of a script stand together."""
        path = self.crates / "bh_share/src/share_line.rt"
        waits = re.findall(r"OpWord::(\w+)", bodies(path)["waits"])
        steps = [(word, step) for word, _, step in words(bodies(path)["share_word"]) if step]
        plain = ", ".join(f"`{word}`" for word, step in steps if step not in waits)
        waiting = ", ".join(f"`{word}`" for word, step in steps if step in waits)
        first = [
            f"| {plain} | as in a script, without `now` | that step |",
            f"| {waiting} | as in a script, without `now`; perhaps `wait`, a boolean | that step, "
            "answered with `true` once it is no longer `idle` or `pending` |",
        ]
        table = self.table(path, "share", "ShareWord", docs_of_variants(path, "ShareLine"))
        head, rows = table.split("\n")[:2], table.split("\n")[2:]
        return "\n".join(head + first + rows)

    def table(self, path: Path, name: str, kind: str, docs: dict[str, str]) -> str:
        """The lines that are no steps of a script: their members are read in a function for each kind."""
        texts = bodies(path)
        called = {variant: re.search(r"=> (\w+_at)\(", arm) for variant, arm in arms(texts[f"{name}_line_at"], kind).items()}
        rows = ["| `op` | Members | What it asks for |", "|-|-|-|"]
        for word, variant, step in words(texts[f"{name}_word"]):
            if not step:
                call = called[variant]
                read = members(texts[call[1]]) if call else ""
                told = sentence_of(docs, variant) or sentence_of(self.operations, MADE_BY.get(variant, ""))
                rows.append(f"| `{word}` | {read} | {told} |")
        return "\n".join(rows)
