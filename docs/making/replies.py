"""The tables of replies and faults, from the definitions of their lines and the docstrings of their values."""

import re
from pathlib import Path

from making.lines import Lines, words
from making.items import bodies, docs_of_variants

EQUATION = re.compile(r"^(?P<name>\w+)(?P<arguments>(?: (?:\([^=]*?\)|[\w.]+))*) =\s", re.M)
MEMBER = re.compile(r'(?P<kind>text_member|number_member|member) \(codes "(?P<name>[\w-]+)"\) (?P<value>\(.*?\)\)?|[\w.]+)')
WORDS = {"cause_word": '"CAUSE"', "fallback_word": '"WORD"', "circuit_word": '"STATE"'}
FAULT = re.compile(r'Fault::(?P<variant>\w+) => "\{\\"error\\":\\"(?P<word>[\w-]+)\\"\}')
# The operations of the functions that say which replies each may get.
ANSWERS = re.compile(r"^answers_(?P<of>\w+) \(?reply\.(?P<reply>\w+)", re.M)
ENDS = {"end": ("finish", "fail"), "fallback_done": ("fallback",)}


def equations(text: str) -> dict[str, list[tuple[str, str]]]:
    """The equations of each definition: what stands before the sign, and behind it."""
    found: dict[str, list[tuple[str, str]]] = {}
    for told in EQUATION.finditer(text):
        end = re.compile(r"\n(?! )").search(text, told.end())
        found.setdefault(told["name"], []).append((told["arguments"].strip(), text[told.end() : end.start() if end else None]))
    return found


def value_of(kind: str, name: str, value: str) -> str:
    """What stands in the line for a member."""
    if kind == "number_member":
        return "T" if name == "ticket" else "N"
    if kind == "member":
        return "{..}"
    if told := re.match(r'\(codes "([\w-]+)"\)', value):
        return f'"{told[1]}"'
    word = re.match(r"\((\w+_word)\b", value)
    return WORDS[word[1]] if word else '"NAME"' if value == "name" else '"TEXT"'


def line(text: str) -> str:
    """The line of an object, with placeholders for what is not fixed."""
    if told := re.match(r'named \(codes "([\w-]+)"\)', text):
        return f'{{"reply":"{told[1]}"}}'
    if told := re.match(r'numbered \(codes "([\w-]+)"\)', text):
        return f'{{"reply":"{told[1]}","ticket":T}}'
    shown = [f'"{told["name"]}":{value_of(told["kind"], told["name"], told["value"])}' for told in MEMBER.finditer(text)]
    return "{" + ",".join(shown) + "}"


class Replies:
    """What the crates say of replies and faults."""

    def __init__(self, top: Path) -> None:
        self.top = top
        self.equations = equations((top / "crates/bh_replies/specs/ReplyLine.antt").read_text())
        self.replies = docs_of_variants(top / "crates/bh_base/src/reply.rt", "Reply")
        self.answers = docs_of_variants(top / "crates/bh_base/src/reply.rt", "Answer")

    def lines_of(self, text: str) -> list[tuple[str, str]]:
        """The lines that an expression comes to, each with the variant of an answer that it is for, if it is for one."""
        called = re.match(r"(\w+_data)\b", text)
        if not called:
            return [("", line(text))]
        found = []
        for arguments, body in self.equations[called[1]]:
            variant = re.search(r"answer\.(\w+)", arguments)
            further = self.lines_of(body)
            found += [(variant[1] if variant else each, told) for each, told in further]
        return found

    def answered(self) -> dict[str, list[str]]:
        """The words of the operations that each reply answers."""
        lines = Lines(self.top)
        word = {re.sub(r"(?<!^)(?=[A-Z])", "_", variant).lower(): each for each, variant, _ in words(lines.steps["op_word"])}
        found: dict[str, list[str]] = {}
        for told in ANSWERS.finditer((self.top / "crates/bh_base/specs/Replies.antt").read_text()):
            found.setdefault(told["reply"], []).extend(ENDS.get(told["of"]) or [word[told["of"]]])
        return found

    def table(self) -> str:
        """The line of each reply, with the operations that it answers."""
        rows, answered = ["| Reply | Line | To | Says |", "|-|-|-|-|"], self.answered()
        for arguments, text in self.equations["reply_data"]:
            variant = re.findall(r"reply\.(\w+)", arguments)[0]
            to = ", ".join(f"`{each}`" for each in answered.get(variant, [])) or "any step"
            for answer, told in self.lines_of(text):
                says = self.answers[answer] if answer else self.replies[variant]
                name = f"{variant}({answer})" if answer else variant
                rows.append(f"| {name} | `{told}` | {to} | {says.rstrip('.')} |")
        return "\n".join(rows)

    def faults_table(self) -> str:
        """The line of each fault."""
        docs = docs_of_variants(self.top / "crates/bh_faults/src/fault.rt", "Fault")
        text = bodies(self.top / "crates/bh_replies/src/fault.rt")["fault_text"]
        rows = ["| Line | Says |", "|-|-|"]
        rows += [f'| `{{"error":"{told["word"]}"}}` | {docs[told["variant"]].rstrip(".")} |' for told in FAULT.finditer(text)]
        return "\n".join(rows)

    def words_list(self) -> str:
        """The words that stand for a cause, for why no fallback gave a value, for a state, and for kinds of events."""
        rows = ["| In a line | Is one of |", "|-|-|"]
        for name, shown in WORDS.items():
            said = [each for _, text in self.equations[name] for each in re.findall(r'"([\w-]+)"', text)]
            rows.append(f"| {shown.strip(chr(34))} | {', '.join(f'`{each}`' for each in said)} |")
        kinds = re.findall(r'"(\w+)"', self.equations["kind_names"][0][1])
        rows.append(f"| `events` | {', '.join(kinds)} |")
        return "\n".join(rows)
