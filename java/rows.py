#!/usr/bin/env python3
"""Gives the scripts of the examples to the program and to the natives of Java, and compares their replies byte for byte.

    rows.py PROGRAM CLASSPATH FOLDER

CLASSPATH has the library for Java and its tests, and FOLDER is empty. Java gives no texts to the core, so arguments and bodies
are empty here. A service in Java has one group, so each group is cut out. It ends with a line `N agree, M differ`.
"""

import re
import subprocess
import sys
from pathlib import Path
from typing import List

EXAMPLES = Path(__file__).resolve().parent.parent / "examples"
GROUPS = re.compile(r"^service\.groups = \[(?P<names>.*)\]", re.MULTILINE)
TEXT = re.compile(r'"(arg|body)":"(?:[^"\\]|\\.)*"')
# What a struct cannot say: totals have no native.
TOTALS = re.compile(r'^\{"op":"(totals|register|retire)".*\n?', re.MULTILINE)


def answered(words: List[str], text: str) -> str:
    """What a program writes where it is given the text."""
    return subprocess.run(words, input=text, capture_output=True, text=True, check=False).stdout


def prepare(program: str, settings: Path, script: Path, folder: Path) -> None:
    """Writes for each group its settings, its steps and the replies of the program."""
    text = settings.read_text()
    found = GROUPS.search(text)
    assert found, settings
    names = re.findall(r'"([^"]+)"', found["names"])
    lines = TOTALS.sub("", TEXT.sub(r'"\1":""', script.read_text()))
    for name in names:
        order = ", ".join(f'"{each}"' for each in sorted(names, key=lambda each: each != name))
        base = folder / f"{script.parent.name}-{name}"
        own = base.with_suffix(".toml")
        own.write_text(text.replace(found[0], f"service.groups = [{order}]"))
        steps = answered([program, "cut", str(own), "--group", name], lines)
        if steps:
            base.with_suffix(".jsonl").write_text(steps)
            base.with_suffix(".replies").write_text(answered([program, "run", str(own)], steps))


def main(program: str, classpath: str, folder: Path) -> int:
    """Compares all scripts, and returns the exit status."""
    for script in sorted(EXAMPLES.glob("*/script.jsonl")):
        if script.parent.name != "come-and-go":  # its groups are registered by lines
            prepare(program, script.with_name("settings.toml"), script, folder)
    subprocess.run(["java", "-cp", classpath, "bulkhead.hystrix.Rows", str(folder)], check=True)
    agree = differ = 0
    for replies in sorted(folder.glob("*.replies")):
        text = replies.read_text()
        is_same = text != "" and text == replies.with_suffix(".java").read_text()
        agree, differ = agree + is_same, differ + (not is_same)
        print(f"rows: {replies.stem}, {len(text.splitlines())} steps: {'the same' if is_same else 'DIFFERS'}")
    print(f"{agree} agree, {differ} differ")
    return 0 if agree and not differ else 1


if __name__ == "__main__":
    sys.exit(main(sys.argv[1], sys.argv[2], Path(sys.argv[3])))
