#!/usr/bin/env python3
"""Respells the repository's own definitions and lemmas as today's Rattle spells them: words in snake case, facts in
upper camel case. For the move to that Rattle, run once, after the kit's port.py, at the top of the repository.

It turns whole names only, in what a check reads (.antt, .rt and .edit below crates/). A name is turned if some .antt
file has it, begins in lower case and has a capital further on. A function of src/ has no such name. An alias in two
parts, as `Page·start`, becomes one name, `page_start`.
"""

import os
import re

NAME = re.compile(r"[A-Za-zℕℤ][A-Za-z0-9_'ℕℤ]*")
ALIAS = re.compile(r"\b([A-Z][a-z]+)·([a-z]\w*)")
# Facts: functions into `Type 0`, which are spelled as types. Each stands in specs/Range.antt or proofs/Drawn.antt of the crates frame and page.
FACTS = {
    "accepted": "IsAccepted",
    "accepted_inclusive": "IsAcceptedInclusive",
    "empty": "IsEmpty",
    "empty_inclusive": "IsEmptyInclusive",
    "free": "IsFree",
    "free_inclusive": "IsFreeInclusive",
}
FACTS_IN = [f"crates/{crate}/{file}" for crate in ("frame", "page") for file in ("specs/Range.antt", "proofs/Drawn.antt")]
# Not behind a dot or a dash, which make it a field or a part of a lemma's name, and not a field that is set.
FACT = re.compile(r"(?<![\w.'-])(" + "|".join(FACTS) + r")(?![\w'-])(?! = λ)")


def snake(name):
    for size in ("4KiB", "2MiB", "1GiB"):
        name = name.replace(size, "_" + size.lower())
    return re.sub(r"(?<=[a-z0-9])[A-Z]+", lambda m: "_" + m.group().lower(), name)


def is_camel(name):
    return re.match(r"[a-z][a-z0-9_]*[A-Z]", name) is not None


def files():
    for folder, _, names in os.walk("crates"):
        if "/out" in folder:
            continue
        for name in sorted(names):
            if name.endswith((".antt", ".rt", ".edit")):
                yield os.path.join(folder, name)


def without_comment(line):
    at = re.search(r"(^|\s)--(\s|$)", line)
    return (line[: at.start()], line[at.start() :]) if at else (line, "")


def with_facts(text):
    lines = []
    for line in text.split("\n"):
        code, comment = without_comment(line)
        # An import of lemmas brings none of the facts.
        if not re.match(r"use .*\.proofs\.", code):
            code = FACT.sub(lambda m: FACTS[m.group()], code)
        lines.append(code + comment)
    return "\n".join(lines)


def main():
    texts = {path: open(path, encoding="utf-8").read() for path in files()}
    turned = {
        name
        for path, text in texts.items()
        if path.endswith(".antt")
        for name in NAME.findall(text)
        if is_camel(name)
    }
    for path, text in texts.items():
        new = NAME.sub(lambda m: snake(m.group()) if m.group() in turned else m.group(), text)
        new = ALIAS.sub(lambda m: m[1].lower() + "_" + snake(m[2]), new)
        if path in FACTS_IN:
            new = with_facts(new)
        if new != text:
            with open(path, "w", encoding="utf-8") as file:
                file.write(new)
    print(f"{len(turned)} names turned")


main()
