#!/usr/bin/env python3
"""Lists the functions of crates/*/src whose text differs in names and numbers alone.

    python3 tools/twins.py [COMMIT]

A group is two or more functions with the same text once every name and number in the signature and the body is
replaced by one sign; clauses, attributes, comments and a comma before a closing bracket are left out, and so are
functions of fewer than 30 signs.
"""
import re
import subprocess
import sys

FEWEST = 30


def files(commit):
    if commit is None:
        out = subprocess.check_output(["git", "ls-files", "crates/*/src/*.rt"], text=True)
        return {p: open(p).read() for p in out.split()}
    out = subprocess.check_output(["git", "ls-tree", "-r", "--name-only", commit, "crates"], text=True)
    paths = [p for p in out.split() if re.fullmatch(r"crates/\w+/src/\w+\.rt", p)]
    return {p: subprocess.check_output(["git", "show", f"{commit}:{p}"], text=True) for p in paths}


def functions(text):
    text = re.sub(r"//.*", "", text)
    for m in re.finditer(r"\bfn (\w+)", text):
        i = m.end()
        # The clauses stand between the signature and the body: the body's brace begins a line.
        b = re.compile(r"\n *\{\n|\{\n").search(text, i)
        sig_end = re.compile(r"\n *(ensures|requires|ghost) |\{\n|;").search(text, i)
        if b is None or sig_end is None or text[sig_end.start()] == ";":
            continue
        j, depth = b.end(), 1
        while depth and j < len(text):
            depth += {"{": 1, "}": -1}.get(text[j], 0)
            j += 1
        yield m.group(1), text[i:sig_end.start()] + text[b.start():j]


def shape(code):
    code = re.sub(r",(\s*[)}\]])", r"\1", code)
    words = re.findall(r"[A-Za-z_]\w*|0x[0-9a-f_]+|\d[\d_]*|\S", code)
    keep = {"if", "else", "let", "match", "return", "while", "for", "in", "mut", "self", "Self", "as"}
    return tuple(w if w in keep or not re.match(r"\w", w) else "x" for w in words)


def main():
    groups = {}
    for path, text in sorted(files(sys.argv[1] if 1 < len(sys.argv) else None).items()):
        for name, code in functions(text):
            s = shape(code)
            if FEWEST <= len(s):
                groups.setdefault(s, []).append(f"{path.split('/')[1]} {name}")
    twins = sorted((g for g in groups.values() if 1 < len(g)), key=lambda g: (-len(g), g))
    for g in twins:
        print(f"{len(g)}: " + ", ".join(g))
    print(f"{sum(map(len, twins))} functions in {len(twins)} groups")


main()
