#!/usr/bin/env python3
"""Lists functions of src/ with the same body, where the body has more than 25 letters. A line is a place to look at, not a verdict.

Run at the top of the repository.
"""
import collections
import re
import subprocess

START = re.compile(r"^( *)(?:pub(?:\([a-z]+\))? )?fn (\w+)")


def functions(lines):
    """Each function's name and body: from the line that opens it to the line that closes it, at the same depth."""
    for at, line in enumerate(lines):
        found = START.match(line)
        if not found:
            continue
        depth, name = found.groups()
        if depth + "{}" in lines[at : at + 12]:
            continue
        opened = next((i for i in range(at, len(lines)) if lines[i] == depth + "{" or re.match(depth + r"\S.* \{$", lines[i])), None)
        closed = next((i for i in range(at, len(lines)) if lines[i] == depth + "}"), None)
        if opened is not None and closed is not None and opened < closed:
            yield name, " ".join(" ".join(lines[opened + 1 : closed]).split())


bodies = collections.defaultdict(list)
for path in subprocess.run(["git", "ls-files", "crates/*/src/*.rt"], capture_output=True, text=True, check=True).stdout.split():
    with open(path, encoding="utf-8") as file:
        for name, body in functions(file.read().split("\n")):
            if len(body) > 25:
                bodies[body].append(f"{path.removeprefix('crates/').replace('/src/', ' ')} {name}")

twins = [places for places in bodies.values() if len(places) > 1]
for places in twins:
    print("; ".join(places))
print(f"{len(twins)} bodies stand more than once, in {sum(map(len, twins))} functions")
