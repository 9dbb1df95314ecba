#!/usr/bin/env python3
"""Turns the names of this repository's own definitions and lemmas to one spelling.

usage: python3 tools/respell.py [FOLDER]      FOLDER has crates/; the default is the current one

Words are joined by `_`, as in `lane_changed`; a type, or a fact that is named as one, is in upper camel case, as in `LoadsOnce`. A dash
is left only where a lemma is named after two functions, as in `length-packed`. Names of code, of goals and of steps, texts and comments
are left alone, but for names between backquotes in a comment. Two names of one crate that would fall together are refused.
"""

import os
import re
import sys

# a character of a name, as the language of specifications has them
CHAR = r"[^\s(){}\[\],;.\"`]"
# names that the prover makes: goals, steps, measures, invariants
MADE = re.compile(r"^(returns|loop|invariant|decreases|ghost|overflow|bounds|offset|nonzero|slice_bounds|clause)-|-requires(-|$)")
# lemmas that are named after two functions keep their dash
TWO = {
    "length-packed": "length-packed",
    "length-ring": "length-ring",
    "length-digit": "length-digit",
    "length-step": "length-step",
    "length-turned": "length-turned",
    "getD-behind": "get_or-behind",
    "getD-drop-1": "get_or-drop_1",
}
# a name that would be another's
OTHER = {"Lane-call": "CallOnLane"}
# an item, also within a section, or a member of a type; a variable that is bound with its type; another name for an import
DEFINED = re.compile(r"^\s*(?:(?:abbrev|unfoldable|pub)\s+)*(?:(?:record|data|ruleset)\s+)?(" + CHAR + r"+)\s*(?:\(.*|\{.*)?:(?!:)")
BOUND = re.compile(r"[({](" + CHAR + r"+(?:\s+" + CHAR + r"+)*)\s+:\s")
RENAMED = re.compile(r"\bas (" + CHAR + r"+)")


def files(root, *ends):
    for folder, dirs, names in os.walk(os.path.join(root, "crates")):
        dirs[:] = sorted(d for d in dirs if d not in ("out", "target"))
        for name in sorted(names):
            if name.endswith(ends):
                yield os.path.join(folder, name)


def respelt(name):
    if name in TWO or name in OTHER:
        return TWO.get(name) or OTHER[name]
    if name[0].isupper():
        head, *rest = name.split("-")
        return head + "".join(w[:1].upper() + w[1:] for w in rest)
    return name.replace("-", "_")


def wanted(name):
    return "-" in name[1:-1] and name[0].isalpha() and name.isascii() and not MADE.search(name)


def definitions(path):
    """The names that a file gives: its items, the members of its types, its variables, and its own names for imports."""
    found = set()
    for line in open(path, encoding="utf-8"):
        if path.endswith(".antt") and not line.startswith(("--", "use ", "pub use ", "mod ", "pub mod ")):
            item = DEFINED.match(line)
            if item:
                found.add(item.group(1))
            for group in BOUND.findall(line):
                found.update(group.split())
        if re.match(r"\s*(pub |ghost )?use ", line):
            found.update(RENAMED.findall(line))
    return found


def crate_of(root, path):
    return os.path.relpath(path, os.path.join(root, "crates")).split(os.sep)[0]


def plan(root):
    own = {}
    for path in files(root, ".antt", ".rt"):
        own.setdefault(crate_of(root, path), set()).update(definitions(path))
    mapping = {}
    for names in own.values():
        mapping.update((n, respelt(n)) for n in names if wanted(n) and respelt(n) != n)
    for crate, names in own.items():
        made = {}
        for n in sorted(names):
            made.setdefault(mapping.get(n, n), []).append(n)
        for new, olds in made.items():
            if len(olds) > 1:
                print(f"look: in {crate} these fall together as {new}: {', '.join(olds)}")
    return mapping


def pattern(mapping):
    words = "|".join(re.escape(n) for n in sorted(mapping, key=len, reverse=True))
    return re.compile(r"(?<![\w'′-])((?:" + words + r"))(?![\w'′-])")


def turned(text, mapping, find, aliases):
    """The text with its names turned: not where a name is a step or a field, that is behind a dot that no module stands before."""

    def one(m):
        before = text[: m.start()]
        if before.endswith("."):
            head = re.search(r"(" + CHAR + r"+)\.$", before)
            module = head and (head.group(1)[0].isupper() or head.group(1) in aliases)
            if not module and not re.search(r"\s$", before[:-1]):
                return m.group(0)
        return mapping[m.group(1)]

    return find.sub(one, text)


def parts(line):
    """A line, cut into pieces that are code and pieces that are text or comment."""
    out, at = [], 0
    for m in re.finditer(r"\"(?:[^\"\\]|\\.)*\"|(?<!\S)--(?=\s|$).*|//.*", line):
        out.append((True, line[at : m.start()]))
        out.append((False, m.group(0)))
        at = m.end()
    out.append((True, line[at:]))
    return out


def turn_line(line, mapping, find, aliases):
    done = ""
    for code, piece in parts(line):
        if code:
            done += turned(piece, mapping, find, aliases)
        else:
            done += re.sub(r"`[^`]*`", lambda m: find.sub(lambda n: mapping[n.group(1)], m.group(0)), piece) if piece.startswith(("--", "//")) else piece
    return done


def clauses(text):
    """Which lines of a source file speak of definitions: imports for clauses, clauses, ghost items."""
    depth, spoken = 0, []
    for line in text.split("\n"):
        bare = line.strip()
        begins = re.match(r"(pub )?ghost\b|requires\b|ensures\b|// |///|//!", bare)
        if depth == 0 and begins:
            spoken.append(True)
            if not bare.startswith("//"):
                opened = line.count("{") - line.count("}")
                depth = opened if opened > 0 else 0
        elif depth > 0:
            spoken.append(True)
            depth = max(0, depth + line.count("{") - line.count("}"))
        else:
            spoken.append(False)
    return spoken


def main():
    root = sys.argv[1] if len(sys.argv) > 1 else "."
    mapping = plan(root)
    if not mapping:
        print("nothing to turn")
        return
    find = pattern(mapping)
    changed = 0
    for path in files(root, ".antt", ".rt"):
        with open(path, encoding="utf-8") as f:
            text = f.read()
        aliases = set(re.findall(r"\bas ([a-z]\w*)", text)) | {"specs", "proofs"}
        spoken = clauses(text) if path.endswith(".rt") else [True] * (text.count("\n") + 1)
        new = "\n".join(turn_line(line, mapping, find, aliases) if on else line for line, on in zip(text.split("\n"), spoken))
        if new != text:
            changed += 1
            with open(path, "w", encoding="utf-8") as f:
                f.write(new)
    print(f"{len(mapping)} names, {changed} files")


if __name__ == "__main__":
    main()
