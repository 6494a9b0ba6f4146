#!/usr/bin/env python3
"""Brings the repository's own definitions and lemmas to one spelling: words in snake case, types and statements in camel case.

usage: tools/spell.py          in the repository, once, after the toolchain's port.py: rewrites crates/, README.md and docs/ in place

A name counts where an .antt file of crates/ declares it. Names of goals (`pub returns-x : goal.returns-x`), functions, strings and outputs stay.
Where two names of a file would fall together, nothing is written and the names are listed.
"""

import os
import re
import sys

# names that would fall together with another name of a file that cites both, or that speak of a word that is gone
OTHER = {
    "getD-all-shares": "get_or_all_shares",
    "is-zero": "zero_is",
    "fixed-groups": "fixed_groups_right",
}

NAME = r"[A-Za-z][\w'\-]*"
DECLARED = re.compile(rf"^\s*(?:abbrev pub |unfoldable pub |abbrev |unfoldable |pub |ruleset pub |ruleset |)(?:record |data |)({NAME})(?= [:({{]| *$)(.*)")
TOKEN = re.compile(r"(?<![\w'\-])[A-Za-z][\w'\-]*")


def files(kinds):
    for folder, folders, names in os.walk("crates"):
        folders[:] = sorted(f for f in folders if f != "out")
        for name in sorted(names):
            if name.endswith(kinds):
                yield os.path.join(folder, name)


def respelled(name):
    if name in OTHER:
        return OTHER[name]
    if name[0].isupper():
        return "".join(part[0].upper() + part[1:] for part in name.split("-"))
    return re.sub(r"(?<=[a-z0-9])([A-Z])", lambda m: "_" + m.group(1).lower(), name.replace("-", "_"))


def declared():
    found = {}
    for path in files((".antt",)):
        with open(path, encoding="utf-8") as f:
            for line in f:
                m = DECLARED.match(line)
                if not m or re.match(r"\s*:\s*goal\.", m.group(2)):
                    continue
                if ":" not in m.group(2) and not re.search(r"\b(record|data)\b", line):
                    continue
                name = m.group(1)
                if "-" in name or re.match(r"[a-z][a-z0-9]*[A-Z]", name):
                    found[name] = respelled(name)
    return found


def turned(text, names, seen=None):
    def one(m):
        old = m.group(0)
        new = names.get(old, old)
        before, after = text[: m.start()][-1:], text[m.end() :][:1]
        if before == "." and old in OTHER:
            # a step of a proof, named after a function
            new = old.replace("-", "_")
        if seen is not None and not (before == "." and after == "."):
            seen.setdefault(new, set()).add(old)
        return new
    return TOKEN.sub(one, text)


def in_code(line, names, mark, seen):
    """A line of .antt or .rt: strings stay, and of a comment what stands in backticks is turned, and what begins with a capital."""
    at = comment_at(line, mark)
    code, comment = line[:at], line[at:]
    parts = re.split(r'("(?:[^"\\]|\\.)*")', code)
    parts[::2] = [turned(p, names, seen) for p in parts[::2]]
    return "".join(parts) + in_text(comment, names)


def comment_at(line, mark):
    quoted = False
    for i, c in enumerate(line):
        if c == '"' and (i == 0 or line[i - 1] != "\\"):
            quoted = not quoted
        if not quoted and line.startswith(mark, i) and (mark == "//" or i == 0 or line[i - 1] == " "):
            return i
    return len(line)


def in_text(text, names):
    text = re.sub(r"`[^`\n]*`", lambda m: turned(m.group(0), names), text)
    capital = {a: b for a, b in names.items() if a[0].isupper()}
    return turned(text, capital)


def main():
    names = declared()
    written, together = {}, []
    for path in files((".antt", ".rt", ".edit")):
        with open(path, encoding="utf-8") as f:
            text = f.read()
        mark = "//" if path.endswith(".rt") else "--"
        # a contract may cite a definition that has the name of its function
        seen = None if mark == "//" else {}
        written[path] = "".join(in_code(line, names, mark, seen) for line in text.splitlines(keepends=True))
        together += [f"{path}: {', '.join(sorted(olds))} would all be {new}" for new, olds in sorted((seen or {}).items()) if len(olds) > 1]
    if together:
        print("\n".join(together))
        return 1
    for path in ["README.md"] + sorted(os.path.join("docs", d) for d in os.listdir("docs") if d.endswith(".md")):
        with open(path, encoding="utf-8") as f:
            written[path] = in_text(f.read(), names)
    for path, text in written.items():
        with open(path, "w", encoding="utf-8") as f:
            f.write(text)
    print(f"{len(names)} names, {len(written)} files")
    return 0


if __name__ == "__main__":
    sys.exit(main())
