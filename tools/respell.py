#!/usr/bin/env python3
"""Respells the repository's own antt names: words are joined by '_', and a fact is in camel case.

usage: python3 tools/respell.py      at the top of the repository, once, right after the kit's port.py

A dash stays where it joins two names, as in `length-edited`. Names that the checker makes keep their dashes,
as do functions of src/. It turns declarations in specs/ and proofs/, and each use of them in .antt files, in the
clauses of .rt files, in must-fail edits, and between backticks in README.md and docs/.
"""

import os
import re
import sys

DECLARED = re.compile(
    r"^\s*(?:\|\s*)?((?:(?:abbrev|unfoldable|pub|data|record|ruleset)\s+)*)([^\s:(){}\[\].;,λ]+)((?:\s+[({].*?[)}])*)\s*:\s+(.*)$"
)
MADE = re.compile(r"^(goal|given|need)\.")
JOINED = ("length-", "get_or-", "slice_get-")
SAID = {
    "nth-map": "slice_get-map",
    "nth-none": "slice_get-none",
    "nth-within": "slice_get-within",
    "getD-before": "get_or-before",
    "getD-behind": "get_or-behind",
    "in-old": "in_old",
    "R-at": "r_at",
    "M-at": "m_at",
    "F-at": "f_at",
    "S-at": "s_at",
    "R-line": "r_line",
    "M-line": "m_line",
    "F-line": "f_line",
    "S-line": "s_line",
}
# What the checker names in this way itself, so that a use may mean its name.
TAKEN = re.compile(r"^(in|then|else|if|returns|loop|invariant|decreases|overflow|bounds|row)-|-(is|init|preserved|smaller|requires|end|index)$")


def files(*ends):
    for folder, dirs, names in os.walk("crates"):
        dirs[:] = sorted(d for d in dirs if d != "out")
        for name in sorted(names):
            if name.endswith(ends):
                yield os.path.join(folder, name)


def read(path):
    with open(path, encoding="utf-8") as f:
        return f.read()


def without_comment(line, mark):
    at = line.find(mark)
    return line if at < 0 else line[:at]


def spelt(name):
    if name in SAID:
        return SAID[name]
    if name.startswith(JOINED):
        return name.replace("\u2032", "'")
    parts = name.replace("\u2032", "'").split("-")
    if name[0].isupper():
        return "".join(p[:1].upper() + p[1:] for p in parts)
    return "_".join(parts)


def declared():
    """Each name of the repository's own, and whether it is a field or a constructor."""
    own, all_names = {}, set()
    for path in files(".antt"):
        field = False
        for line in read(path).split("\n"):
            code = without_comment(line, "--")
            if code.strip() and not code.startswith(" "):
                field = bool(re.match(r"(pub\s+|abbrev\s+)*(record|data)\s", code))
            m = DECLARED.match(code)
            if not m:
                continue
            name, what = m.group(2), m.group(4)
            all_names.add(name)
            if "-" not in name or MADE.match(what) or not re.match(r"[A-Za-z]", name):
                continue
            inside = code.startswith(" ") and field
            own[name] = own.get(name, False) or inside
    return own, all_names


def main():
    own, all_names = declared()
    turned = {n: spelt(n) for n in own if spelt(n) != n}
    together = {}
    for old, new in turned.items():
        together.setdefault(new, []).append(old)
    bad = [(new, olds) for new, olds in together.items() if len(olds) > 1 or new in all_names]
    for new, olds in sorted(bad):
        print(f"fall together: {new}: {' '.join(olds)}", file=sys.stderr)
    if bad:
        raise SystemExit(1)
    token = re.compile(r"(?<![\w'\u2032-])(\.?)([A-Za-z][\w'\u2032-]*-[\w'\u2032-]*\w'*)(?![\w-])")

    def turn(text):
        def one(m):
            dot, name = m.groups()
            new = turned.get(name)
            if new is None or (dot and not own[name] and TAKEN.search(name)):
                return m.group(0)
            return dot + new

        return token.sub(one, text)

    count = 0
    for path in files(".antt", ".rt", ".edit"):
        old = read(path)
        mark = "--" if path.endswith(".antt") else "//"
        out = []
        for line in old.split("\n"):
            if path.endswith(".edit") and line.startswith("file:"):
                out.append(line)
                continue
            code = without_comment(line, mark)
            rest = line[len(code) :]
            pieces = re.split(r'("(?:[^"\\]|\\.)*")', code)
            out.append("".join(p if p.startswith('"') else turn(p) for p in pieces) + rest)
        new = "\n".join(out)
        if new != old:
            count += 1
            with open(path, "w", encoding="utf-8") as f:
                f.write(new)
    for path in ["README.md"] + [os.path.join("docs", n) for n in sorted(os.listdir("docs")) if n.endswith(".md")]:
        old = read(path)
        new = re.sub(r"`[^`\n]+`", lambda m: "`" + turned.get(m.group(0)[1:-1], m.group(0)[1:-1]) + "`", old)
        if new != old:
            count += 1
            with open(path, "w", encoding="utf-8") as f:
                f.write(new)
    print(f"{len(turned)} names, {count} files")


if __name__ == "__main__":
    main()
