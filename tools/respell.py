#!/usr/bin/env python3
"""Respells the repository's own definitions and lemmas as today's Rattle spells them.

Run once, at the top, after the kit's port.py. Types, and modules' facts, go to upper camel case (`Token-by-token`
becomes `TokenByToken`); every other name goes to snake case (`buffer-bytes` becomes `buffer_bytes`), with `_lem`
behind it where a function of the code has that name (but for fields and constructors). Names that Rattle makes (goals, steps) and names of the code
are left alone, as is text in quotes.
"""
import glob
import re
import sys

NAME = r"[A-Za-z_][A-Za-z0-9_'₀-₉]*(?:-[A-Za-z0-9_'₀-₉]+)+"
TOKEN = re.compile(r"(?<![\w'₀-₉·◌/+*=<>%^|&\\-])" + NAME + r"(?![\w'₀-₉·◌-])")
# text in quotes, and single characters, of which one may be a quote
QUOTED = re.compile(r"""b?'(?:[^'\\]|\\.)'|"(?:[^"\\]|\\.)*\"""")


def own_files():
    return [f for d in ("specs", "proofs") for f in glob.glob(f"crates/*/{d}/*.antt")]


def declared():
    """The names with a dash that our own files define: types, definitions, lemmas, fields and constructors,
    and what imports call them."""
    dashed = set()
    for path in own_files():
        for line in open(path, encoding="utf-8"):
            line = re.sub(r"--.*", "", line.rstrip("\n"))
            m = re.match(r"^(?:  |    )?(?:unfoldable |abbrev |pub )*(?:(?:record|data|ruleset) )?((?:\w|[-'₀-₉])+)"
                         r"(?= :| [({])", line)
            if not m:
                continue
            indented, name = line.startswith(" "), m.group(1)
            # an indented name is a field or a constructor only if a colon ends it
            if indented and not re.match(r"^\s+(?:pub )?\S+ :", line):
                continue
            if "-" in name:
                dashed.add(name)
    for path in own_files() + glob.glob("crates/*/src/**/*.rt", recursive=True):
        for line in open(path, encoding="utf-8"):
            if re.match(r"(ghost )?use ", line):
                dashed.update(re.findall(r" as ([\w']+(?:-[\w']+)+)", line))
    return dashed


def functions():
    """The names of the code's functions."""
    paths = glob.glob("crates/*/src/**/*.rt", recursive=True)
    return {name for path in paths for name in re.findall(r"\bfn (\w+)", open(path, encoding="utf-8").read())}


def respelled(name, taken):
    # a value in spite of its capital; the code's function node_at answers it
    if name == "Node-at":
        return "node_at_lem"
    if name[0].isupper():
        return "".join(p[0].upper() + p[1:] for p in name.split("-"))
    new = name.replace("-", "_")
    return new + "_lem" if new in taken else new


def main():
    taken = functions()
    names = {n: respelled(n, taken) for n in declared()}
    names = {a: b for a, b in names.items() if a != b}
    if "--list" in sys.argv:
        for a, b in sorted(names.items()):
            print(a, b)
        return
    files = glob.glob("crates/*/specs/**/*.antt", recursive=True) + glob.glob("crates/*/proofs/**/*.antt", recursive=True)
    files += glob.glob("crates/*/src/**/*.rt", recursive=True) + glob.glob("docs/*.md") + ["README.md"]
    files += glob.glob("crates/*/must-fail/*.edit")

    def one(m):
        name, text = m.group(0), m.string
        # a field or a constructor stands with its record or type, beside no function
        line = text[text.rfind("\n", 0, m.start()) + 1 : m.start()]
        declares = "/specs/" in path and re.fullmatch(r" +(pub )?", line) and text.startswith(" :", m.end())
        inner = line.endswith(".") or declares
        return respelled(name, set()) if name in names and inner else names.get(name, name)

    changed = 0
    for path in files:
        if path == "docs/PORT.md":
            continue
        text = open(path, encoding="utf-8").read()
        if path.endswith(".rt"):
            parts, at = [], 0
            for m in QUOTED.finditer(text):
                parts.append(TOKEN.sub(one, text[at : m.start()]) + m.group(0))
                at = m.end()
            new = "".join(parts) + TOKEN.sub(one, text[at:])
        else:
            new = TOKEN.sub(one, text)
        if new != text:
            changed += 1
            open(path, "w", encoding="utf-8").write(new)
    print(f"respell: {len(names)} names, {changed} files")


main()
