"""Lists pairs of functions of src/ whose bodies are alike once names, numbers and texts are taken out: python3 tools/twins.py [FOLDER] [LEAST]"""

import difflib
import glob
import re
import sys

KEPT = set("if else match for while loop return let mut in Some None Ok Err true false self break continue".split())
TOKEN = re.compile(r'b?"(?:\\.|[^"\\])*"|b?\'(?:\\.|[^\'\\])\'|\w+|[^\s\w]')


def bodies(path):
    text = re.sub(r"//[^\n]*", "", open(path, encoding="utf-8").read())
    for m in re.finditer(r"\bfn (\w+)", text):
        at = m.end()
        depth = 0
        start = None
        # The body is the first block behind the signature that no clause opens.
        for k in range(at, len(text)):
            c = text[k]
            if c == ";" and depth == 0:
                break
            if c == "{":
                if depth == 0 and not re.search(r"(requires|ensures)(\s+\w+)?\s*$", text[at:k]):
                    start = k
                depth += 1
            elif c == "}":
                depth -= 1
                if depth == 0:
                    if start is not None:
                        yield m.group(1), text[start : k + 1]
                        break
                    at = k + 1


def shape(body):
    out = []
    for t in TOKEN.findall(body):
        if t in KEPT or not re.match(r"[\w\"'b]", t):
            out.append(t)
        elif re.match(r"\d", t):
            out.append("0")
        elif t[0] in "\"'" or t[:2] in ('b"', "b'"):
            out.append("text")
        else:
            out.append("name")
    return out


def main(argv):
    root = argv[0] if argv else "."
    least = float(argv[1]) if len(argv) > 1 else 0.8
    found = []
    for path in sorted(glob.glob(f"{root}/crates/*/src/**/*.rt", recursive=True)):
        for name, body in bodies(path):
            tokens = shape(body)
            if len(tokens) >= 24:
                found.append((f"{path[len(root) + 1:]} {name}", tokens))
    for i, (a, x) in enumerate(found):
        for b, y in found[i + 1 :]:
            if min(len(x), len(y)) / max(len(x), len(y)) >= least:
                r = difflib.SequenceMatcher(None, x, y, autojunk=False).ratio()
                if r >= least:
                    print(f"{r:.2f}  {a}  {b}")


if __name__ == "__main__":
    main(sys.argv[1:])
