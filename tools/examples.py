#!/usr/bin/env python3
"""Runs the examples that stand in a document, by the crate's reader and by the model, and prints each that is not as the document says.

    examples.py [--build DIR] docs/DIFFERENCES.md

An example is a run of indented lines `WORD  REST`: `input` (hexadecimal, `!CODE` or `!!CODE` for a fault, then two blanks and any words for
people), perhaps `again` (how often to ask behind the end or the refusal), then `crate` and `here`, or `both`. `(61*1025)` stands for so many.
"""
import argparse
import os
import re
import subprocess
import sys

import compare

LINE = re.compile(r"    (input|again|crate|here|both) +(.*)")


def spread(text):
    return re.sub(r"\(([0-9a-f]{2})\*(\d+)\)", lambda found: found[1] * int(found[2]), text)


def examples(path):
    found = None
    with open(path) as file:
        for number, line in enumerate(file, 1):
            parts = LINE.fullmatch(line.rstrip("\n"))
            if parts and parts[1] == "input":
                found = {"line": number, "input": spread(parts[2].split("  ")[0].replace(" ", "")), "again": "0"}
                yield found
            elif parts and found is not None:
                found.update({name: spread(parts[2]) for name in (["crate", "here"] if parts[1] == "both" else [parts[1]])})
            elif not parts:
                found = None


def main():
    parser = argparse.ArgumentParser()
    parser.add_argument("--build", default=os.path.join(compare.HERE, "..", "target", "tools"))
    parser.add_argument("document")
    options = parser.parse_args()
    oracle = compare.build(options.build)
    model = os.path.join(compare.HERE, "model.py")
    wrong = 0
    all_examples = list(examples(options.document))
    for example in all_examples:
        for name, command in [("crate", [oracle]), ("here", [sys.executable, model])]:
            done = subprocess.run([*command, "--batch", "--again", example["again"], "-"], input=example["input"] + "\n", text=True, stdout=subprocess.PIPE, check=True)
            if done.stdout.rstrip("\n") != example.get(name):
                wrong += 1
                print(f"{options.document}:{example['line']}: {name} answers {compare.cut(done.stdout.strip())}")
    print(f"{len(all_examples)} examples, {wrong} wrong answers")
    sys.exit(1 if wrong or not all_examples else 0)


if __name__ == "__main__":
    main()
