#!/usr/bin/env python3
"""Puts small faults into the model, one by one, and prints each that the stored answers do not show.

    mutants.py crates/vectors/data/reader.txt

A fault is a piece of model.py and what is put in its place.
"""
import os
import subprocess
import sys
import tempfile

HERE = os.path.dirname(os.path.abspath(__file__))

FAULTS = [
    # limits
    ("TEXT = 1024", "TEXT = 1023"), ("TEXT = 1024", "TEXT = 1025"),
    ("len(text) + behind - start > most", "len(text) + behind - start >= most"), ("len(text) + len(more) > most", "len(text) + len(more) >= most"),
    ("len(text) + len(more) > most", "len(text) >= most"),
    # what a token is
    (r"[\ \r\t\n,;=]+ |", r"[\ \r\t\n,;]+ |"), (r"[^\n]* |", r"[^\n\r]* |"), ("[)}] )", "[)] )"), ("/(?=[^/*])", "/(?=[^/* ])"),
    (",;=)}]* )", ",;)}]* )"), (",;=)}]* )", ",;=)]* )"), (r"[^\ \r\t\n,;=)}]* )", r"[^\ \r\t,;=)}]* )"), (r"[^\ \r\t\n,;=)}]* )", r"[^\ \r\t\n,;=()}]* )"),
    (r"/\*.*?\*/", r"/\*.*\*/"), (r"/\*.*?\*/", r"/\*(?:/|.*?\*/)"), (r"/\*.*?\*/ )", r"/\*.*?(?:\*/|\Z) )"),
    # characters
    (r"\x0c\x0a\x0d", r"\x0b\x0a\x0d"), ("˛ˇ", "ˇ˛"), (r"\ufffd\ufffd", r"ÿ\ufffd"), (r"[\xC2-\xDF]", r"[\xC0-\xDF]"), (r"\xE0[\xA0-\xBF]", r"\xE0[\x80-\xBF]"),
    (r"\xED[\x80-\x9F]", r"\xED[\x80-\xBF]"), (r"\xF4[\x80-\x8F]", r"\xF4[\x80-\xBF]"), (r"\xF0[\x90-\xBF]", r"\xF0[\x80-\xBF]"), (r"[\xF1-\xF3]", r"[\xF1-\xF5]"),
    ("[0-7]{3}", "[0-9]{3}"), ("[0-9A-Fa-f]{4}", "[0-9A-F]{4}"), ("[0-9A-Fa-f]{4}", "[+0-9A-Fa-f]{4}"), ("128 <= code <= 255", "128 <= code <= 254"),
    ("128 <= code <= 255", "129 <= code <= 255"), ("128 <= code <= 255", "128 <= code <= 256"), ("not 0xD800 <= first <= 0xDFFF", "not 0xD800 <= first <= 0xDBFF"),
    ('not in (b"u", b"U")', 'not in (b"u",)'), ("if first >= 0xDC00 or not", "if not"), ("or not 0xDC00 <= second <= 0xDFFF", ""), ("* 0x400", "* 0x200"),
    # numbers
    ("[+-]?[0-9]+", "[-]?[0-9]+"), ("[+-]?[0-9]+", "[+]?[0-9]+"), ("0x[0-9A-Fa-f]+", "0x[0-9a-f]+"), ("0x[0-9A-Fa-f]+", "0[xX][0-9A-Fa-f]+"),
    ("-2**63 <= value < 2**64", "-2**63 < value < 2**64"), ("-2**63 <= value < 2**64", "-2**63 <= value < 2**64 - 1"),
    ("-2**63 <= value < 2**64", "-2**63 - 1 <= value < 2**64"), ("-2**63 <= value < 2**64", "-2**63 <= value <= 2**64"),
    ("if value < 2**64 else None", "if value <= 2**64 else None"), ("if value < 2**64 else None", "if value < 2**63 else None"),
    ("    value = number(text)\n    return", "    value = None\n    return"),
    # positions
    ("raise Refused(9, start + most + 1)", "raise Refused(9, start + most)"), ("start + most - len(text) + 1)", "start + most - len(text))"),
    ("raise Refused(9, start)", "raise Refused(9, behind)"), ("whole_text(text, start + len(text))", "whole_text(text, start + len(text) + 1)"),
    ("whole_text(text, behind + 1)", "whole_text(text, behind)"), ("raise Refused(10, len(data))", "raise Refused(10, start)"),
    ("raise Refused(11, len(data))", "raise Refused(11, at)"), ("raise Refused(12, start + 1)", "raise Refused(12, start)"),
    ("raise Refused(13, start + 3)", "raise Refused(13, start + 2)"), ("raise Refused(14, start + 4)", "raise Refused(14, start + 1)"),
    ("raise Refused(14, behind + 1)", "raise Refused(14, behind + 2)"), ("raise Refused(14, behind + 6)", "raise Refused(14, behind + 5)"),
    # a source's fault, and checks left out
    ("max(len(data) - 1, 0)", "len(data)"), ("taken >= len(data) and", "taken > len(data) and"), ("fault is not None and taken", "fault and taken"),
    ("    whole_text(text, start + len(text))\n", ""), ("return whole_text(text, behind + 1)", "return text"),
]


def main():
    with open(sys.argv[1]) as file:
        lines = [line.rstrip("\n").split(" ", 1) for line in file if not line.startswith("#")]
    inputs = "".join(one + "\n" for one, _ in lines)
    wanted = [answer.split(" | ")[0] for _, answer in lines]
    with open(os.path.join(HERE, "model.py")) as file:
        model = file.read()
    seen = 0
    with tempfile.TemporaryDirectory() as scratch:
        path = os.path.join(scratch, "faulty.py")
        for old, new in FAULTS + [("", "")]:
            if old not in model:
                sys.exit(f"not in the model: {old}")
            with open(path, "w") as file:
                file.write(model.replace(old, new, 1))
            done = subprocess.run([sys.executable, path, "--batch", "-"], input=inputs, capture_output=True, text=True)
            same = done.returncode == 0 and done.stdout.splitlines() == wanted
            if not old and not same:
                sys.exit("the model itself does not give the stored answers")
            if old and same:
                print(f"not seen: {old!r} -> {new!r}")
            seen += not same
    print(f"{len(FAULTS)} faults, {seen} seen")


if __name__ == "__main__":
    main()
