#!/usr/bin/env python3
"""Prints a fixed sample of inputs with the answers of the Rust crate's reader and, where it is meant to differ, ours.

    vectors.py [--build DIR] > crates/vectors/data/reader.txt

The crate's answers come from tools/oracle, ours from tools/model.py; the adjusted oracle has to agree with the model, or nothing is printed.
"""
import argparse
import os
import random
import sys
import tempfile

import compare

HEAD = """\
# Answers of the ASCII reader of the Rust crate plist 1.10.3: a sample that has in it each rule of the reading, and each intended difference but
# the two that no line here can show, the limit on the whole input and the refusal that is repeated.
# Made by `python3 tools/vectors.py`: the crate's own files, built by rustc (tools/oracle), were run on the inputs that stand there.
# A line is an input in hexadecimal (`-` for no bytes), a blank, and the events, joined by `; `, up to the end or the refusal.
# `!CODE` behind an input: the source ends with a fault of that code.
# Such an answer is the crate's and ours. Where the crate answers otherwise, ours stands first, and behind it ` | `, the names of the intended
# differences that explain it (docs/DIFFERENCES.md), `: `, and the crate's answer. Where the name is unexpected-end-fault, the crate was given
# a fault that calls itself an unexpected end."""

# Bytes of every kind: controls, blanks, punctuation, some letters and digits, and bytes of UTF-8.
KINDS = bytes([*range(0x30), *b"09", *range(0x3A, 0x42), *b"XYZ", *range(0x5B, 0x62), *b"bfnrtuvxyz", *range(0x7B, 0x81), 0xBF, 0xC2, 0xE0, 0xF4, 0xFF])


def each(before, behind):
    return [before + bytes([kind]) + behind for kind in KINDS]


def octal(first, last, size=64):
    """All octal escapes from one code to another, some in each text."""
    codes = [b"\\%03o" % code for code in range(first, last + 1)]
    return [b'"' + b"".join(codes[i:i + size]) + b'"' for i in range(0, len(codes), size)]


def lists():
    chance = random.Random("lists")
    found = [compare.good_list(chance, 3) for _ in range(60)]
    return [text for text in found if 20 < len(text) < 300][:25]


def damaged():
    chance = random.Random("damaged")
    found = []
    for text in lists() * 3:
        for _ in range(chance.randrange(1, 4)):
            text = compare.damage(chance, text)
        found.append(text)
    return found


ROOM = b"a" * 1020

GROUPS = [
    ("what stands between tokens, and brackets", [
        b"", b" ", b"\r", b"\t", b"\n", b",", b";", b"=", b" \r\t\n,;= ", b"(", b")", b"{", b"}", b"()", b"{}", b"(}", b"{)", b")(", b"((((", b"}}}",
        b"(,,;;==)", b"{ a = 1; b = (2, \"3\"); }", b"{ a = 1; a = 2; b = 3; }", b"(1 2 }", b"{a=1}", b"{ 1 = 2; }", b"a ( b )", b"a }", b"a { b }", b"(a,b,c)",
        b"(a;b=c)", b"{a,1;b,2}", b"( a b c )", b"{user=wshakesp;birth=1564;death=1616;}",
    ]),
    ("a byte alone", each(b"", b"")),
    ("a byte inside a plain token", each(b"a", b"b")),
    ("plain tokens", [
        b"<00>", b"<0fbd77 1c2735ae>", b"a(b", b"a{b", b'a"b', b"a'b", b"a<b>c", b"a\\b", b"a\\nb", b"a/b", b"a//b", b"a/*b*/c", b"a/", b"a(b)c", b"a{b}c", b"key=value",
        b"key\n=\nvalue\n;", b"a\n", b"a\r\n", b"1\n", b"1\r\n2", b"1}", b"{a=1;b=2}", b"(a\nb\nc\n)", b"a\x0bb\x0cc", b"a\x00b", b"YES", b"3.25", b"1e5", b"$(x)", b"@", b"*", b"*/",
    ]),
    ("UTF-8 in plain tokens and quoted texts", [
        text for inner in [
            b"A\xe2\x89\xa2\xce\x91.", b"\xed\x95\x9c\xea\xb5\xad\xec\x96\xb4", b"\xe6\x97\xa5\xe6\x9c\xac\xe8\xaa\x9e", b"\xef\xbb\xbf\xf0\xa3\x8e\xb4", b"\x7f", b"\xc2\x80", b"\xdf\xbf",
            b"\xe0\xa0\x80", b"\xef\xbf\xbf", b"\xf0\x90\x80\x80", b"\xf4\x8f\xbf\xbf", b"\xed\x9f\xbf", b"\xee\x80\x80", b"\x80", b"\xbf", b"\xc0\x80", b"\xc1\xbf", b"\xc2", b"\xc2A",
            b"\xe0\x9f\xbf", b"\xed\xa0\x80", b"\xed\xa1\x8c\xed\xbe\xb4", b"\xe2\x89", b"\xf0\x8f\xbf\xbf", b"\xf4\x90\x80\x80", b"\xf5\x80\x80\x80", b"\xf0\x9f\x92", b"\xff", b"/\xc0\xae./",
        ] for text in [inner, b"(x, \"" + inner + b"\")"]
    ] + [b"a\xff b", b'a "\xff" b', b'"\xc2\\240"', b'"\\302\xa0"', b'"\xc3"\xa9', b"'\xc3\xa9'", b"\xff)", b"(\xff", b"\xc3\n\xa9", b"\xc3=\xa9"]),
    ("numbers", [
        b"0", b"5", b"-5", b"+5", b"-0", b"+0", b"00", b"010", b"-010", b"007", b"+", b"-", b"+-5", b"--5", b"5-", b"5+", b"5a", b"a5", b"1 2", b"1,2", b"1.0", b"1_0", b" 5 ",
        b"9223372036854775807", b"9223372036854775808", b"-9223372036854775808", b"-9223372036854775809", b"18446744073709551615", b"+18446744073709551615",
        b"18446744073709551616", b"+18446744073709551616", b"-18446744073709551615", b"00018446744073709551615", b"99999999999999999999", b"-99999999999999999999",
        b"0" * 60 + b"7", b"-" + b"0" * 60 + b"7", b"1" + b"0" * 60, b"'5'", b'"5"', b"\xd9\xa5",
        b"0x10", b"0x0", b"0xff", b"0xFF", b"0xfF", b"0X10", b"0x", b"0xg", b"0x1g", b"0x 1", b"-0x10", b"+0x10", b"00x10", b"x10", b"0xffffffffffffffff", b"0x10000000000000000",
        b"0x00000000000000000000ff", b"0x" + b"0" * 60 + b"f", b"0x-1", b"0x1.8", b"1x0", b"0x10)", b"(0x10;0x11)",
        b"0x0x10", b"0x0x", b"0x0x0x7", b"0x0xg", b"0x0X10", b"0x+10", b"0x+", b"0x++1", b"0x+0x10", b"0x0x+10", b"0x+ffffffffffffffff", b"{ a = 0x0x1F; b = 0x+1F; }",
    ]),
    ("`/` that opens no comment", [
        b"/12", b"/", b"/ ", b"/)", b"/;", b"/,", b"/\r", b"/\t", b"/\n", b"/}", b"/=", b"/(", b"/{", b"/\"", b"/'", b"/a", b"/a/b", b"/a//b", b"/a/*b", b"/usr/lib", b"(/)", b"(/a)", b"(/ a)",
        b"{a=/b;}", b"{/a=1;}", b"5 /", b"(/", b"/0x10", b"/-5", b"/\xc3\xa9", b"/\xff", b"/\\", b"/5 6", b"a /b",
    ]),
    ("comments to the end of the line", [
        b"//", b"//a", b"// a\n", b"// a\n5", b"//\n5", b"//\r5", b"// a\r\n5", b"5//6", b"5 //6", b"(1 // one\n, 2 // two\n)", b"// /* a\n5", b"// */ a\n5", b"//\xff\n5", b"///\n5", b"//*\n5*/", b"//\x00\n5",
    ]),
    ("block comments", [
        b"/**/", b"/**/ 5", b"/**/5", b"/* a */ 5", b"/* a */5", b"/*a*/5", b"/*/ 5", b"/*/", b"/*/*/ 5", b"/*", b"/**", b"/***", b"/***/", b"/***/ 5", b"/****/ 5", b"/*****/ 5", b"/* ", b"/* *", b"/* **", b"/* **/ 5",
        b"/* ***/ 5", b"/* ****/ 5", b"/* a * b */ 5", b"/* a ** b */ 5", b"/* a * / */ 5", b"/* a **/ 5 /* b **/ 6", b"/* a */ */ 5", b"/* /* a */ */ 5", b"/* // */ 5", b"/* \" */ 5", b"/*\n*/5", b"/*\xff*/5", b"/* * */", b"/*a*", b"/*a*b",
        b"(1 /* one */, 2 /* two */)", b"( 1 /* one **/, 2 )", b"(/**/)", b"(a /*/ b /*/ c)", b"5/**/", b"5 /**/ 6", b"{ a /* key */ = /* value */ 1; }", b"/*/ 5 */ 6", b"/*=*/x", b"5 /*", b"5 /* *", b"( /*",
        b"/**/ { a = 1; }", b"/** note **/ 5", b"/***** note *****/ 5",
    ]),
    ("quoted texts", [
        b'""', b"''", b'"a"', b"'a'", b'"a b"', b'"a\'b"', b"'a\"b'", b'"a\\"b"', b"'a\\'b'", b'"a\\\'b"', b"'a\\\"b'", b'"\\\\"', b'"5"', b"'-5'", b'"0x10"', b'"a;b,c=d"', b'"(x) {y}"', b'"// no"', b'"/* no */"',
        b'"\n"', b'"a\nb"', b'"\r\n"', b'"\x00"', b'"a""b"', b'"a"b', b'a"b"', b"'a''b'", b'"', b"'", b'"a', b'"a\'', b'(a, "b', b'"\\', b'"a\\', b'"\\"', b'"\\\\', b'("a" "b")', b'{ "a b" = "c d"; }', b'"\xc3\xa9"',
    ]),
    ("a backslash and a byte", each(b'"\\', b'"')),
    ("octal escapes", octal(0o000, 0o777) + [
        b'"\\256"', b'"\\400"', b'"\\28"', b'"\\1"', b'"\\1', b'"\\12', b'"\\12"', b'"\\1x', b'"\\1x"', b'"\\123', b'"\\1234"', b'"\\18"', b'"\\128"', b'"\\0"', b'"\\00"', b'"\\000"', b'"\\777"', b'"\\1\xc3\xa9"', b'"\\1\\2"', b'"\\1""',
        b'"\\+12"', b'"\\1+2"', b'"\\-12"', b"'\\101'", b'"\\101\\102\\103"', b'(a, "\\28")', b'"\\8"', b'"\\9"',
    ]),
    ("units in hexadecimal digits", [
        b'"\\U0041"', b'"\\u0041"', b'"\\U0000"', b'"\\U007f"', b'"\\U0080"', b'"\\U07FF"', b'"\\U0800"', b'"\\U20ac"', b'"\\U20AC"', b'"\\UD7FF"', b'"\\UE000"', b'"\\UFFFF"', b'"\\U00410"', b'"\\U+041"', b'"\\U+fff"', b'"\\U+04"', b'"\\U++41"', b'"\\U-041"',
        b'"\\U0+41"', b'"\\U 041"', b'"\\U004g"', b'"\\Ug004"', b'"\\U\xc3\xa900"', b'"\\U00"', b'"\\U00', b'"\\U', b'"\\U"', b'"\\U0041', b'"\\U+041', b'"\\U004"1"', b'"\\U\\041"', b'(a, "\\U00g0")', b"'\\U00e9'", b'"\\U+041\\U0042"',
    ]),
    ("pairs of units", [
        b'"\\UD83D\\uDCA9"', b'"\\UD83D\\UDCA9"', b'"\\ud83d\\udca9"', b'"\\Ud83d\\udca9"', b'"\\UD800\\uDC00"', b'"\\UDBFF\\uDFFF"', b'"\\UDCA9\\uD83D"', b'"\\UDCA9\\uDCA9"', b'"\\UD83D\\uD83D"', b'"\\UD83D\\u0041"', b'"\\UD83D\\uE000"', b'"\\UD83D\\uDBFF"',
        b'"\\UDC00\\uDC00"', b'"\\UDFFF"', b'"\\UDCA9"', b'"\\UD83D"', b'"\\UD83D', b'"\\UD83D\\', b'"\\UD83D\\u', b'"\\UD83D\\uDC', b'"\\UD83D\\uDCA', b'"\\UD83D\\uDCA9', b'"\\UD83Dx"', b'"\\UD83DuDCA9"', b'"\\UD83D\\x"', b'"\\UD83D\\n"', b'"\\UD83D\\\\uDCA9"',
        b'"\\UD83D\\uDCAg"', b'"\\UD83D\\u+CA9"', b'"\\UD83D\\uDCA"', b'"\\UD83D\\u\xc3\xa9\xc3\xa9"', b'"\\UD83D\\uDCA9\\UD83D\\uDCA9"', b'"\\UD83D\xf0\x9f\x92\xa9"', b'"a\\UD83D\\uDCA9b"', b'"\\UD83D\\uDCA9\\uDCA9"', b'"\\UD83D \\uDCA9"', b'"\\UD83D""',
    ]),
    ("where a refusal stands", [
        b"( 1, 2, \"\\q\" )", b"( 1, \"\\28\", 2 )", b"( 1, \"\\U00g0\" )", b"a b \xff c", b"a \"b\xffc\" d", b"a \"b", b"a /* b", b"a b /", b"a\n\xff\n", b"a=\xff=", b"{\xff}", b"(\xff)", b"\xff,", b'"\xff', b'"\xff\\q"', b'"\\q\xff"', b"\xff\"",
    ]),
    ("texts of about 1,024 bytes", [
        ROOM + b"aaa", ROOM + b"aaaa", ROOM + b"aaaaa", ROOM + b"aaaaa b", ROOM + b"aaaa\nb", ROOM + b"aaaa=b", ROOM + b"aaaa}", b"7" * 1024, b"7" * 1025, b"0" * 1023 + b"7", b"0" * 1024 + b"7", b"0x" + b"0" * 1021 + b"7", b"0x" + b"0" * 1022 + b"7",
        b'"' + ROOM + b'aaa"', b'"' + ROOM + b'aaaa"', b'"' + ROOM + b'aaaaa"', b'"' + ROOM + b'aaaaa', b'"' + ROOM + b'aaaa', b'"' + ROOM + b'aaaa\\n"', b'"' + ROOM + b'aaa\\n"', b'"' + ROOM + b'aaa\\400"', b'"' + ROOM + b'aa\\400"',
        b'"' + ROOM + b'aaaa\\256"', b'"' + ROOM + b'aaa\\256"', b'"' + ROOM + b'aa\\256"', b'"' + ROOM + b'a\\256"', b'"' + ROOM + b'aaa\\UD83D\\uDCA9 x"', b'"' + ROOM + b'\\UD83D\\uDCA9"', b'"' + ROOM + b'a\\UD83D\\uDCA9"', b'"' + ROOM + b'aaa\xc3\xa9"', b'"' + ROOM + b'aaaa\\q"', b'"' + ROOM + b'aaaa\\28x"', b'"' + ROOM + b'\xffaaa"',
        b'"' + ROOM + b'\xffaaaa"', b"/" + ROOM + b"aaa", b"/" + ROOM + b"aaaa", b"//" + ROOM + b"aaaaaaaa\n5", b"/*" + ROOM + b"aaaaaaaa*/5", b"(" + b'"' + ROOM + b'aaaaa")', b"\xff" + ROOM + b"aaa", b"\xff" + ROOM + b"aaaa",
    ]),
    ("sources that end with a fault", [
        (b"", "!7"), (b"5", "!7"), (b"5 ", "!7"), (b"5 6", "!7"), (b" ", "!0"), (b"(", "!255"), (b"()", "!1"), (b"() ", "!1"), (b'"a"', "!7"), (b'"a" ', "!7"), (b'"a', "!7"), (b'"\\', "!7"), (b'"\\q"', "!7"), (b'"\\q', "!7"), (b'"\\28"', "!7"), (b'"\\28', "!7"), (b'"\\2', "!7"),
        (b'"\\U00g0"', "!7"), (b'"\\U00g0', "!7"), (b'"\\UD83D\\', "!7"), (b'"\\UD83D\\x', "!7"), (b'"\\UD83Dx', "!7"), (b"/", "!7"), (b"/ ", "!7"), (b"/a", "!7"), (b"//", "!7"), (b"//a\n", "!7"), (b"/*", "!7"), (b"/**/", "!7"), (b"/**/ ", "!7"), (b"\xff", "!7"), (b"\xff ", "!7"),
        (b'"\xff"', "!7"), (b'"\xff" ', "!7"), (b"a\n", "!7"), (b"a}", "!7"), (b"a=", "!7"), (ROOM + b"aaaaa", "!7"), (ROOM + b"aaaaaa", "!7"), (ROOM + b"aaaa ", "!7"), (b'"' + ROOM + b'aaaaa', "!7"), (b'"' + ROOM + b'aaaaaa', "!7"),
        (b"", "!!7"), (b"1", "!!7"), (b"(1 2", "!!7"), (b'"a', "!!7"), (b"{ a = 1; }", "!!7"),
    ]),
    ("whole lists", lists() + [
        b"""{
    AnimalSmells = { pig = piggish; lamb = lambish; worm = wormy; };
    AnimalSounds = { pig = oink; lamb = baa; worm = baa;
        Lisa = "Why is the worm talking like a lamb?"; };
}
""",
        b"// one face\n{\n\tface = 12;\n\ttrim = (0x10, 0x1F, -3);\n\tname = \"Deckfl\\U00E4che\"; /* NEXTSTEP: \\331 */\n}\n",
        b"{ face = 12\n  name = lid\n  curves = ( 1\n 2\n 3 )\n}",
    ]),
    ("damaged lists", damaged()),
]


def main():
    parser = argparse.ArgumentParser()
    parser.add_argument("--build", default=os.path.join(compare.HERE, "..", "target", "tools"))
    options = parser.parse_args()
    options.oracle = compare.build(options.build)
    options.asks = []
    inputs = list(dict.fromkeys(compare.word(entry) for _, entries in GROUPS for entry in entries))
    with tempfile.TemporaryDirectory() as scratch:
        options.scratch = scratch
        path = os.path.join(scratch, "inputs")
        with open(path, "w") as file:
            file.writelines(one + "\n" for one in inputs)
        crate, ours, adjusted = (compare.Reader(name, options).answers(path, inputs) for name in ("oracle", "model", "adjusted"))
        if ours != adjusted:
            sys.exit("the model and the adjusted oracle answer differently; run compare.py first")
        names = compare.explanations(options, list(zip(inputs, ours)))
    answers = {}
    for one, theirs, our, name in zip(inputs, crate, ours, names):
        answers[one] = our if theirs == our else f"{our} | {','.join(name)}: {theirs}"
    print(HEAD)
    for title, entries in GROUPS:
        print(f"# {title}")
        for entry in entries:
            one = compare.word(entry)
            if one in answers:
                print(f"{one.replace('!!', '!')} {answers.pop(one)}")


if __name__ == "__main__":
    main()
