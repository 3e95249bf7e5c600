#!/usr/bin/env python3
"""A model of the reader, written from the rules of the format and apart from every program that reads it.

    model.py [OPTION ...] FILE            the events of the file's bytes, one a line; then `end`, or the refusal
    model.py --batch [OPTION ...] FILE    one input a line, answered by one line: the same lines joined by `; `

FILE `-` is standard input. An input is hexadecimal, `-` for no bytes; `!CODE` or `!!CODE` at its end: the source ends with a fault of
that code. Options:
    --deck       the bytes are cards of 80 bytes, of which the first 72 count
    --text N     the most bytes of a text, in place of 1,024
    --input N    the last position, in place of 16,777,215
    --again N    ask N times more, behind the end or the refusal

A reader has to go byte by byte. The model does not: it has all bytes at hand, cuts them into tokens by patterns, and notes how many bytes are
taken when a token, or the refusal, is complete. A source's fault and the limit on the input then follow from that number alone: what needs
the last byte before a fault is lost to the fault, and what needs a byte behind the last position is too long.
"""
import re
import sys

TEXT = 1024
INPUT = 16777215

NAMES = {
    7: "Io", 8: "TooLong", 9: "TextTooLong", 10: "UnclosedString", 11: "IncompleteComment", 12: "InvalidUtf8AsciiStream",
    13: "InvalidOctalString", 14: "InvalidUtf16String",
}

# What can begin at a byte. Where none of these does, a comment is open: a `/` with nothing behind it, or a `/*` with no `*/`.
TOKEN = re.compile(rb"""
    (?P<between>     [\ \r\t\n,;=]+ | //[^\n]* | /\*.*?\*/ )
  | (?P<array>       \( )
  | (?P<dictionary>  \{ )
  | (?P<close>       [)}] )
  | (?P<quote>       ["'] )
  | (?P<plain>       (?: [^\ \r\t\n,;=(){}"'/] | /(?=[^/*]) ) [^\ \r\t\n,;=)}]* )
""", re.VERBOSE | re.DOTALL)

# The bytes of a quoted text that stand for themselves, by its quote.
RAW = {b"'"[0]: re.compile(rb"[^\\']*"), b'"'[0]: re.compile(rb'[^\\"]*')}

ESCAPES = {b"\\\"'abfnrtv"[i]: b"\\\"'\x07\x08\x0c\x0a\x0d\x09\x0b"[i] for i in range(10)}

# The NEXTSTEP encoding from 128 up, its last two codes undefined.
NEXTSTEP = ("\u00a0ÀÁÂÃÄÅÇÈÉÊËÌÍÎÏ" "ÐÑÒÓÔÕÖÙÚÛÜÝÞµ×÷" "©¡¢£⁄¥ƒ§¤’“«‹›ﬁﬂ" "®–†‡·¦¶•‚„”»…‰¬¿"
            "¹ˋ´ˆ˜¯˘˙¨²˚¸³˝˛ˇ" "—±¼½¾àáâãäåçèéêë" "ìÆíªîïðñŁØŒºòóôõ" "öæùúûıüýłøœßþÿ\ufffd\ufffd")
assert len(NEXTSTEP) == 128

# The syntax of UTF-8 in RFC 3629, section 4.
UTF8 = re.compile(rb"""(?:
    [\x00-\x7F]
  | [\xC2-\xDF][\x80-\xBF]
  | \xE0[\xA0-\xBF][\x80-\xBF] | [\xE1-\xEC][\x80-\xBF]{2} | \xED[\x80-\x9F][\x80-\xBF] | [\xEE-\xEF][\x80-\xBF]{2}
  | \xF0[\x90-\xBF][\x80-\xBF]{2} | [\xF1-\xF3][\x80-\xBF]{3} | \xF4[\x80-\x8F][\x80-\xBF]{2}
)*""", re.VERBOSE)

OCTAL = re.compile(rb"[0-7]{3}")
UNIT = re.compile(rb"[0-9A-Fa-f]{4}")
DECIMAL = re.compile(rb"[+-]?[0-9]+")
HEXADECIMAL = re.compile(rb"0x[0-9A-Fa-f]+")


class Refused(Exception):
    """A refusal by its number, and how many bytes are taken when it is made."""

    def __init__(self, number, position):
        self.number = number
        self.position = position


def whole_text(text, position):
    if not UTF8.fullmatch(text):
        raise Refused(12, position)
    return text


def number(text):
    if DECIMAL.fullmatch(text):
        value = int(text)
        return value if -2**63 <= value < 2**64 else None
    if HEXADECIMAL.fullmatch(text):
        value = int(text[2:], 16)
        return value if value < 2**64 else None
    return None


def plain(text, start, most):
    if len(text) > most:
        raise Refused(9, start + most + 1)
    whole_text(text, start + len(text))
    value = number(text)
    return f"String {text.hex()}" if value is None else f"Integer {value}"


def part(data, start, length):
    """So many bytes of a quoted text, all of them taken before they are judged."""
    if start + length > len(data):
        raise Refused(10, len(data))
    return data[start:start + length]


def unit(data, start):
    digits = part(data, start, 4)
    if not UNIT.fullmatch(digits):
        raise Refused(14, start + 4)
    return int(digits, 16)


def utf16(data, start):
    """The character of the unit that begins there, or of two units, and where it ends."""
    first = unit(data, start)
    behind = start + 4
    if not 0xD800 <= first <= 0xDFFF:
        return first, behind
    backslash = part(data, behind, 1)
    if backslash != b"\\" or data[behind + 1:behind + 2] not in (b"u", b"U"):
        raise Refused(14, behind + 1)
    second = unit(data, behind + 2)
    if first >= 0xDC00 or not 0xDC00 <= second <= 0xDFFF:
        raise Refused(14, behind + 6)
    return 0x10000 + (first - 0xD800) * 0x400 + (second - 0xDC00), behind + 6


def escape(data, start):
    """The character of the escape whose backslash stands before `start`, and where it ends."""
    letter = part(data, start, 1)[0]
    if letter in ESCAPES:
        return ESCAPES[letter], start + 1
    if letter in b"01234567":
        digits = part(data, start, 3)
        if not OCTAL.fullmatch(digits):
            raise Refused(13, start + 3)
        code = int(digits, 8)
        return (ord(NEXTSTEP[code - 128]) if 128 <= code <= 255 else code), start + 3
    if letter == b"U"[0]:
        return utf16(data, start + 1)
    raise Refused(12, start + 1)


def quoted(data, start, most):
    """The text whose opening quote stands before `start`, and where it ends, its closing quote taken."""
    quote = data[start - 1]
    text = b""
    while True:
        behind = RAW[quote].match(data, start).end()
        if len(text) + behind - start > most:
            raise Refused(9, start + most - len(text) + 1)
        text += data[start:behind]
        if part(data, behind, 1)[0] == quote:
            return whole_text(text, behind + 1), behind + 1
        character, start = escape(data, behind + 1)
        more = chr(character).encode("utf-8")
        if len(text) + len(more) > most:
            raise Refused(9, start)
        text += more


def tokens(data, most):
    """What the bytes stand for, each with the number of bytes taken then; at last `end`, or a refusal."""
    at = 0
    while at < len(data):
        found = TOKEN.match(data, at)
        if not found:
            raise Refused(11, len(data))
        at = found.end()
        kind = found.lastgroup
        if kind == "array":
            yield "StartArray", at
        elif kind == "dictionary":
            yield "StartDictionary", at
        elif kind == "close":
            yield "EndCollection", at
        elif kind == "plain":
            yield plain(found.group(), found.start(), most), at
        elif kind == "quote":
            text, at = quoted(data, at, most)
            yield f"String {text.hex()}", at
    yield "end", at


def refusal(number, position, code=None):
    carried = "" if code is None else f" code={code}"
    return f"refused {number} {NAMES[number]}{carried} at {position}"


def reading(data, fault=None, most=TEXT, last=INPUT):
    """The answers to be given of these bytes, behind which the source ends, or ends with a fault."""
    answers = []
    # The step that would take the last byte before a fault fetches the fault.
    lost = max(len(data) - 1, 0)

    def met(taken):
        if fault is not None and taken >= len(data) and lost <= last:
            return refusal(7, lost, fault)
        if taken > last:
            return refusal(8, last)
        return None

    try:
        for answer, taken in tokens(data, most):
            answers.append(met(taken) or answer)
            if answers[-1] is not answer:
                break
    except Refused as refused:
        answers.append(met(refused.position) or refusal(refused.number, refused.position))
    return answers


def cards(data):
    """The text of a deck, and its fault if its last card is cut short."""
    whole = len(data) // 80
    return b"".join(data[80 * i:80 * i + 72] for i in range(whole)), 1 if len(data) % 80 else None


def main():
    import argparse

    parser = argparse.ArgumentParser()
    parser.add_argument("--batch", action="store_true")
    parser.add_argument("--deck", action="store_true")
    parser.add_argument("--text", type=int, default=TEXT)
    parser.add_argument("--input", type=int, default=INPUT)
    parser.add_argument("--again", type=int, default=0)
    parser.add_argument("file")
    asked = parser.parse_args()
    source = sys.stdin.buffer if asked.file == "-" else open(asked.file, "rb")

    def answers(data, fault):
        if asked.deck:
            data, short = cards(data)
            fault = short if short is not None else fault
        found = reading(data, fault, asked.text, asked.input)
        return found + found[-1:] * asked.again

    if not asked.batch:
        print("\n".join(answers(source.read(), None)))
        return
    lines = []
    for line in source:
        word, _, code = line.strip().replace(b"!!", b"!").partition(b"!")
        data = b"" if word == b"-" else bytes.fromhex(word.decode())
        lines.append("; ".join(answers(data, int(code) if code else None)))
        if len(lines) == 4096:
            print("\n".join(lines))
            lines = []
    if lines:
        print("\n".join(lines))


if __name__ == "__main__":
    main()
