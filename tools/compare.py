#!/usr/bin/env python3
"""Holds readers of ASCII property lists against each other on the same inputs, and sorts every difference.

    compare.py [OPTION ...] LEFT RIGHT [PART ...]

LEFT and RIGHT are two of:
    oracle      the reader of the Rust crate plist 1.10.3 (tools/oracle)
    adjusted    the same with every intended difference switched on
    unadjusted  the adjusted copy with none switched on, which has to be the crate's reader
    model       the model (tools/model.py)
    attrs       the proved program of this repository

PARTs are the families of inputs below; with none named, all but `five` and `longest`. For each part it prints how many inputs were run, how many
answers are the same, how many differ as intended, and the findings.

Where one of the two is the crate's reader, the other has to answer, on every input, as the adjusted reader does with all intended differences
switched on; an answer that it does not give is a finding, printed with its input. A difference between the two is then put down to the smallest
set of intended differences that turns the crate's answer into the other one: the adjusted reader is tried with every set, the small ones first.
For each intended difference the report says how often it was that set alone, how often it was part of it, and the shortest input that it
explains alone. Where none of the two is the crate's reader, every difference is a finding. The status is 1 if there is one.

OPTIONS
    --build DIR     where the oracle is built (target/tools)
    --attrs PATH    the program (./attrs)
    --one-by-one    run the program once for each input (`attrs events FILE`) and not on many (`attrs batch FILE`); inputs with a fault are left out
    --sample N      of each part about N inputs, evenly picked
    --random N      how many inputs a random part has (100000)
    --seed N        for the random parts (1)
    --show N        print at most N findings of a part (10)
"""
import argparse
import collections
import itertools
import os
import random
import subprocess
import sys
import tempfile

HERE = os.path.dirname(os.path.abspath(__file__))
CHUNK = 200000

# The parts, by name: a function from the options to inputs, each as bytes or as a pair of bytes and a fault (`!CODE`, `!!CODE`).
PARTS = {}
# What a part asks of the readers beside its inputs. The program has no such options and is left out there.
ASKS = {}
SLOW = ["five", "longest"]


def part(*asks):
    def note(make):
        PARTS[make.__name__] = make
        ASKS[make.__name__] = list(asks)
        return make
    return note


# Quotes, backslash, slash, star; digits in and out of octal, signs, the x of hexadecimal; letters of escapes, a letter that is no digit in
# any base; separators and brackets; a two-byte character in its two bytes, a byte that is never UTF-8, and zero.
ALPHABET = b"\"'\\/*0178x+-anUuDg \n\r,;=(){}\xc3\xa9\xff\x00"
SMALLER = b"\"\\/*01x+aU \n;=(){}\xc3\xa9"


def words(alphabet, lengths, before=b"", behind=b""):
    letters = [bytes([byte]) for byte in alphabet]
    for length in lengths:
        for word in itertools.product(letters, repeat=length):
            yield before + b"".join(word) + behind


@part()
def pairs(options):
    """All inputs of at most two bytes."""
    return words(range(256), range(3))


@part()
def short(options):
    """All inputs of three and four bytes over 32 chosen bytes."""
    return words(ALPHABET, range(3, 5))


@part()
def five(options):
    """All inputs of five bytes over these 32."""
    return words(ALPHABET, [5])


@part()
def six(options):
    """All inputs of five bytes over 20 of them, and of six bytes over 12."""
    yield from words(SMALLER, [5])
    yield from words(b"\"/*0x+ \n={}a", [6])


@part()
def comments(options):
    """All inputs of at most nine bytes over slash, star, a letter and LF, and what stands behind a comment."""
    yield from words(b"/*a\n", range(10))
    yield from words(b"/* ", range(10), b"/*", b" 5")
    yield from words(b"/*\n\r", range(6), b"a ", b" (b) /* c */ d")


@part()
def numbers(options):
    """All tokens of at most six bytes over digits, signs and x; both sides of each bound, with signs, zeros and in both bases."""
    yield from words(b"019xXaFg+-", range(1, 7))
    bounds = [0, 1, 9, 10, 2**31, 2**32, 2**53, 10**18, 10**19, 2**63, 2**64, 16**15, 10**20, 2**65, 2**127, 2**128, 10**40, 10**300]
    for bound in bounds:
        for value in range(max(bound - 3, 0), bound + 4):
            for zeros in [0, 1, 2, 19, 20, 200]:
                decimal = b"%s%d" % (b"0" * zeros, value)
                hexadecimal = b"0" * zeros + b"%x" % value
                for sign in [b"", b"+", b"-", b"--", b"+-"]:
                    yield sign + decimal
                    yield sign + b"0x" + hexadecimal
                for prefix in [b"0x0x", b"0x+", b"0x-", b"0x0x+", b"0x+0x", b"0X", b"00x", b"0x0X"]:
                    yield prefix + hexadecimal
                yield b"0x" + hexadecimal.upper()
                yield decimal + b"."
                yield decimal + b".5"
    for head in [b"", b"0x"]:
        for length in range(1, 70):
            for digit in b"0179af":
                yield head + bytes([digit]) * length


@part()
def escapes(options):
    """A backslash and any two bytes in a quoted text, closed; all texts of three octal digits; three bytes over digits and others."""
    yield from words(range(256), range(3), b'"\\', b'"')
    yield from words(range(256), [1], b"'\\", b"'")
    yield from words(b"01234567", [3], b"'\\", b"x'")
    yield from words(b"0123456789 \"\\ax+-\xc3", range(4), b'"\\', b'"')
    yield from words(b"01278\"\\", range(6), b'"\\')


@part()
def units(options):
    """Units in hexadecimal digits and near them; what may stand behind a surrogate unit; pairs of units on both sides of each bound."""
    yield from words(b"0478DdCfF+-g\\\" \xc3", range(5), b'"\\U', b'"')
    yield from words(b"0D+u\\\"", range(7), b'"\\U')
    for first in [b"D83D", b"DCA9", b"d800", b"DFFF"]:
        yield from words(b"\\uUDC9\"+", range(6), b'"\\U' + first)
        yield from words(b"0D+C9g\"\\", range(5), b'"\\U' + first + b"\\u", b'"')
    bounds = [0, 0x41, 0x7F, 0x80, 0x7FF, 0x800, 0xD7FF, 0xD800, 0xD801, 0xDBFF, 0xDC00, 0xDC01, 0xDFFE, 0xDFFF, 0xE000, 0xFFFD, 0xFFFE, 0xFFFF]
    for first in bounds:
        yield b'"\\U%04x"' % first
        yield b'"\\u%04x"' % first
        for second in bounds:
            for letter in b"uUx":
                for form in [b'"\\U%04X\\%c%04X"', b"'a\\U%04x\\%c%04xb'"]:
                    yield form % (first, letter, second)


@part()
def utf8(options):
    """Two, three and four bytes on both sides of each bound of UTF-8, in plain tokens and in quoted texts."""
    bounds = bytes.fromhex("41 7f 80 8f 90 9f a0 bf c0 c1 c2 df e0 e1 ec ed ee ef f0 f1 f3 f4 f5 f8 ff")
    for text in itertools.chain(words(range(128, 256), [2]), words(bounds, [3, 4])):
        yield b'"' + text + b'"'
        yield text
    for text in words(bounds, [2]):
        yield b'"\\241' + text + b'\\n"'
        yield b'"' + text[:1] + b"\\200" + text[1:] + b'"'


@part()
def texts(options):
    """Texts of about 1,024 bytes: tokens, digits, quoted texts, and every kind of escape where the room ends."""
    pieces = [b"", b"a", b"\\n", b"\\101", b"\\200", b"\\256", b"\\400", b"\\U0041", b"\\U00e9", b"\\U20ac", b"\\UD83D\\uDCA9", b"\xc3\xa9",
              b"\xe2\x82\xac", b"\xf0\x9f\x92\xa9", b"\xc3", b"\xff", b"\\q", b"\\28x", b"\\U+041", b"\\UD83D", b"\\", b"\\1", b"\\UD83Dx", b"\\'"]
    for length in range(1016, 1028):
        for tail in [b"", b" ", b")", b"\n", b"=1", b"}", b"\xc3", b"\xc3\xa9", b"\xff "]:
            for filler in [b"a", b"7", b"\xc3\xa9", b"/", b'a"']:
                yield (filler * length)[:length] + tail
            yield b"/" + b"a" * (length - 1) + tail
            yield b"0x" + b"0" * (length - 2) + tail
            yield b"-" + b"0" * (length - 2) + b"7" + tail
        for piece in pieces:
            for more in [b"", b"a", b"aaaa", b"\\n", b"\\256"]:
                for close in [b"", b'"', b'" 5']:
                    yield b'"' + b"a" * length + piece + more + close
        yield b"'" + b"\\n" * length + b"'"
        yield b'"' + b"\\256" * (length // 3) + b"a" * (length % 3) + b'"'
        yield b"(a, '" + b"x" * length + b"', b)"
        yield b"//" + b"c" * length + b"\n5"
        yield b"/*" + b"*" * length + b"/5"
    for length in [2000, 5000, 20000]:
        for filler in [b"a", b"1", b'"', b"'", b"(", b"\\", b"\xc3\xa9"]:
            yield filler * length
        yield b'"' + b"a" * length + b'"'


WORDS = [b"a", b"name", b"Face_12", b"trim-curve", b"0", b"5", b"-17", b"+4", b"007", b"0x1F", b"0xffffffffffffffff", b"0x", b"0x0x10", b"0x+7",
         b"18446744073709551615", b"18446744073709551616", b"-9223372036854775808", b"-9223372036854775809", b"3.25", b"/usr/lib", b"/12", b"/", b"a/b",
         b"a//b", b"a/*b", b"<0fbd77>", b"<00", b"\xc3\xa9t\xc3\xa9", b"\xe2\x82\xac", b"\xf0\x9f\x92\xa9", b"\xff", b"\xc3", b"\\n", b"a\\b", b'a"b', b"a'b",
         b"a(b", b"a{b", b"a<b>", b"\x0b", b"\x0c", b"\x00", b"a\x7f", b"YES", b"@x", b"#"]
QUOTES = [b'""', b"''", b'"3"', b"'a b'", b'"a\\"b"', b"'a\\'b'", b'"a\'b"', b"'a\"b'", b'"\\256"', b'"\\400"', b'"\\000"', b'"\\777"', b'"\\a\\b\\f\\n\\r\\t\\v"',
          b'"\\U00e9"', b'"\\UD83D\\uDCA9"', b'"\\UD83D\\UDCA9"', b'"\\UDCA9\\uD83D"', b'"\\U+041"', b'"\\U00g0"', b'"\\28"', b'"\\8"', b'"\\q"', b'"\\u0041"',
          b'"\xc3\xa9"', b'"\xff"', b'"a;b,c=d"', b'"(x)"', b'"// no"', b'"/* no */"', b'"', b"'", b'"\\', b'"\n"']
BLANKS = [b" ", b" ", b" ", b"", b"\n", b"\r\n", b"\t", b"  ", b",", b";", b"=", b" = ", b", ", b"; ", b"// note\n", b"//\n", b"/* note */", b"/**/",
          b"/*/", b"/***/", b"/* **/", b"/*", b"//", b"\x0b", b"\x0c", b"*/"]
BRACKETS = [b"(", b")", b"{", b"}"]


@part()
def tokens(options):
    """Random tokens and blanks one after another."""
    chance = random.Random(f"{options.seed} tokens")
    for _ in range(options.random):
        text = b""
        for _ in range(chance.randrange(1, 12)):
            kind = chance.random()
            text += chance.choice(BRACKETS if kind < 0.25 else QUOTES if kind < 0.4 else WORDS)
            text += chance.choice(BLANKS)
        yield text


def good_list(chance, depth):
    kind = chance.random()
    space = lambda: chance.choice([b"", b" ", b" ", b"\n", b"\n    ", b"\t", b" /* note */ ", b" // note\n"])
    if depth == 0 or kind < 0.4:
        if chance.random() < 0.3:
            return b"%d" % chance.randrange(-10**chance.randrange(1, 19), 10**chance.randrange(1, 20))
        if chance.random() < 0.1:
            return b"0x%x" % chance.randrange(2**64)
        if chance.random() < 0.5:
            return bytes(chance.choice(b"abcdefghijklmnopqrstuvwxyzABCXYZ0123456789_.") for _ in range(chance.randrange(1, 12)))
        body = b"".join(chance.choice([b"a", b"b ", b"Z9", b"\\n", b"\\\\", b'\\"', b"\\'", b"\\256", b"\\U20AC", b"\\UD83D\\uDCA9", b"\xc3\xa9", b";", b"(", b"/"])
                        for _ in range(chance.randrange(8)))
        return b'"' + body + b'"'
    if kind < 0.7:
        items = [good_list(chance, depth - 1) for _ in range(chance.randrange(5))]
        return b"(" + space() + (b"," + space()).join(items) + b" )"
    found = b"{" + space()
    for _ in range(chance.randrange(5)):
        found += good_list(chance, 0) + b" = " + good_list(chance, depth - 1) + b";" + space()
    return found + b"}"


@part()
def lists(options):
    """Random lists without a fault in them."""
    chance = random.Random(f"{options.seed} lists")
    for _ in range(options.random):
        yield good_list(chance, chance.randrange(5))


def damage(chance, text):
    at = chance.randrange(len(text) + 1)
    to = min(len(text), at + chance.randrange(1, 5))
    kind = chance.randrange(7)
    byte = bytes([chance.choice(ALPHABET) if chance.random() < 0.8 else chance.randrange(256)])
    if kind == 0:
        return text[:at] + text[to:]
    if kind == 1:
        return text[:at] + byte + text[at:]
    if kind == 2:
        return text[:at] + byte + text[at + 1:]
    if kind == 3:
        return text[:at]
    if kind == 4:
        return text[:to] + text[at:]
    if kind == 5:
        return text[:at] + text[at:to][::-1] + text[to:]
    return text[:at] + chance.choice(WORDS + QUOTES + BLANKS) + text[at:]


@part()
def damaged(options):
    """Such lists with one to three places damaged."""
    chance = random.Random(f"{options.seed} damaged")
    for _ in range(options.random):
        text = good_list(chance, chance.randrange(1, 4))
        for _ in range(chance.randrange(1, 4)):
            text = damage(chance, text)
        yield text


@part()
def faults(options):
    """Sources that end with a fault: all inputs of at most three bytes, random tokens, and long texts."""
    for text in words(ALPHABET, range(4)):
        yield text, "!7"
        yield text, "!!9"
    chance = random.Random(f"{options.seed} faults")
    for text in tokens(options):
        yield text[:chance.randrange(len(text) + 1)], chance.choice(["!0", "!1", "!255", "!!3"])
    for length in range(1020, 1030):
        for text in [b"a" * length, b'"' + b"a" * length, b'"' + b"a" * (length - 1) + b"\\n", b'"' + b"a" * (length - 1) + b'"']:
            yield text, "!5"


@part("--text", "3", "--input", "7")
def limits(options):
    """With limits of 3 bytes a text and position 7: what comes first where a limit meets another refusal. Not for the program."""
    for text in words(b"\"\\/*01aU \n\xc3\xa9", range(6)):
        yield text
        yield text, "!7"
    chance = random.Random(f"{options.seed} limits")
    for text in itertools.chain(tokens(options), damaged(options)):
        text = text[:chance.randrange(14)]
        yield text
        yield text, "!7"


@part("--again", "3")
def again(options):
    """Asked again behind the end or the refusal. Not for the program."""
    yield from words(ALPHABET, range(4))
    for text in words(ALPHABET, range(3)):
        yield text, "!7"
    for text in itertools.islice(tokens(options), 20000):
        yield text


@part()
def longest(options):
    """Inputs of about 16,777,215 bytes, with and without a fault."""
    last = 16777215
    for length in range(last - 1, last + 4):
        for fill, tail in [(b" ", b""), (b" ", b"5"), (b"/", b""), (b" ", b'"'), (b" ", b'"\\'), (b" ", b"/*"), (b" ", b"5 "), (b" ", b'"\\q"')]:
            text = fill * (length - len(tail)) + tail
            yield text
            if (fill, tail) in [(b" ", b""), (b" ", b"5"), (b"/", b"")]:
                yield text, "!7"
    yield b" " * (last - 1024) + b"a" * 1024
    yield b" " * (last - 1025) + b"a" * 1025
    yield b" " * (last - 1024) + b"a" * 1025


def word(entry):
    text, fault = entry if isinstance(entry, tuple) else (entry, "")
    return (text.hex() or "-") + fault


class Reader:
    """One of the readers, answering a file of inputs by a list of answers."""

    def __init__(self, name, options):
        self.name = name
        self.options = options

    def command(self, path):
        adjusted = {"oracle": [], "adjusted": ["--adjust", "all"], "unadjusted": ["--adjust", "none"]}
        if self.name in adjusted:
            return [self.options.oracle, "--batch", *adjusted[self.name], *self.options.asks, path]
        if self.name == "model":
            return [sys.executable, os.path.join(HERE, "model.py"), "--batch", *self.options.asks, path]
        return [self.options.attrs, "batch", path]

    def answers(self, path, inputs):
        if self.name == "attrs" and self.options.one_by_one:
            return [self.alone(one) for one in inputs]
        if self.name == "attrs":
            # it knows one kind of fault only
            path = os.path.join(self.options.scratch, "plainer")
            with open(path, "w") as file:
                file.writelines(one.replace("!!", "!") + "\n" for one in inputs)
        done = subprocess.run(self.command(path), stdout=subprocess.PIPE, check=True)
        found = done.stdout.decode().splitlines()
        if len(found) != len(inputs):
            sys.exit(f"{self.name}: {len(inputs)} inputs and {len(found)} answers")
        return found

    def alone(self, one):
        path = os.path.join(self.options.scratch, "one")
        with open(path, "wb") as file:
            file.write(b"" if one == "-" else bytes.fromhex(one))
        done = subprocess.run([self.options.attrs, "events", path], stdout=subprocess.PIPE, check=True)
        return "; ".join(done.stdout.decode().splitlines())


def shown(one, most=200):
    hexadecimal, _, fault = one.partition("!")
    text = b"" if hexadecimal == "-" else bytes.fromhex(hexadecimal)
    cut = text if len(text) <= most else text[:most]
    return f"{cut!r}{'...' if cut is not text else ''}{' !' + fault if fault else ''}"


def cut(answer, most=300):
    return answer if len(answer) <= most else answer[:most] + "..."


class Tally:
    """What a part came to."""

    def __init__(self):
        self.inputs = 0
        self.same = 0
        self.intended = 0
        self.alone = collections.Counter()
        self.among = collections.Counter()
        self.shortest = {}
        self.findings = []

    def differs(self, names, one, left, right):
        self.intended += 1
        if len(names) == 1:
            self.alone[names[0]] += 1
            self.keep(names[0], (one, left, right))
        else:
            self.among.update(names)

    def keep(self, name, entry):
        if name not in self.shortest or len(entry[0]) < len(self.shortest[name][0]):
            self.shortest[name] = entry

    def add(self, other):
        self.inputs += other.inputs
        self.same += other.same
        self.intended += other.intended
        self.alone += other.alone
        self.among += other.among
        for name, entry in other.shortest.items():
            self.keep(name, entry)
        self.findings += other.findings

    def report(self, name, show):
        print(f"{name}: {self.inputs} inputs, {self.same} same, {self.intended} differ as intended, {len(self.findings)} findings")
        for each in sorted(set(self.alone) | set(self.among), key=lambda each: -self.alone[each]):
            print(f"    {each:<24} {self.alone[each]:>9} alone {self.among[each]:>9} with others", end="")
            if each in self.shortest:
                one, left, right = self.shortest[each]
                print(f"   {shown(one, 30)}: {cut(left, 60)} | {cut(right, 60)}", end="")
            print()
        for one, *answers in self.findings[:show]:
            print(f"  FINDING {shown(one)}\n    input {cut(one)}")
            for answer in answers:
                print(f"    {cut(answer)}")
        sys.stdout.flush()


def explanations(options, unlike):
    """For each input, and the answer with all differences on, the smallest set of differences that gives it."""
    path = os.path.join(options.scratch, "unlike")
    with open(path, "w") as file:
        file.writelines(f"{one} {answer}\n" for one, answer in unlike)
    done = subprocess.run([options.oracle, "--explain", *options.asks, path], stdout=subprocess.PIPE, check=True)
    return [line.split(",") for line in done.stdout.decode().splitlines()]


def compare(options, inputs, tally):
    path = os.path.join(options.scratch, "inputs")
    with open(path, "w") as file:
        file.writelines(one + "\n" for one in inputs)
    names = [options.left, options.right]
    if "oracle" in names and "unadjusted" not in names:
        names.append("adjusted")
    found = {name: Reader(name, options).answers(path, inputs) for name in names}
    left, right, last = found[names[0]], found[names[1]], found[names[-1]]
    ours = left if names[1] == "oracle" else right
    tally.inputs += len(inputs)
    unlike = []
    for i, one in enumerate(inputs):
        if left[i] == right[i]:
            tally.same += 1
        wanted = last[i] if len(names) == 3 else left[i]
        if ours[i] != wanted:
            tally.findings.append((one, *(f"{name}: {found[name][i]}" for name in names)))
        elif left[i] != right[i]:
            unlike.append(i)
    for i, differences in zip(unlike, explanations(options, [(inputs[i], last[i]) for i in unlike])):
        tally.differs(differences, inputs[i], left[i], right[i])


def run_part(options, name):
    options.asks = ASKS[name]
    tally = Tally()
    inputs = map(word, PARTS[name](options))
    if options.one_by_one and "attrs" in (options.left, options.right):
        inputs = (one for one in inputs if "!" not in one)
    if options.sample:
        inputs = list(inputs)
        inputs = inputs[::max(1, len(inputs) // options.sample)]
    inputs = iter(inputs)
    size = 4 if name == "longest" else CHUNK
    while True:
        chunk = list(itertools.islice(inputs, size))
        if not chunk:
            return tally
        compare(options, chunk, tally)


def build(where):
    """The oracle, built by rustc alone."""
    os.makedirs(where, exist_ok=True)
    program = os.path.join(where, "oracle")
    source = os.path.join(HERE, "oracle")
    files = [os.path.join(at, file) for at, _, names in os.walk(source) for file in names]
    if not os.path.exists(program) or any(os.path.getmtime(file) > os.path.getmtime(program) for file in files):
        subprocess.run(["rustc", "-O", "--edition", "2024", "-o", program, os.path.join(source, "main.rs")], check=True)
    return program


def main():
    parts = "".join(f"    {name:<12}{make.__doc__}\n" for name, make in PARTS.items())
    parser = argparse.ArgumentParser(usage=argparse.SUPPRESS, description=f"{__doc__}\nPARTS\n{parts}", add_help=False,
                                     formatter_class=argparse.RawDescriptionHelpFormatter)
    parser.add_argument("--help", action="help", help=argparse.SUPPRESS)
    readers = ["oracle", "adjusted", "unadjusted", "model", "attrs"]
    parser.add_argument("left", choices=readers, help=argparse.SUPPRESS)
    parser.add_argument("right", choices=readers, help=argparse.SUPPRESS)
    parser.add_argument("parts", nargs="*", help=argparse.SUPPRESS)
    parser.add_argument("--build", default=os.path.join(HERE, "..", "target", "tools"), help=argparse.SUPPRESS)
    parser.add_argument("--attrs", default=os.path.join(HERE, "..", "attrs"), help=argparse.SUPPRESS)
    parser.add_argument("--one-by-one", action="store_true", help=argparse.SUPPRESS)
    parser.add_argument("--sample", type=int, default=0, help=argparse.SUPPRESS)
    parser.add_argument("--random", type=int, default=100000, help=argparse.SUPPRESS)
    parser.add_argument("--seed", default="1", help=argparse.SUPPRESS)
    parser.add_argument("--show", type=int, default=10, help=argparse.SUPPRESS)
    options = parser.parse_args()
    names = options.parts or [name for name in PARTS if name not in SLOW]
    for name in names:
        if name not in PARTS:
            sys.exit(f"no such part: {name}; there are {', '.join(PARTS)}")
    options.oracle = build(options.build)
    total = Tally()
    with tempfile.TemporaryDirectory() as scratch:
        options.scratch = scratch
        for name in names:
            if ASKS[name] and "attrs" in (options.left, options.right):
                print(f"{name}: left out, the program has no options for it")
                continue
            tally = run_part(options, name)
            tally.report(name, options.show)
            total.add(tally)
    total.report("all", 0)
    sys.exit(1 if total.findings else 0)


if __name__ == "__main__":
    main()
