"""The texts that the program is tried on: valid ones of every size, and each way in which a text can be wrong.

A text is made as a list of lines, each with its newline, so that a rule can be broken anywhere, the last newline included.
Each function gives pairs of a label and the bytes of a text."""

SIX_POINTS = [b"2 6 2\n", b"1 5\n", b"4 2\n", b"4 8\n", b"7 1\n", b"6 6\n", b"2 2\n", b"1 1 7\n", b"-1 0 -6\n"]
LONGEST = 32768


def lines_of(k, points, faces):
    """The lines of a text: k n h, the points, the faces, whose last number is the offset."""
    rows = [[k, len(points), len(faces)]] + points + faces
    return [b" ".join(b"%d" % number for number in row) + b"\n" for row in rows]


def random_lines(rng, k, n, h, spread):
    """A text whose coordinates and components are from -spread to spread, and whose offsets cut through the points."""
    points = [[rng.randint(-spread, spread) for _ in range(k)] for _ in range(n)]
    faces = []
    for _ in range(h):
        normal = [rng.randint(-spread, spread) * (rng.random() < 0.6) for _ in range(k)]
        through = rng.choice(points) if points else [0] * k
        offset = sum(a * b for a, b in zip(normal, through)) - rng.choice([0, 0, 1, -1, spread, k * spread * spread])
        faces.append(normal + [max(-9999999999, min(9999999999, offset))])
    return lines_of(k, points, faces)


def valid_texts(rng):
    """Texts of every size up to the limits: dimensions 1 to 9, 0 to 512 points, 0 to 64 faces, small and large numbers."""
    sizes = [0, 1, 2, 3, 4, 6, 7, 8, 15, 16, 31, 63, 100, 255, 256, 511, 512]
    faces = [0, 1, 2, 3, 8, 31, 32, 33, 63, 64]
    for k in range(1, 10):
        for n in sizes:
            h = rng.choice(faces)
            spread = rng.choice([0, 1, 3, 30, 1000, 32767])
            yield "k %d n %d h %d" % (k, n, h), b"".join(random_lines(rng, k, n, h, spread))
    for _ in range(300):
        k, n, h = rng.randint(1, 4), rng.randint(0, 512), rng.choice([0, 1, 1, 2, 3, 4, 8, 32])
        spread = rng.choice([1, 2, 5, 50, 32767])
        yield "k %d n %d h %d, spread %d" % (k, n, h, spread), b"".join(random_lines(rng, k, n, h, spread))
    for h in range(0, 65):
        yield "h %d" % h, b"".join(random_lines(rng, 3, 12, h, 9))


def limit_texts():
    """One number at each limit and one step beyond, as a coordinate, a component and an offset, first and last of its kind."""
    thirty_two_bits = [-2147483649, -2147483648, 2147483647, 2147483648]
    coordinates = [-32769, -32768, 32767, 32768] + thirty_two_bits
    components = [-32768, -32767, 32767, 32768] + thirty_two_bits
    offsets = [-10000000000, -9999999999, -8589934593, -8589934592, 8589934592, 8589934593, 9999999999, 10000000000]
    for c in coordinates:
        yield "coordinate %d, first" % c, b"".join(lines_of(2, [[c, 0], [1, 2]], [[1, 1, 2]]))
        yield "coordinate %d, last" % c, b"".join(lines_of(2, [[1, 2], [0, c]], [[1, 1, 2]]))
    for c in components:
        yield "component %d, first" % c, b"".join(lines_of(2, [[5, 0], [1, 2]], [[c, 0, 2], [1, 1, 2]]))
        yield "component %d, last" % c, b"".join(lines_of(2, [[5, 0], [1, 2]], [[1, 1, 2], [0, c, 2]]))
    for m in offsets:
        yield "offset %d, first" % m, b"".join(lines_of(2, [[5, 0], [1, 2]], [[1, 1, m], [1, 1, 2]]))
        yield "offset %d, last" % m, b"".join(lines_of(2, [[5, 0], [1, 2]], [[1, 1, 2], [1, 1, m]]))
    widest = [[-32768] * 4, [32767] * 4, [-32768, 32767] * 2]
    for sign in (-32767, 32767):
        for m in offsets[3:5]:
            yield "widest sums, %d and %d" % (sign, m), b"".join(lines_of(4, widest, [[sign] * 4 + [m]]))


def put_number(make):
    """A rule broken at one number: any number of any line is put in another way."""
    def broken(rng, lines):
        at = rng.randrange(len(lines))
        words = lines[at].split(b" ")
        word = rng.randrange(len(words))
        end = b"\n" if words[word].endswith(b"\n") else b""
        words[word] = make(words[word].rstrip(b"\n")) + end
        return lines[:at] + [b" ".join(words)] + lines[at + 1:]
    return broken


def put_line(make):
    """A rule broken at one line: any line is replaced by others."""
    def broken(rng, lines):
        at = rng.randrange(len(lines))
        return lines[:at] + make(lines[at]) + lines[at + 1:]
    return broken


def put_size(place, size):
    """A rule broken in line 1: k, n or h is another number."""
    def broken(rng, lines):
        words = (lines[0] if lines else b"\n").rstrip(b"\n").split(b" ")
        words[min(place, len(words) - 1)] = size
        return [b" ".join(words) + b"\n"] + lines[1:]
    return broken


def put_end(make):
    """A rule broken at the end of the text."""
    def broken(rng, lines):
        return lines[:-1] + [make(lines[-1])]
    return broken


RULES = {
    "plus sign": put_number(lambda w: b"+" + w),
    "leading zero": put_number(lambda w: b"0" + w),
    "zero behind the sign": put_number(lambda w: b"-0" + w.lstrip(b"-")),
    "minus zero": put_number(lambda w: b"-0"),
    "lone minus": put_number(lambda w: b"-"),
    "two minuses": put_number(lambda w: b"--1"),
    "eleven digits": put_number(lambda w: b"12345678901"),
    "ten digits": put_number(lambda w: b"9999999999"),
    "beyond 32 bits": put_number(lambda w: b"2147483648"),
    "beyond 16 bits": put_number(lambda w: b"32768"),
    "letter": put_number(lambda w: w + b"a"),
    "point": put_number(lambda w: w + b".0"),
    "NUL byte": put_number(lambda w: w + b"\0"),
    "number missing": put_number(lambda w: b""),
    "number doubled": put_number(lambda w: w + b" " + w),
    "two spaces": put_number(lambda w: b" " + w),
    "tab": put_number(lambda w: b"\t" + w),
    "space at the end of a line": put_line(lambda l: [l[:-1] + b" \n"]),
    "carriage return": put_line(lambda l: [l[:-1] + b"\r\n"]),
    "empty line": put_line(lambda l: [b"\n", l]),
    "line missing": put_line(lambda l: []),
    "line doubled": put_line(lambda l: [l, l]),
    "newline missing": put_line(lambda l: [l[:-1]]),
    "k 0": put_size(0, b"0"),
    "k 5": put_size(0, b"5"),
    "k 10": put_size(0, b"10"),
    "k negative": put_size(0, b"-2"),
    "n 513": put_size(1, b"513"),
    "n negative": put_size(1, b"-6"),
    "h 33": put_size(2, b"33"),
    "h 65": put_size(2, b"65"),
    "h negative": put_size(2, b"-2"),
    "no final newline": put_end(lambda l: l[:-1]),
    "byte behind the end": put_end(lambda l: l + b" "),
    "newline behind the end": put_end(lambda l: l + b"\n"),
    "NUL behind the end": put_end(lambda l: l + b"\0"),
}


def broken_texts(rng):
    """Each rule broken alone, at eight places, and each pair of rules broken together."""
    names = sorted(RULES)
    for name in names:
        for _ in range(8):
            yield name, b"".join(RULES[name](rng, SIX_POINTS))
    for i, first in enumerate(names):
        for second in names[i + 1:]:
            lines = RULES[first](rng, RULES[second](rng, SIX_POINTS) or [b"\n"])
            yield first + " and " + second, b"".join(lines)


def edited_texts():
    """A small text cut off behind every byte, and with every byte replaced by others."""
    text = b"".join(SIX_POINTS)
    for end in range(len(text)):
        yield "cut off behind %d bytes" % end, text[:end]
    for at in range(len(text)):
        for byte in b"\0\n\r -+/0159:\xff":
            yield "byte %d replaced by %d" % (at, byte), text[:at] + bytes([byte]) + text[at + 1:]


def text_of_size(size):
    """A text of so many bytes that says numbers of nine dimensions: ones, made longer until the size is met."""
    head = b"9 512 0\n"
    spare = size - len(head) - 2 * 9 * 512
    words = []
    for _ in range(9 * 512):
        longer = min(8, spare)
        spare -= longer
        words.append(b"1" * (1 + longer))
    rows = [b" ".join(words[9 * row:9 * row + 9]) + b"\n" for row in range(512)]
    text = head + b"".join(rows)
    assert len(text) == size
    return text


def long_texts(rng):
    """Texts around the greatest length: exactly that, one byte more, and longer ones that are valid up to there."""
    for size in (LONGEST - 1, LONGEST, LONGEST + 1, LONGEST + 2, 36000):
        yield "%d bytes" % size, text_of_size(size)
    whole = text_of_size(LONGEST)
    for label, more in (("a newline", b"\n"), ("a NUL", b"\0"), ("a line", b"1\n"), ("much", b"1 " * 40000), ("itself", whole)):
        yield "valid up to %d bytes, then %s" % (LONGEST, label), whole + more
    small = b"".join(SIX_POINTS)
    for size in (LONGEST, LONGEST + 1, 70000):
        yield "a small text and zeros up to %d bytes" % size, small + b"\0" * (size - len(small))
        yield "%d newlines" % size, b"\n" * size
        yield "%d arbitrary bytes" % size, bytes(rng.randrange(256) for _ in range(size))


def odd_texts(rng):
    """The empty text, lone bytes, carriage returns throughout, and arbitrary bytes of the text's own alphabet."""
    yield "empty", b""
    for byte in range(256):
        yield "only the byte %d" % byte, bytes([byte])
    yield "carriage returns throughout", b"".join(SIX_POINTS).replace(b"\n", b"\r\n")
    yield "old carriage returns throughout", b"".join(SIX_POINTS).replace(b"\n", b"\r")
    yield "byte order mark", b"\xef\xbb\xbf" + b"".join(SIX_POINTS)
    for number in range(150):
        yield "arbitrary text %d" % number, bytes(rng.choice(b"0123 -\n") for _ in range(rng.randint(1, 40)))


def told_texts():
    """Wrong texts, each with what bin/shelf tells of it: the first line that is wrong, and why."""
    six = b"".join(SIX_POINTS)
    yield b"", b"line 1: is missing: the text is empty"
    yield b"\xef\xbb\xbf" + six, b"line 1: starts with a byte order mark"
    yield six.replace(b"\n", b"\r\n"), b"line 1: ends with a carriage return"
    yield six.replace(b"4 2\n", b"4 2\r\n"), b"line 3: ends with a carriage return"
    yield six.replace(b"\n", b"\r"), b"line 1: ends with a carriage return"
    yield six.replace(b"4 2\n", b"4\r2\n"), b"line 3: has a carriage return"
    yield b"2 6\n", b"line 1: has 2 numbers, not the three k n h"
    yield b"2\n", b"line 1: has 1 number, not the three k n h"
    yield b"0 6 2\n", b"line 1: k is 0, at least 1"
    yield b"10 6 2\n", b"line 1: k is 10, at most 9"
    yield b"2 513 2\n", b"line 1: n is 513, at most 512"
    yield b"2 -6 2\n", b"line 1: n is -6, at least 0"
    yield b"2 6 65\n", b"line 1: h is 65, at most 64"
    yield b"6 2 2\n1 5\n", b"line 2: has 2 numbers, and a point has 6 where k is 6"
    yield b"1 0 1\n1\n", b"line 2: has 1 number, and a face has 2 where k is 1"
    for word, why in (
        (b"0.5", b"0.5 is not a whole number"),
        (b"1,5", b"1,5 is not a whole number"),
        (b"-2e3", b"-2e3 is not a whole number"),
        (b"x", b"x is not a number"),
        (b"-", b"- is not a number"),
        (b"--1", b"--1 is not a number"),
        (b"1\0", b"has a character that is no digit"),
        (b"\xc3\xa9", b"has a character that is no digit"),
        (b"+5", b"+5 has a plus sign"),
        (b"05", b"05 has a leading zero"),
        (b"-05", b"-05 has a leading zero"),
        (b"-0", b"-0 is not written so, but 0"),
        (b"12345678901", b"12345678901 has more than ten digits"),
        (b"1" * 60, b"1" * 24 + b".. has more than ten digits"),
        (b"2147483648", b"2147483648 is beyond 32 bits"),
        (b"-2147483649", b"-2147483649 is beyond 32 bits"),
        (b"", b"is empty"),
        (b"\t5", b"has a tab"),
        (b" 5", b"starts with a space"),
        (b"5 ", b"ends with a space"),
        (b"5  6", b"has two spaces together"),
    ):
        yield b"1 1 0\n" + word + b"\n", b"line 2: " + why
    yield b"1 0 1\n2147483648 1\n", b"line 2: 2147483648 is beyond 32 bits"
    yield b"1 0 0\n\n", b"line 2: comes after the last one: where n is 0 and h is 0 there is 1 line"
    yield six[:-1], b"line 9: ends with no newline"
    yield b"".join(SIX_POINTS[:-1]), b"line 9: is missing: where n is 6 and h is 2 there are 9 lines"
    yield six + b"\n", b"line 10: comes after the last one: where n is 6 and h is 2 there are 9 lines"
    yield six + b"1", b"line 10: comes after the last one: where n is 6 and h is 2 there are 9 lines"
    yield text_of_size(LONGEST + 1), b"line 513: goes beyond 32,768 bytes"
    yield b"1" * (LONGEST + 1), b"line 1: goes beyond 32,768 bytes"


def all_texts(rng):
    """The whole corpus."""
    groups = [valid_texts(rng), limit_texts(), broken_texts(rng), edited_texts(), long_texts(rng), odd_texts(rng)]
    return [pair for group in groups for pair in group]
