"""Random texts for the judges: CSV files, and plans that are JSON or nearly so. A case is named by its seed and its number."""
import glob
import json
import os
import random
import re

ROOT = os.path.dirname(os.path.dirname(os.path.dirname(os.path.abspath(__file__))))

# How many bytes frameq asks a file for at once (fq_csv/src/cutting/buffers.rt).
CHUNK = 131_072

MARK = b"\xef\xbb\xbf"
LINE_ENDS = [b"\n", b"\r\n", b"\r"]
PLAIN = [b"a", b"b", b"1", b" ", b"true", "é".encode(), "\u2028".encode(), "\U0001f600".encode(), b"\t", b";", b"#", b"'", b"\\"]
CONTROLS = [b"\0", b"\x0b", b"\x0c", b"\x1f", b"\x7f", "\u0085".encode()]
NOT_UTF_8 = [b"\x85", b"\xff", b"\xc3", b"\xef\xbb", b"\xc0\x80", b"\xed\xa0\x80", b"\xf4\x90\x80\x80"]
CSV_SIGNS = [b",", b",", b'"', b'"', *LINE_ENDS, b'""', b'","', b'"\n"', b"\n\n", b"\r\r\n", MARK]

NUMBERS = """0 -0 1.5 1e5 1E+5 1e-5 -1e-400 0e400 0.0e9999999999 1e-9999999999 1.0 1e0 4.9e-324 1.7976931348623157e308
    9223372036854775807 9223372036854775808 -9223372036854775808 -9223372036854775809 18446744073709551615 18446744073709551616""".split()
NOT_NUMBERS = "00 01 -01 +1 1. .5 -.5 1e 1e+ - 0x10 1_000 NaN Infinity 12x 1e400 -1e400 1e9999999999 1.7976931348623159e308".split()
RIGHT_ESCAPES = [
    rb'\"', rb"\\", rb"\/", rb"\b", rb"\f", rb"\n", rb"\r", rb"\t", rb"\u0041", rb"\u00e9", rb"\u0000", rb"\uD83D\uDE00", rb"\ud83d\ude00",
]
ESCAPES = [
    *RIGHT_ESCAPES, rb"\ud83d", rb"\ude00", rb"\ude00\ud83d", rb"\ud83d\u0041", rb"\ud83d\n", rb"\u12", rb"\u12g4", rb"\u+123", rb"\x41",
    rb"\a", rb"\'", rb"\N", b"\\",
]
WORDS = [b"true", b"false", b"null", b"True", b"nul", b"nulll", b"tru", b"undefined", b"//", b"/* */", b"#"]
SPACES = [b" ", b"\t", b"\n", b"\r", b"\x0b", b"\x0c", b"\xa0", "\u00a0".encode(), "\u2003".encode(), MARK, b"\0"]
JSON_SIGNS = [b"{", b"}", b"[", b"]", b":", b",", b'"', b"'"]
TOKEN = re.compile(rb'"(?:[^"\\]|\\.)*"|[-+\w.]+|\s+|.', re.S)


def plans():
    """The plans of the examples, each with and without spaces."""
    found = []
    for path in sorted(glob.glob(f"{ROOT}/examples/**/plan.json", recursive=True)):
        with open(path, "rb") as file:
            text = file.read()
        try:
            found += [text, json.dumps(json.loads(text), separators=(",", ":")).encode()]
        except ValueError:  # an example of a text that is not JSON
            found.append(text)
    return found


def mutated(draw, text, pieces):
    """A text that differs by a few small changes from another one."""
    for _ in range(draw.choice([1, 1, 2, 3])):
        start = draw.randint(0, len(text))
        end = min(len(text), start + draw.choice([0, 0, 1, 1, 1, 2, draw.randint(0, 40)]))
        put = draw.choice([b"", draw.choice(pieces), draw.choice(pieces), bytes([draw.randrange(128)]), text[start:end] * 2])
        text = text[:start] + put + text[end:]
    return text


# ---- CSV


def csv_text(seed, number):
    """A CSV file: pieces in any order, or records with or without mistakes, some of them around the border of two reads."""
    draw = random.Random(f"csv {seed} {number}")
    pieces = [*CSV_SIGNS, *PLAIN, *CONTROLS, *(NOT_UTF_8 if draw.random() < 0.2 else [])]
    if draw.random() < 0.2:
        return b"".join(draw.choice(pieces) for _ in range(draw.randint(0, 40)))
    width = draw.randint(60, 70) if draw.random() < 0.01 else draw.choice([1, 1, 2, 2, 3, 5])
    head = header(draw, width)
    rows = b"".join(record(draw, width, pieces) for _ in range(draw.randint(0, 6)))
    if draw.random() < 0.3:
        rows = mutated(draw, rows, pieces)
    if draw.random() < 0.02:
        rows = padding(draw, width, len(head), len(rows)) + rows
    return head + rows[:len(rows) if draw.random() < 0.8 else -1]


def header(draw, width):
    names = [b"" if draw.random() < 0.05 else b"c%d" % column for column in range(width)]
    head = draw.choice([b"", b"", b"", MARK, b"\n", b"\r\n"]) + b",".join(names) + line_end(draw)
    return mutated(draw, head, CSV_SIGNS) if draw.random() < 0.1 else head


def line_end(draw):
    return draw.choice(LINE_ENDS) * draw.choice([1, 1, 1, 1, 2, 3])


def record(draw, width, pieces):
    width += draw.choice([-1, 1]) if draw.random() < 0.04 else 0
    return b",".join(field(draw, pieces) for _ in range(width)) + line_end(draw)


def field(draw, pieces):
    """A field in quotes, with any pieces, or one without, most often of what needs none."""
    if draw.random() < 0.3:
        inside = b"".join(draw.choice(pieces) for _ in range(draw.randint(0, 4)))
        return b'"' + inside.replace(b'"', b'""') + b'"'
    return b"".join(draw.choice(pieces if draw.random() < 0.02 else PLAIN) for _ in range(draw.randint(0, 3)))


def padding(draw, width, before, after):
    """A long record, so that the border of two reads is somewhere in the bytes after it."""
    others, piece = b"," * (width - 1) + b"\n", draw.choice([b"x", b"\n", b",", b'""'])
    size = CHUNK * draw.choice([1, 2]) - before - len(others) - 2 - draw.randint(0, after)
    return b'"' + piece * (size // len(piece)) + b'"' + others


# ---- JSON


def json_text(seed, number, seeds):
    """A text that is JSON or nearly so: most are plans with a change or two to their tokens or to their bytes."""
    draw = random.Random(f"json {seed} {number}")
    kind, text = draw.random(), draw.choice(seeds)
    if kind < 0.15:
        text = value(draw, 4)
    elif kind < 0.3:
        text = nested(draw, text)
    elif kind < 0.75:
        text = with_other_tokens(draw, text)
    elif kind < 0.95:
        text = mutated(draw, text, [*JSON_SIGNS, *ESCAPES, *SPACES, *WORDS, *CONTROLS, *NOT_UTF_8])
    else:
        text = text[:draw.randint(0, len(text))]
    return text if draw.random() < 0.9 else around(draw) + text + around(draw)


def around(draw):
    """What is put before or after a text: most often what may stand there."""
    return draw.choice([b"", b"", *SPACES[:4], *SPACES[:4], *SPACES, b"x", b"{}", b"1", b",", b'"'])


def nested(draw, text):
    """A plan with some value of it in arrays, objects or operators, about as many as may stand one in another."""
    tokens = TOKEN.findall(text)
    at = draw.choice([place for place, token in enumerate(tokens) if token[:1] in b'"0123456789t'] or [0])
    opening, closing = draw.choice([(b"[", b"]"), (b'{"a":', b"}"), (b'["not",', b"]"), (b'[{"a":[', b"]}]")])
    depth = draw.randint(110, 130) // (opening.count(b"[") + opening.count(b"{"))
    tokens[at] = opening * depth + tokens[at] + closing * (depth if draw.random() < 0.95 else depth - 1)
    return b"".join(tokens)


def with_other_tokens(draw, text):
    """A plan in which some tokens are others, or are left out or doubled; most often values are others."""
    tokens = TOKEN.findall(text)
    for _ in range(draw.choice([1, 1, 2])):
        places = [place for place, token in enumerate(tokens) if token[:1] in b'"-0123456789tfn' or draw.random() < 0.2]
        if places:
            at = draw.choice(places)
            tokens[at] = other_token(draw, tokens[at])
    return b"".join(tokens)


def other_token(draw, token):
    kind = draw.random()
    if kind < 0.7:
        return draw.choice([value(draw, 2), number_text(draw), escaped(draw, token), escaped(draw, token), string(draw)])
    if kind < 0.85:  # (where the token is a name or a value, as it is most often)
        return draw.choice([token + b":1," + token, token + b"," + token, token + draw.choice(SPACES), draw.choice(SPACES) + token])
    return draw.choice([b"", token * 2, draw.choice(JSON_SIGNS), draw.choice(WORDS)])


def escaped(draw, token):
    """A string with an escape in it: one of the same value, or another one."""
    if len(token) < 3 or token[:1] != b'"':
        return string(draw)
    at = draw.randint(1, len(token) - 2)
    return token[:at] + (b"\\u%04x" % token[at] if draw.random() < 0.5 else draw.choice(ESCAPES)) + token[at + 1:]


def value(draw, depth):
    """A random value, also with members of one name."""
    kind = draw.randrange(7 if depth else 3)
    if kind < 3:
        return [draw.choice(WORDS[:3]), number_text(draw), string(draw)][kind]
    inner = [value(draw, depth - 1) for _ in range(draw.randint(0, 3))]
    if kind < 5:
        return b"[" + b",".join(inner) + b"]"
    return b"{" + b",".join(draw.choice([b'"a"', b'"b"', string(draw)]) + b":" + it for it in inner) + b"}"


def number_text(draw):
    """A number near a limit, or a mistake, or one of some digits."""
    if draw.random() < 0.5:
        return draw.choice(NUMBERS if draw.random() < 0.7 else NOT_NUMBERS).encode()
    digits = "".join(draw.choice("0123456789") for _ in range(draw.choice([1, 3, 17, 19, 20, 40, 400]))).lstrip("0") or "0"
    return (draw.choice(["", "-"]) + digits + draw.choice(["", "", ".5", "e3", "E-7", "e300", f".{digits}"])).encode()


def string(draw):
    """A string, most often a right one."""
    inside = [*PLAIN[:8], *(ESCAPES if draw.random() < 0.3 else RIGHT_ESCAPES)]
    return b'"' + b"".join(draw.choice(inside) for _ in range(draw.choice([0, 1, 1, 2, 5]))) + b'"'
