"""The texts that are measured, made from fixed seeds."""

import json
import random

from dense import dense
from realistic import realistic

LARGE = 10_000_000
SIZE = 1_000_000
TIMES = 100_000
LETTERS = "etaoinshrdlucmfwypvbgkjqxz"
LENGTHS = [1, 2, 2, 3, 3, 3, 4, 4, 5, 5, 6, 7, 8, 9, 10]
SHORT_ESCAPES = ["\\n", "\\t", '\\"', "\\\\"]
ALL_ESCAPES = [*SHORT_ESCAPES, "\\x41", "\\u263A", "\\U0001F600", "a", "bc"]
# characters of two, three and four bytes
OTHERS = "äöüßéèñçøåαβγδελμπστωжзийклмн中文字符日本語データ😀🚀"


def word(r):
    return "".join(r.choice(LETTERS) for _ in range(r.choice(LENGTHS)))


def words(r, size):
    made, count = [], 0
    while count < size:
        made.append(word(r))
        count += len(made[-1]) + 1
    return " ".join(made)[:size].strip() + "x"


def lines(r, size, width, between):
    made, count = [], 0
    while count < size:
        made.append(words(r, width))
        count += width + len(between)
    return between.join(made)


def escapes(r, size):
    made, count = [], 0
    while count < size:
        made.append(r.choice(SHORT_ESCAPES) if r.random() < 0.5 else word(r))
        count += len(made[-1])
    return "".join(made)


def scalars():
    """Single scalars of about 1 MB; their lines are indented by two."""
    r = random.Random(7)
    yield "double-quoted, an escape every other word", '"' + escapes(r, SIZE) + '"'
    yield "double-quoted, escapes of all kinds", '"' + "".join(r.choice(ALL_ESCAPES) for _ in range(SIZE // 3)) + '"'
    yield "plain, one line", words(r, SIZE)
    yield "double-quoted, one line", '"' + words(r, SIZE) + '"'
    yield "plain, lines of 78", lines(r, SIZE, 78, "\n  ")
    yield "double-quoted, lines of 78", '"' + lines(r, SIZE, 78, "\n  ") + '"'
    yield "literal, lines of 78", "|\n  " + lines(r, SIZE, 78, "\n  ") + "\n"
    yield "folded, lines of 78", ">\n  " + lines(r, SIZE, 78, "\n  ") + "\n"


def short_entries(count=TIMES):
    r = random.Random(7)
    return "".join(f"- {word(r)}{word(r)}\n" for _ in range(count))


def entries(between, end, count=TIMES // 2):
    """Keys and values, of which each ends with the same characters."""
    r = random.Random(7)
    return "".join(f"{word(r)}:{between}{word(r)}{end}" for _ in range(count))


def json_value(r, depth):
    kind = r.random()
    if depth < 3 and kind < 0.35:
        return {word(r): json_value(r, depth + 1) for _ in range(r.randrange(1, 6))}
    if depth < 3 and kind < 0.55:
        return [json_value(r, depth + 1) for _ in range(r.randrange(1, 6))]
    return r.choice([r.randrange(100_000), r.randrange(100_000) / 1000, True, False, None, words(r, r.randrange(1, 20))])


def json_text(size, indent=2):
    """A JSON text, of about so many bytes if it is indented by two; on one line if the indent is None."""
    r = random.Random(7)
    made, count = [], 0
    while count < size:
        made.append({word(r): json_value(r, 0) for _ in range(3)})
        count += len(json.dumps(made[-1], indent=2))
    return json.dumps(made, indent=indent) + "\n"


def manifest(r, size=3_000):
    """A text of about so many bytes as those that say what a cluster runs."""
    made = f"# {words(r, 40)}\napiVersion: apps/v1\nkind: Deployment\nmetadata:\n  name: {word(r)}-{word(r)}\n  labels:\n"
    made += f"    app: {word(r)}\n    tier: \"{word(r)}\"\nspec:\n  replicas: {r.randrange(9)}\n  containers:\n"
    while len(made) < size:
        made += f"  - name: {word(r)}-{word(r)}\n    image: \"{word(r)}/{word(r)}:{r.randrange(99)}\"\n    # {words(r, 30)}\n"
        made += f"    ports:\n    - containerPort: {r.randrange(9999)}\n      protocol: TCP\n    resources: {{cpu: {r.randrange(900)}m}}\n"
        made += f"    command: [\"{word(r)}\", '-{word(r)}', --{word(r)}={word(r)}]\n    script: |\n      {words(r, 40)}\n      {words(r, 30)}\n"
    return made


def from_c():
    """Lists of texts that are opened, scanned and closed one after the other through the interface for C."""
    r = random.Random(7)
    yield "manifests, 3 KB each", [manifest(r) for _ in range(100)]
    yield "JSON on one line", [json_text(SIZE, None)]
    yield "JSON in lines", [json_text(SIZE)]
    yield "an empty text", [""]
    yield "`a: 1`", ["a: 1"]


def scanned():
    """The texts whose tokens are scanned, ours and by libyaml."""
    yield "realistic, 10 MB", realistic(LARGE, 7)
    yield "dense, 10 MB", dense(LARGE, 7)
    yield f"{TIMES:,} short plain scalars, each an entry", short_entries()
    yield f"{TIMES // 2:,} short values, each line ends with CR LF", entries(" ", "\r\n")
    yield f"{TIMES // 2:,} short values, each line ends with two blanks", entries(" ", "  \n")
    yield f"{TIMES // 2:,} short values in typographic quotes", entries(" \u201c", "\u201d\n")
    for piece in "- ", "? ":
        yield f"{TIMES:,} times `{piece}`", piece * TIMES
    for name, text in scalars():
        yield name, f"- {text}"
    for piece in "[", "{a: ":
        yield f"{TIMES:,} times `{piece}`", piece * TIMES


def keys_of_keys(count):
    """So many flow mappings, each the key of the mapping around it."""
    return "{" * count + "a" + ": b}" * count


def nested_keys(count):
    """Entries of 12,500 flow mappings, each the key of the one around it: a key that is just under 65,536 bytes long."""
    return f"- {keys_of_keys(12_500)}\n" * (count // 12_500)


def mixed(r, text, part=0.1):
    """The text with a part of its letters replaced by characters that are not in ASCII."""
    return "".join(r.choice(OTHERS) if c.isalpha() and r.random() < part else c for c in text)


def accented(r, text):
    """The text with one in fifty of its characters an accented letter of two bytes."""
    return "".join(r.choice("äöüßéèñçøå") if r.random() < 0.02 else c for c in text)


def written_in(r, letters, size):
    """Words of these letters, with spaces between them and a line feed after every tenth."""
    made, count = [], 0
    while count < size:
        made.append("".join(r.choice(letters) for _ in range(r.choice(LENGTHS))))
        made.append("\n" if len(made) % 20 == 19 else " ")
        count += len(made[-2]) + 1
    return "".join(made)[:size]


def letters_between(least, most):
    return [chr(point) for point in range(least, most + 1)]


# scripts whose characters have two bytes in UTF-8, three and three, and four; a text of emoji has no spaces
CYRILLIC, CHINESE, HINDI = letters_between(0x430, 0x44F), letters_between(0x4E00, 0x9FA5), letters_between(0x905, 0x939)
EMOJI = letters_between(0x1F600, 0x1F64F)


def scripts(size, r):
    """Texts in other scripts than that of ASCII, of so many bytes in UTF-8."""
    yield "Cyrillic", written_in(r, CYRILLIC, size // 2)
    yield "Chinese", written_in(r, CHINESE, size // 3)
    yield "Hindi", written_in(r, HINDI, size // 3)
    yield "emoji", "".join(r.choice(EMOJI) for _ in range(size // 4))


def decoded():
    """The name of each text that is decoded, its characters, and its bytes."""
    plain = realistic(LARGE, 7)
    other = mixed(random.Random(7), realistic(LARGE * 9 // 10, 7))
    written = dict(scripts(LARGE, random.Random(7)))
    yield "UTF-8, ASCII only", plain, plain.encode()
    yield "UTF-8, mixed", other, other.encode()
    for name, text in written.items():
        yield f"UTF-8, {name}", text, text.encode()
    accents = accented(random.Random(7), plain)
    yield "UTF-8, 2 % accents", accents, accents.encode()
    for order, mark, codec in ("LE", b"\xff\xfe", "utf-16-le"), ("BE", b"\xfe\xff", "utf-16-be"):
        for name, text in ("ASCII only", plain[: LARGE // 2]), ("mixed", other[: LARGE // 2]):
            yield f"UTF-16{order}, {name}", text, mark + text.encode(codec)
    for name in "Chinese", "Cyrillic", "emoji":
        text = written[name][: LARGE // (4 if name == "emoji" else 2)]
        yield f"UTF-16LE, {name}", text, b"\xff\xfe" + text.encode("utf-16-le")
