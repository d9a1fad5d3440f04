"""Deep and long inputs, and how many tokens each has: computed from how often a part is repeated, without reading the input.
For some also the lines of a listing."""

import math

USUAL_LIMIT = 1024
GREATEST_LIMIT = 65_536
KEYS_IN_A_LINE = 12_500  # flow mappings in one another: the outermost key is just under the greatest limit long
STREAM = 2  # the tokens of the stream's start and end
BLOCK = 2  # those of a block's start and end


def mappings_as_keys(count, limit=USUAL_LIMIT):
    """The tokens of so many flow mappings, each the key of the one around it: `{{a: b}: b}`.

    The key of the mapping number n from inside is 5 * n + 1 bytes long, and no KEY is there if that is above the limit.
    """
    keys = min(count, (limit - 1) // 5 + 1)
    return 4 * count + 1 + keys


def levels(count):
    """How many levels a text has that grows with the square of its levels."""
    return math.isqrt(10 * count)


def nested_keys(count):
    """So many flow mappings in one another in entries, and the rest of the last entry's."""
    return ("- " + "{" * KEYS_IN_A_LINE + "a" + ": b}" * KEYS_IN_A_LINE + "\n") * -(-count // KEYS_IN_A_LINE)


def mark(index, line=0):
    return f"{index}:{line}:{index if line == 0 else 0}"


def one(kind, start, end):
    return f"{kind} {start} {end}"


def run_of(kind, count):
    """The tokens of so many characters on one line, and the stream end after them."""
    end = mark(count, 1)
    return [one(kind, mark(k), mark(k + 1)) for k in range(count)] + [one("STREAM-END", end, end)]


class Deep:
    """A text that grows with a count, the number of its tokens, the key limit, and the kind of its fault, or `-`. Then its flow
    depth and its indentation levels, where they are most, if it has any."""

    def __init__(self, name, text, tokens, limit=USUAL_LIMIT, fault="-", depth=None, levels=None):
        self.name, self.text, self.tokens, self.limit, self.fault = name, text, tokens, limit, fault
        self.depth, self.levels = depth or none, levels or none

    def length(self, count):
        """How many bytes the text has in UTF-8."""
        return len(self.text(count))


def none(_):
    return 0


DEEP_TEXTS = [
    Deep("openers", lambda n: "[" * n, lambda n: STREAM + n, depth=lambda n: n),
    Deep("closers", lambda n: "]" * n, lambda n: STREAM + n),
    Deep("sequences", lambda n: "- " * (n // 2), lambda n: STREAM + (BLOCK + 1) * (n // 2), levels=lambda n: n // 2),
    Deep("more sequences", lambda n: "- " * n, lambda n: STREAM + (BLOCK + 1) * n, levels=lambda n: n),
    # the key waits for its `:`, and is taken while all levels are open
    Deep("a key in sequences", lambda n: "- " * n + "[a]: b", lambda n: STREAM + (BLOCK + 1) * n + BLOCK + 6, levels=lambda n: n + 1),
    # the second `:` is the fault: a mapping began, its key has a value, and the scalar before the `:` is there
    Deep("quoted keys on a line", lambda n: '"x": ' * n, lambda n: 1 + 1 + 3 + 1, fault="scanner", levels=lambda n: 1),
    Deep("quoted keys on lines", lambda n: '"x":\n' * n, lambda n: STREAM + BLOCK + 3 * n, levels=lambda n: 1),
    Deep("keys of keys", lambda n: "? " * n, lambda n: STREAM + (BLOCK + 1) * n, levels=lambda n: n),
    Deep("mappings in mappings", lambda n: "{a: " * n, lambda n: STREAM + 4 * n, depth=lambda n: n),
    Deep("mappings as keys", lambda n: "{" * n + "a" + ": b}" * n, lambda n: STREAM + mappings_as_keys(n), depth=lambda n: n),
    Deep("sequences of mappings", lambda n: "[{a: b, " * (n // 2), lambda n: STREAM + 7 * (n // 2), depth=lambda n: n // 2 * 2),
    Deep("blank lines", lambda n: "a" + "\n" * n + " b", lambda n: STREAM + 1),
    Deep("blank lines in quotes", lambda n: '"a' + " \n" * n + 'b"', lambda n: STREAM + 1),
    Deep("a literal of blank lines", lambda n: "|\n a" + "\n" * n + " b", lambda n: STREAM + 1),
    Deep("comments", lambda n: "#c\n" * n, lambda n: STREAM),
    Deep("anchors", lambda n: "&a " * n, lambda n: STREAM + n),
    Deep("escapes", lambda n: '"' + "\\x41" * n + '"', lambda n: STREAM + 1),
    # a text of n levels has n * n / 2 spaces, so the levels are as many as keep its length in proportion to the count
    Deep(
        "deeper and deeper",
        lambda n: "".join(" " * k + "a:\n" for k in range(levels(n))),
        lambda n: STREAM + (BLOCK + 3) * levels(n),
        levels=levels,
    ),
    Deep("a tag of escapes", lambda n: "!" + "%41" * n + " a", lambda n: STREAM + 2),
    Deep(
        "keys near the greatest limit",
        nested_keys,
        lambda n: STREAM + BLOCK + -(-n // KEYS_IN_A_LINE) * (1 + mappings_as_keys(KEYS_IN_A_LINE, GREATEST_LIMIT)),
        limit=GREATEST_LIMIT,
        depth=lambda n: KEYS_IN_A_LINE,
        levels=lambda n: 1,
    ),
]
