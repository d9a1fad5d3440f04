"""A plain reading of inputs: which characters an input spells, and what is wrong after them.

Written from the rules alone (docs/RULES.md, "Decoding"), one character after the other. It shares no code with the program.
"""

# the widths of characters in UTF-8 by their first octet: the least and the greatest octet, the bits of the value that it
# holds, and the least value that may be spelled with so many octets
LEADS = {1: (0x00, 0x7F, 0x7F, 0), 2: (0xC0, 0xDF, 0x1F, 0x80), 3: (0xE0, 0xEF, 0x0F, 0x800), 4: (0xF0, 0xF7, 0x07, 0x10000)}
BREAKS = {0xA, 0xD, 0x85, 0x2028, 0x2029}
ORDERS = {"utf16le": "little", "utf16be": "big"}


class Offence(Exception):
    """What is wrong: the words, how many bytes further than the character's first, and the octet, unit or value."""


def is_character(value):
    return value in (0x9, 0xA, 0xD, 0x85) or any(
        least <= value <= most for least, most in ((0x20, 0x7E), (0xA0, 0xD7FF), (0xE000, 0xFFFD), (0x10000, 0x10FFFF))
    )


def checked(value):
    if not is_character(value):
        raise Offence("control characters are not allowed", 0, value)
    return value


def first_of_utf8(data):
    """The first character and its width."""
    width = next((width for width, (least, most, _, _) in LEADS.items() if least <= data[0] <= most), None)
    if width is None:
        raise Offence("invalid leading UTF-8 octet", 0, data[0])
    if len(data) < width:
        raise Offence("incomplete UTF-8 octet sequence", 0, -1)
    value = data[0] & LEADS[width][2]
    for at in range(1, width):
        if not 0x80 <= data[at] <= 0xBF:
            raise Offence("invalid trailing UTF-8 octet", at, data[at])
        value = value << 6 | data[at] & 0x3F
    if value < LEADS[width][3]:
        raise Offence("invalid length of a UTF-8 sequence", 0, -1)
    if 0xD800 <= value <= 0xDFFF or value > 0x10FFFF:
        raise Offence("invalid Unicode character", 0, value)
    return checked(value), width


def first_of_utf16(data, order):
    """The first character and how many bytes its units have."""
    if len(data) < 2:
        raise Offence("incomplete UTF-16 character", 0, -1)
    first, second = (int.from_bytes(data[at : at + 2], order) for at in (0, 2))
    if 0xDC00 <= first <= 0xDFFF:
        raise Offence("unexpected low surrogate area", 0, first)
    if not 0xD800 <= first <= 0xDBFF:
        return checked(first), 2
    if len(data) < 4:
        raise Offence("incomplete UTF-16 surrogate pair", 0, -1)
    if not 0xDC00 <= second <= 0xDFFF:
        raise Offence("expected low surrogate area", 2, second)
    return checked(0x10000 + (first - 0xD800 << 10) + (second - 0xDC00)), 4


def encoding_of(setting, data):
    """The encoding, and how many bytes of a byte order mark are dropped."""
    marks = {b"\xff\xfe": "utf16le", b"\xfe\xff": "utf16be", b"\xef\xbb\xbf": "utf8"}
    if setting != "any":
        return setting, 0
    return next(((encoding, len(mark)) for mark, encoding in marks.items() if data.startswith(mark)), ("utf8", 0))


def end_of(characters):
    """The mark after these characters: bytes in UTF-8, breaks, and characters after the last of them."""
    breaks = [at for at, value in enumerate(characters) if value in BREAKS and characters[at : at + 2] != [0xD, 0xA]]
    index = len("".join(map(chr, characters)).encode())
    return f"{index}:{len(breaks)}:{len(characters) - (breaks[-1] + 1 if breaks else 0)}"


def reading(setting, data):
    """What `testbench` answers to `decode SETTING DATA`."""
    encoding, at = encoding_of(setting, data)
    characters = []
    while at < len(data):
        rest = data[at : at + 4]
        try:
            value, width = first_of_utf8(rest) if encoding == "utf8" else first_of_utf16(rest, ORDERS[encoding])
        except Offence as offence:
            problem, further, found = offence.args
            return f"REFUSED {at + further} {found} {problem}"
        characters.append(value)
        at += width
    text = "".join(map(chr, characters)).encode().hex() or "-"
    return f"TEXT YAML_{encoding.upper()}_ENCODING {text} {end_of(characters)}"
