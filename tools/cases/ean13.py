"""EAN-13 as request 2 of document 02 and the GS1 General Specifications have it, for make.py.

`write` takes bytes and gives cells, `read` takes cells and gives bytes, both into a buffer of
`room` elements; an answer is ("accept", number, elements) or ("refuse", number, second number).
"""
# the widths of a digit's elements in number set A: space, bar, space, bar
WIDTHS = ["3211", "2221", "2122", "1411", "1132", "1231", "1114", "1312", "1213", "3112"]
PARITY = ["AAAAAA", "AABABB", "AABBAB", "AABBBA", "ABAABB",
          "ABBAAB", "ABBBAA", "ABABAB", "ABABBA", "ABBABA"]


def drawn(digit, number_set):
    a = [i % 2 for i, width in enumerate(WIDTHS[digit]) for _ in range(int(width))]
    c = [1 - cell for cell in a]
    return {"A": a, "B": c[::-1], "C": c}[number_set]


def check_of(digits):
    """The check digit of twelve."""
    return -sum(d * (3 if i % 2 else 1) for i, d in enumerate(digits)) % 10


def row_of(digits):
    """The 95 cells of thirteen digits."""
    blocks = [drawn(d, s) for d, s in zip(digits[1:], PARITY[digits[0]] + 6 * "C")]
    left, right = sum(blocks[:6], []), sum(blocks[6:], [])
    return [1, 0, 1] + left + [0, 1, 0, 1, 0] + right + [1, 0, 1]


def into(room, out):
    return ("accept", len(out), out) if len(out) <= room else ("refuse", 5, len(out))


def write(room, text):
    if len(text) not in (12, 13):
        return ("refuse", 30, len(text))
    for place, byte in enumerate(text):
        if not 48 <= byte <= 57:
            return ("refuse", 31, place)
    digits = [byte - 48 for byte in text]
    check = check_of(digits[:12])
    if digits[12:] not in ([], [check]):
        return ("refuse", 32, check)
    return into(room, row_of(digits[:12] + [check]))


def read(room, row):
    """Every first digit is tried, so that nothing here searches for a parity row."""
    blocks = [row[k:k + 7] for k in [3 + 7 * i for i in range(6)] + [50 + 7 * i for i in range(6)]]
    for first in range(10):
        sets = PARITY[first] + 6 * "C"
        found = [[d for d in range(10) if drawn(d, s) == b] for b, s in zip(blocks, sets)]
        if all(found):
            digits = [first] + [f[0] for f in found]
            if digits[12] == check_of(digits[:12]) and row == row_of(digits):
                return into(room, [48 + d for d in digits])
    return ("refuse", 33, 0)
