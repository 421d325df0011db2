"""The seven jobs of document 01 as requests 1, 3, 4 and 12 of document 02 change them, written from
those texts alone: not from the crate, nor from specs/. One exception: the Shift of request 1 was
written with its definition in specs/ at hand, in another form (a look back at the number before).
`encode_with_fnc2` is document 01's encode, before request 12, with the limit of request 4.

Only the bar patterns come from elsewhere: from the crate's `CHARS`, as document 01 says. An answer
is ("refuse", number, second) or ("accept", second, list). `room` is the number of elements of the
lent buffer.
"""
import re

MOST = 4000  # the limit: symbols of a list
MOST_CELLS = 11 * MOST + 24
MOST_OF_VERSION_1 = 255
PATTERNS = []
STOP = "1100011101011"
START = {0xC0: 103, 0x181: 104, 0x106: 105}
SET_OF = {0xC0: "A", 0x181: "B", 0x106: "C"}


def load_patterns(code128_rs):
    source = open(code128_rs, encoding="utf-8").read()
    table = source[source.index("const CHARS"):source.index("// Stop sequence")]
    blocks = re.findall(r"\[((?:[01], ){10}[01])\]", table)
    PATTERNS[:] = ["".join(re.findall(r"[01]", block)) for block in blocks]
    assert len(PATTERNS) == 106 and len(set(PATTERNS)) == 106


def refuse(number, second):
    return ("refuse", number, second)


def into(room, second, out):
    return ("accept", second, list(out)) if len(out) <= room else refuse(5, len(out))


def _tables():
    a, b = {}, {}
    for i in range(64):
        a[0x20 + i] = i
    for i in range(32):
        a[i] = 64 + i
    for i in range(95):
        b[0x20 + i] = i
    b[0xF7] = 95
    for t in (a, b):
        t.update({0x17B: 96, 0x17A: 97, 0x17D: 98, 0x106: 99, 0x179: 102})
    a.update({0x181: 100, 0x17C: 101})
    b.update({0x17C: 100, 0xC0: 101})
    return {"A": a, "B": b, "C": {0x181: 100, 0xC0: 101, 0x179: 102}}


NUMBER = _tables()
POINT = {s: {m: c for c, m in t.items()} for s, t in NUMBER.items()}


def utf8(c):
    return 1 if c < 0x80 else 2 if c < 0x800 else 3 if c < 0x10000 else 4


def check_of(symbols):
    return sum(m * max(1, i) for i, m in enumerate(symbols)) % 103


def cells_of(symbols):
    blocks = [PATTERNS[m] for m in symbols + [check_of(symbols)]]
    return [int(d) for d in "".join(blocks) + STOP]


def parse(points):
    """The symbol list, or the place where parsing stops."""
    if not points or points[0] not in START:
        return 0
    symbols, now, digit = [START[points[0]]], SET_OF[points[0]], None
    for place in range(1, len(points)):
        c = points[place]
        if now == "C" and 0x30 <= c <= 0x39:
            if digit is None:
                digit = c - 0x30
            else:
                symbols.append(10 * digit + c - 0x30)
                digit = None
        elif digit is not None and c != 0x179:
            return place
        elif c in NUMBER[now]:
            symbols.append(NUMBER[now][c])
            now = SET_OF.get(c, now)
        else:
            return place
    return symbols if digit is None else len(points)


FNC2 = 0x17A


def _encode(room, points, retired):
    """Encode, with refusal 19 at the first code point that is in `retired`."""
    for place, c in enumerate(points):
        if 0xD800 <= c <= 0xDFFF or c > 0x10FFFF:
            return refuse(1, place)
    if sum(map(utf8, points)) < 2:
        return refuse(2, 0)
    symbols = parse(points)
    if isinstance(symbols, int):
        return refuse(3, symbols)
    for place, c in enumerate(points):
        if c in retired:
            return refuse(19, place)
    if len(symbols) > MOST:
        return refuse(4, len(symbols))
    return into(room, len(symbols), cells_of(symbols))


def encode(room, points):
    return _encode(room, points, [FNC2])


def encode_with_fnc2(room, points):
    return _encode(room, points, [])


def _list(symbols):
    """Refusal 10 or 13 of a symbol list, or None."""
    if not 1 <= len(symbols) <= MOST:
        return refuse(10, len(symbols))
    if symbols[0] not in (103, 104, 105):
        return refuse(13, 0)
    for place in range(1, len(symbols)):
        if symbols[place] > 102:
            return refuse(13, place)
    return None


def draw(room, symbols):
    return _list(symbols) or into(room, len(symbols), cells_of(symbols))


def _walk(symbols):
    """Each number after the START, with the set that is current at its place."""
    now = {103: "A", 104: "B", 105: "C"}[symbols[0]]
    for m in symbols[1:]:
        yield now, m
        if now != "C" and m == 99:
            now = "C"
        elif now in "AC" and m == 100:
            now = "B"
        elif now in "BC" and m == 101:
            now = "A"


def spell(room, symbols):
    no = _list(symbols)
    if no:
        return no
    out = [{103: 0xC0, 104: 0x181, 105: 0x106}[symbols[0]]]
    for now, m in _walk(symbols):
        out += [ord(d) for d in "%02d" % m] if now == "C" and m < 100 else [POINT[now][m]]
    return into(room, len(out), out)


def _sent(now, m):
    """The bytes that a number gives when it is read in a set."""
    if now == "C":
        return [ord(d) for d in "%02d" % m] if m < 100 else []
    if m > 95:
        return []
    return [m - 64 if now == "A" and m > 63 else m + 32]


SHIFT = (("A", 98), ("B", 98))
OTHER = {"A": "B", "B": "A"}


def scan(room, symbols):
    no = _list(symbols)
    if no:
        return no
    out, before = [], None
    for now, m in _walk(symbols):
        out += _sent(OTHER[now] if before in SHIFT and m < 96 else now, m)
        before = (now, m)
    return into(room, len(out), out)


def _row(cells):
    """Refusal 10 or 11 of a row, or None."""
    if len(cells) not in range(35, MOST_CELLS + 1, 11):
        return refuse(10, len(cells))
    for place, c in enumerate(cells):
        if c > 1:
            return refuse(11, place)
    return None


def read(room, cells):
    no = _row(cells)
    if no:
        return no
    n = (len(cells) - 24) // 11
    text = "".join(map(str, cells))
    found = []
    for b in range(n + 1):
        block = text[11 * b:11 * b + 11]
        if block not in PATTERNS:
            return refuse(16 if block.count("1") % 2 == 1 else 12, b)
        m = PATTERNS.index(block)
        if (m < 103) == (b == 0):
            return refuse(13, b)
        found.append(m)
    for i in range(13):
        if text[len(text) - 13 + i] != STOP[i]:
            return refuse(15, len(text) - 13 + i)
    if found[n] != check_of(found[:n]):
        return refuse(14, check_of(found[:n]))
    return into(room, n, found[:n])


def pack(room, cells):
    no = _row(cells)
    if no:
        return no
    text = "".join(map(str, cells))
    text += "0" * (-len(text) % 8)
    n = (len(cells) - 24) // 11
    out = [1, n] if n <= MOST_OF_VERSION_1 else [2, *n.to_bytes(2, "big")]
    out += [int(text[i:i + 8], 2) for i in range(0, len(text), 8)]
    return into(room, len(out), out)


def _count(record):
    """The length of a record's head, and its count where its version may have it, or None."""
    if record[0] == 1:
        return 2, record[1] or None
    n = int.from_bytes(record[1:3], "big")
    return 3, n if len(record) >= 3 and MOST_OF_VERSION_1 < n <= MOST else None


def unpack(room, record):
    if len(record) < 2:
        return refuse(20, len(record))
    if record[0] not in (1, 2):
        return refuse(21, record[0])
    head, n = _count(record)
    if n is None:
        return refuse(22, 0)
    cells = 11 * n + 24
    need = head + -(-cells // 8)
    if len(record) != need:
        return refuse(22, need)
    text = "".join("{:08b}".format(b) for b in record[head:])
    if "1" in text[cells:]:
        return refuse(23, len(record) - 1)
    return into(room, cells, [int(d) for d in text[:cells]])


def settle(points):
    """Demand 3: every Ź between the two digits of a set C pair is moved ahead of that pair."""
    text, in_c, i, out = list(points), False, 0, []
    while i < len(text):
        c = text[i]
        if in_c and 0x30 <= c <= 0x39:
            j = i + 1
            while j < len(text) and text[j] == 0x179:
                j += 1
            if j < len(text) and 0x30 <= text[j] <= 0x39:
                out += text[i + 1:j] + [c, text[j]]
                i = j + 1
                continue
        if c in SET_OF:
            in_c = SET_OF[c] == "C"
        out.append(c)
        i += 1
    return out
