"""Makes crates/cases/stdin and crates/cases/stdout: calls of all nine jobs, and their answers.

    python3 tools/cases/make.py

The calls are the labels of document 01, inputs on both sides of each limit, and from document 02
the Shifts of request 1, EAN-13 of request 2 with numbers printed in public, the damaged rows of
request 3, the lengths above 255 and the records of request 4 and the FNC2 of request 12. The
program's buffers have 3,072 elements, room for rows of 277 symbols, so the limit of 4,000 shows in
unpack alone. The answers come from ../examples/model.py, which is written from these documents
(../examples/README.md says how), and of EAN-13 from ean13.py. Where a document gives the answer, it
is written here by hand and the model must agree.

A line of stdin has the letter of a job, the length of the lent buffer, and the input, all numbers
in upper-case hex. The letters are E encode, D draw, R read, S spell, N scan, P pack and U unpack of
Code 128, and W write and T read of EAN-13.

The same line of stdout has the two numbers of the answer in decimal, and then every element of the
buffer in hex: two digits for each, without blanks; or for spell, whose elements are code points,
with a blank before each. Before the call every element is 77 (hex).
"""
import os
import sys

REPOSITORY = os.path.dirname(os.path.dirname(os.path.dirname(os.path.abspath(__file__))))
sys.path.insert(0, os.path.join(REPOSITORY, "tools", "examples"))
import ean13
import model
from model import refuse

CODE128 = os.path.join(REPOSITORY, "rust", "barcoders", "src", "sym", "code128.rs")
model.load_patterns(CODE128)
JOBS = {"E": model.encode, "D": model.draw, "R": model.read, "S": model.spell, "N": model.scan,
        "P": model.pack, "U": model.unpack, "W": ean13.write, "T": ean13.read}
LENT, ROOM, FULL = 3072, 2840, 0x77  # ROOM takes a row of 256 symbols
asked, answered = [], []


def ask(job, room, values, want=None):
    """Adds a line to each file; `want` is the answer where a document gives it."""
    got = JOBS[job](room, list(values))
    if want is not None:
        assert (got if got[0] == "refuse" else got[:2]) == want, (job, values, got, want)
    if got[0] == "refuse":
        number, second, buffer = got[1], got[2], [FULL] * room
    else:
        number, second, buffer = 0, got[1], got[2] + [FULL] * (room - len(got[2]))
    asked.append(" ".join([job, "%X" % room] + ["%X" % v for v in values]))
    if job == "S":
        shown = "".join(" %x" % v for v in buffer)
    else:
        shown = " " + "".join("%02x" % v for v in buffer)
    answered.append("%d %d%s" % (number, second, shown))


def P(text):
    return [ord(c) for c in text]


def done(n):
    return ("accept", n)


def near(job, values, others=True):
    """Two buffers: one is an element too short, the other just long enough. If the input has at
    most 400 elements, also a longer buffer and an empty one, unless `others` is false."""
    need = len(JOBS[job](LENT, list(values))[2])
    rooms = {max(0, need - 1), need}
    if others and len(values) <= 400:
        rooms |= {need + 3, 0}
    for room in sorted(rooms):
        ask(job, room, values)


def changed(values, place, value):
    return values[:place] + [value] + values[place + 1:]


def pattern(number):
    return [int(d) for d in model.PATTERNS[number]]


def put(row, block, cells):
    """The row with eleven cells in place of a block."""
    return row[:11 * block] + cells + row[11 * block + 11:]


def replaced(row, block, number):
    """The row with the pattern of a number in place of a block."""
    return put(row, block, pattern(number))


def flipped(row, *places):
    """The row with these cells flipped."""
    return [1 - c if place in places else c for place, c in enumerate(row)]


# ---- encode: the labels of document 01
ask("E", ROOM, [], refuse(2, 0))
ask("E", ROOM, P("A"), refuse(2, 0))
ask("E", ROOM, P("À"), done(1))
ask("E", ROOM, P("€"), refuse(3, 0))
ask("E", 60, P("Ć12"), done(2))
ask("E", 60, P("Ć1Ź2"), done(3))
ask("E", 60, P("ĆŹ12"), done(3))
ask("E", 60, P("Ć1"), refuse(3, 2))
ask("E", 60, P("Ć1À"), refuse(3, 2))
ask("E", 60, P("ÀÀ"), refuse(3, 1))
ask("E", 60, P("ÀĆ12"), done(3))
ask("E", 60, P("ƁŽ"), done(2))
ask("E", 60, P("ÀŽa"), refuse(3, 2))
ask("E", 60, P("Ɓ÷"), done(2))
ask("E", 60, P("Ɓ\x7f"), refuse(3, 1))
ask("E", 60, [0x41, 0xD800], refuse(1, 1))
ask("E", 60, [0x110000], refuse(1, 0))
ask("E", ROOM, P("Ɓ" + 254 * "A"), done(255))
ask("E", ROOM, P("Ɓ" + 255 * "A"), done(256))
ask("E", ROOM, P("Ɓ" + 300 * "A" + "€"), refuse(3, 301))
ask("E", ROOM, P("Ć" + 254 * "37"), done(255))
ask("E", 34, P("À"), refuse(5, 35))
ask("E", 35, P("À"), done(1))
# inputs near them: both sides of the scalar values, of the limit and of the buffer's length, and
# the order of the refusals
for c in (0xD7FF, 0xD800, 0xDFFF, 0xE000, 0x10FFFF, 0x110000, 0xFFFFFFF):
    ask("E", 60, P("Ɓ") + [c])
ask("E", 0, [0x7F])
ask("E", 0, [0x80])
ask("E", 2832, P("Ć" + 254 * "99"), done(255))
ask("E", 2828, P("Ć" + 254 * "99"), refuse(5, 2829))
ask("E", ROOM, P("Ć" + 254 * "99" + "9"), refuse(3, 510))
# Request 4 of document 02: more than 255 symbols
ask("E", ROOM + 3, P("Ć" + 255 * "99"), done(256))
ask("E", ROOM - 1, P("Ć" + 255 * "99"), refuse(5, 2840))
ask("E", 2851, P("Ɓ" + 256 * "A"), done(257))
ask("E", 0, P("Ɓ" + 511 * "A"), refuse(5, 5656))
ask("E", 0, P("Ɓ" + 512 * "A"), refuse(5, 5667))
ask("E", 0, P("Ɓ" + 255 * "A"), refuse(5, 2840))
ask("E", 0, P("Ɓ" + 255 * "A" + "€"))
ask("E", 0, P("Ɓ" + 255 * "A" + "€") + [0xD800])
for label in ("À", "Ć12", "ƁAIM", "ƁAIMĆ1234", "ÀPJJ123C", "Ć1Ź2Ɓa÷ż", "À\x00\x1f _ŻŽżŹĆ00ŹÀ"):
    near("E", P(label))

# Request 12 of document 02: 19 at the first ź, after 3 and before 4, whatever the buffer's length.
# Before it the first label was accepted into 178 cells or more, and the second into 46 or more.
for room in (0, 177, 178, 181):
    ask("E", room, P("À\x00\x1f _ŻźŽżŹĆ00ŹÀ"), refuse(19, 6))
for room in (0, 34, 35, 45, 46, 47, ROOM):
    ask("E", room, P("Ɓź"), refuse(19, 1))
for label, place in (("Àź", 1), ("ƁAźź", 2), ("ĆƁź", 2), ("ĆÀź", 2), ("Ć97Ɓź", 4), ("Ć1Ź2Àź", 5),
                     ("ƁźĆ12", 1), ("ƁŽź", 2), ("Ɓ÷÷ź", 3), ("ÀƁźÀź", 2)):
    ask("E", 60, P(label), refuse(19, place))
for label, place in (("ź", 0), ("Ćź", 1), ("Ć12ź", 3), ("ƁĆź", 2), ("ƁźĆź", 3), ("Ɓź€", 2),
                     ("ƁźƁ", 2), ("Ć1ź", 2), ("Ć1Źź", 3), ("ƁźĆ1", 4), ("ƁźĆ1Ź", 5), ("ƁźĆ1À", 4)):
    ask("E", 60, P(label), refuse(3, place))
ask("E", 0, P("Ɓź€"), refuse(3, 2))
ask("E", 60, P("Ɓź") + [0xD800], refuse(1, 2))
ask("E", 0, P("Ɓź€") + [0x110000], refuse(1, 3))
# more than 255 symbols, and then 3 all the same
ask("E", ROOM, P("Ɓ" + 255 * "A" + "ź"), refuse(19, 256))
ask("E", ROOM, P("Ɓź" + 254 * "A" + "€"), refuse(3, 256))
# still accepted: the code points beside ź, the check 97, the pair 97
for label, n in (("ƁŻ", 2), ("ƁŹ", 2), ("Ć97", 2), ("ÀĆ97ƁŻ", 5)):
    ask("E", 80, P(label), done(n))

# ---- draw, spell and scan
LISTS = [
    [103], [104], [105, 12], [105, 102, 12], [103, 99, 12], [104, 98], [104, 95], [103, 95, 64, 63],
    [105, 99, 0, 100, 95, 101, 33], [104, 33, 41, 45, 99, 12, 34],
    [103, 96, 97, 98, 101, 102, 100, 96, 97, 98, 100, 102, 99, 98, 97, 96, 102, 101, 0],
]
LONG = [104] + 255 * [33]
PAIRS = [105] + 254 * [99]
for job in "DSN":
    for symbols in LISTS + [LONG]:
        near(job, symbols)
    near(job, PAIRS, others=False)
    for bad in ([], [102], [106], [255], [103, 103], [105, 1, 2, 103], [104, 102, 255]):
        ask(job, 0, bad)
        ask(job, 40, bad)
    # above 255 symbols
    ask(job, 40, LONG + [200], refuse(13, 256))
    ask(job, 0, [0] + 256 * [255], refuse(13, 0))

# Request 12 of document 02: 97 is still drawn, spelled and scanned, as FNC2 in sets A and B and as
# the pair in set C; the rows are read further down
WITH_97 = [[103, 97], [104, 97], [105, 97], [105, 97, 100, 97, 97], [104, 97, 99, 97, 101, 97, 64]]
for job in "DSN":
    for symbols in WITH_97:
        near(job, symbols)

# Request 1 of document 02: scan reads the number after a Shift in the other of sets A and B, if it
# is below 96. The bytes are by hand, in hex; each list into three bytes, and into one too few.
SHIFTED = [
    ([103, 98, 65], "61"), ([104, 98, 65], "01"), ([103, 98, 98, 65], "61"),
    ([103, 98, 99, 12], "3132"), ([105, 98], "3938"), ([104, 98], ""),
    ([103, 98, 65, 65], "6101"), ([104, 98, 100, 65], "61"),
    # both ends of what is shifted, and the numbers after it: three Shifts, FNC1, switches, the end
    ([103, 98, 0, 98, 63, 98, 64], "205f60"), ([104, 98, 63, 98, 64, 98, 95], "5f001f"),
    ([104, 98, 98, 98, 95, 95], "1f7f"), ([103, 98, 95, 98, 102, 95, 98], "7f1f"),
    ([103, 98, 100, 98, 64, 64], "0060"), ([104, 98, 101, 98, 64, 64], "6000"),
    ([104, 98, 99, 98, 101, 64], "393800"), ([105, 98, 100, 98, 64], "393800"),
]
for symbols, sent in SHIFTED:
    size = len(sent) // 2
    ask("N", 3, symbols, done(size))
    assert answered[-1] == "0 %d %s" % (size, sent.ljust(6, "7"))
    if size > 0:
        ask("N", size - 1, symbols, refuse(5, size))

# ---- read
for symbols in LISTS + [LONG]:
    near("R", model.cells_of(symbols))
ask("R", 255, model.cells_of(PAIRS), done(255))
for symbols in WITH_97:
    row, n = model.cells_of(symbols), len(symbols)
    ask("R", n - 1, row, refuse(5, n))
    ask("R", n, row, done(n))
    assert answered[-1].split()[2] == "".join("%02x" % m for m in symbols)
ROW = model.cells_of([104, 33, 41, 45])
END = len(ROW)
for place, value in ((0, 2), (20, 255), (END - 1, 2)):
    ask("R", 10, changed(ROW, place, value), refuse(11, place))
for place, block in ((3, 0), (13, 1), (45, 4)):
    ask("R", 10, flipped(ROW, place), refuse(16, block))
for place in (END - 13, END - 7, END - 1):
    ask("R", 10, changed(ROW, place, 0), refuse(15, place))
for block, number in ((0, 33), (0, 103), (0, 105), (1, 104), (2, 34), (3, 102), (4, 103), (4, 44)):
    ask("R", 10, replaced(ROW, block, number))
ask("R", 0, flipped(ROW, 45, END - 1), refuse(16, 4))
ask("R", 0, changed(replaced(ROW, 4, 44), END - 1, 0))
for length in (0, 1, 24, 34, 36, 45, 2841):
    ask("R", 5, length * [1], refuse(10, length))
for symbols, blind in ((LONG[:104], 103), (LONG, 206)):
    ask("R", 256, replaced(model.cells_of(symbols), blind, 7), done(len(symbols)))
# Request 3 of document 02: 16 for a block that is no pattern and has an odd number of bar cells,
# and 12 for an even number. One cell flipped in START, data and check, into no element, into three
# and into the four that the row needs; and in the stop.
for place, block in ((0, 0), (32, 2), (54, 4)):
    for room in (0, 3, 4):
        ask("R", room, flipped(ROW, place), refuse(16, block))
ask("R", 4, flipped(ROW, 57), refuse(15, 57))
# the block further left is answered, whether 16, 12 or 13
NO_BAR, ALL_BAR = 11 * [0], 11 * [1]
ask("R", 4, put(put(ROW, 0, ALL_BAR), 4, NO_BAR), refuse(16, 0))
ask("R", 4, put(put(ROW, 0, NO_BAR), 4, ALL_BAR), refuse(12, 0))
ask("R", 4, put(put(ROW, 1, ALL_BAR), 2, NO_BAR), refuse(16, 1))
ask("R", 4, put(put(ROW, 1, NO_BAR), 2, ALL_BAR), refuse(12, 1))
ask("R", 4, replaced(flipped(ROW, 3), 4, 103), refuse(16, 0))
ask("R", 4, replaced(flipped(ROW, 45), 0, 33), refuse(13, 0))
ask("R", 4, replaced(flipped(ROW, 13), 2, 103), refuse(16, 1))
ask("R", 4, replaced(flipped(ROW, 25), 1, 104), refuse(13, 1))
ask("R", 4, flipped(ROW, 13, 45), refuse(16, 1))
# two cells flipped in one block, which makes no pattern here; 11 first; blocks of bar and of space
for place, block in ((0, 0), (20, 1), (44, 4)):
    ask("R", 4, flipped(ROW, place, place + 1), refuse(12, block))
ask("R", 4, changed(flipped(ROW, 0), END - 1, 2), refuse(11, 67))
ask("R", 4, 35 * [1], refuse(16, 0))
ask("R", 4, 35 * [0], refuse(12, 0))
# in the data place 103, where another number is not noticed
ask("R", 104, flipped(model.cells_of(LONG[:104]), 1133), refuse(16, 103))

# ---- the row record
for symbols in LISTS[:4] + [LONG]:
    near("P", model.cells_of(symbols))
    near("U", model.pack(LENT, model.cells_of(symbols))[2])
assert model.pack(358, model.cells_of(LONG))[2][:3] == [2, 1, 0]
ask("P", 356, model.cells_of(PAIRS), done(356))
assert answered[-1].startswith("0 356 01ff")
near("U", model.pack(LENT, model.cells_of(PAIRS))[2], others=False)
for row in (35 * [0], 35 * [1], 46 * [1], changed(35 * [1], 34, 2), changed(35 * [0], 0, 9),
            34 * [0], 36 * [0], []):
    ask("P", 12, row)
ask("U", 40, [1, 0], refuse(22, 0))
ask("U", 40, [2, 1], refuse(22, 0))
ask("U", 40, [1], refuse(20, 1))
ask("U", 40, [])
RECORD = model.pack(40, model.cells_of([103]))[2]
for place in range(len(RECORD)):
    for value in (0, 1, 2, 31, 255):
        ask("U", 40, changed(RECORD, place, value))
for bit in range(8):
    ask("U", 40, RECORD[:6] + [RECORD[6] ^ (1 << bit)])
for record in (RECORD[:6], RECORD + [0], RECORD + [255], [1, 255] + 354 * [0],
               [1, 255] + 354 * [255], [1, 255] + 353 * [0], [0, 1, 0, 0, 0, 0, 0]):
    ask("U", 40, record)
    ask("U", ROOM, record)
# Request 4 of document 02: 22 with 0 for a version 2 record under 3 bytes, of a count up to 255 or
# above 4,000; 22 with the length needed; 21 for a version neither 1 nor 2
for record in ([2, 0], [2, 15], [2, 255], [2, 0, 0], [2, 0, 1], [2, 0, 255], [2, 15, 161],
               [2, 16, 0], [2, 160, 15], [2, 255, 255], [2, 0, 1, 0, 0, 0, 0, 0],
               [2, 0, 255] + 354 * [0], [2, 0, 1] + 355 * [0]):
    ask("U", 40, record, refuse(22, 0))
for record, length in (([2, 1, 0], 358), ([2, 1, 1], 360), ([2, 2, 0], 710), ([2, 15, 160], 5506),
                       ([2, 1, 0] + 354 * [0], 358), ([2, 1, 0] + 356 * [0], 358)):
    ask("U", 40, record, refuse(22, length))
for record in ([0, 1], [3, 1], [3, 9], [3, 1, 0], [255, 1, 0]):
    ask("U", 40, record, refuse(21, record[0]))
ask("U", 40, [2], refuse(20, 1))
# 257 symbols, five spare bits
ask("U", 2854, [2, 1, 1] + 356 * [0] + [32], done(2851))
ask("U", 2850, [2, 1, 1] + 356 * [0] + [32], refuse(5, 2851))
for spare in (1, 16):
    ask("U", 40, [2, 1, 1] + 356 * [0] + [spare], refuse(23, 359))

# ---- Request 2 of document 02: EAN-13
# Numbers printed in public: two that explain EAN-13, two that explain the ISBN, one that explains
# UPC-A, with a 0 ahead, the example of barcoders' documentation, and a JAN. Each with its check and
# without, and its row back.
PRINTED = ["4006381333931", "5901234123457", "9783161484100", "9780306406157", "0036000291452",
           "7501031311309", "4901234567894"]
for number in PRINTED:
    ask("W", 98, P(number), done(95))
    ask("W", 95, P(number[:12]), done(95))
    ask("T", 14, ean13.write(95, P(number))[2], done(13))
    assert answered[-1].split()[2] == "".join("%02x" % c for c in P(number)) + "77"
# each first digit, and each digit at each place
for first in range(10):
    text = P("%d" % first + "".join("%d" % ((first + i) % 10) for i in range(11)))
    ask("W", 95, text, done(95))
    ask("T", 13, ean13.write(95, text)[2], done(13))
GOOD, ROW13 = P(PRINTED[0]), ean13.write(95, P(PRINTED[0]))[2]
# 30: every length but 12 and 13, whatever the text and the room
for length in (0, 1, 11, 14, 15, 95, 256):
    ask("W", 100, length * [0x30], refuse(30, length))
    ask("W", 0, length * [0x2F], refuse(30, length))
# 31: the first byte that is not a digit, before the check and the room
for place in range(13):
    for byte in (0x2F, 0x3A, 0, 255):
        ask("W", 0, changed(GOOD, place, byte), refuse(31, place))
ask("W", 95, P("12345678901x") + [0x2F], refuse(31, 11))
ask("W", 95, P("x2345678901x"), refuse(31, 0))
# 32: any other check digit, before the room; the second number is the right one
for digit in range(10):
    wanted = done(95) if digit == 1 else refuse(32, 1)
    ask("W", 95, changed(GOOD, 12, 0x30 + digit), wanted)
ask("W", 0, changed(GOOD, 12, 0x30), refuse(32, 1))
ask("W", 0, P("0000000000001"), refuse(32, 0))
# 5
for room in (0, 94):
    ask("W", room, GOOD, refuse(5, 95))
    ask("W", room, GOOD[:12], refuse(5, 95))
for room in (0, 12):
    ask("T", room, ROW13, refuse(5, 13))
# 33: other lengths, another cell at every place, every other digit of each set for each drawn digit,
# into no room too
for length in list(range(0, 8)) + [35, 94, 96, 190]:
    ask("T", 13, (ROW13 + ROW13)[:length], refuse(33, 0))
    ask("T", 0, length * [1], refuse(33, 0))
for place in range(95):
    ask("T", 13, flipped(ROW13, place), refuse(33, 0))
for place, value in ((0, 2), (3, 255), (47, 3), (94, 2), (1, 128)):
    ask("T", 0, changed(ROW13, place, value), refuse(33, 0))
for k in (0, 5, 6, 11):
    at = 3 + 7 * k if k < 6 else 8 + 7 * k
    for number_set in "ABC":
        for digit in range(10):
            cells = ean13.drawn(digit, number_set)
            if cells != ROW13[at:at + 7]:
                ask("T", 13, ROW13[:at] + cells + ROW13[at + 7:], refuse(33, 0))
ask("T", 13, ROW13[::-1], refuse(33, 0))
# two digits redrawn so that the check holds again: another number, which is read
ask("T", 13, ean13.row_of([4, 0, 0, 6, 3, 8, 1, 3, 3, 3, 2, 2, 1]), done(13))

# the program reads no more than 262,144 bytes, and of a line its letter and 3,072 numbers
assert sum(len(line) + 1 for line in asked) <= 262144
assert all(len(line.split()) <= 1 + LENT and int(line.split()[1], 16) <= LENT for line in asked)
for name, lines in (("stdin", asked), ("stdout", answered)):
    with open(os.path.join(REPOSITORY, "crates", "cases", name), "w", encoding="ascii") as f:
        f.write("\n".join(lines) + "\n")
print(len(asked), "lines")
