"""Makes crates/paper/proofs/Examples.antt and crates/paper/proofs/Against.antt.

    python3 tools/examples/make.py

The expected values come from the crate barcoders, from documents 01 and 02 by hand, or from the
standard as we know it; model.py must agree with every one that is the answer of a job. The package
rust/answers asks the crate: cargo builds and runs it. Nothing here reads the definitions in specs/.
"""
import os
import random
import subprocess
import textwrap

import model
from model import FNC2, MOST, PATTERNS, STOP, refuse

REPOSITORY = os.path.dirname(os.path.dirname(os.path.dirname(os.path.abspath(__file__))))
RUST = os.path.join(REPOSITORY, "rust")
CODE128 = os.path.join(RUST, "barcoders", "src", "sym", "code128.rs")
EXAMPLES = os.path.join(REPOSITORY, "crates", "paper", "proofs", "Examples.antt")
AGAINST = os.path.join(REPOSITORY, "crates", "paper", "proofs", "Against.antt")
model.load_patterns(CODE128)
ROOM = model.MOST_CELLS   # takes any row
SWEPT = 512
rng = random.Random(15417)


def P(label):
    return [ord(c) for c in label]


# ---------------------------------------------------------------- the crate


ASK = "cargo run --release --offline --locked --quiet --package answers -- --ask".split()
ERRORS = ("Length", "Character")


def crate_many(labels):
    """What the crate answers to each label: one of ERRORS, or the row as a text of 0 and 1."""
    sent = "".join(" ".join("%X" % c for c in label) + "\n" for label in labels)
    run = subprocess.run(ASK, cwd=RUST, input=sent, stdout=subprocess.PIPE, text=True, check=True)
    got = [line.split()[0] for line in run.stdout.splitlines()]
    assert len(got) == len(labels) and all(g in ERRORS or set(g) == {"0", "1"} for g in got)
    return got


CONTINUE = ["", "À", "0", "00", "Ź0", "A", "a"]


def crate_places(labels):
    """For each label, the length of its longest prefix that the crate accepts with some ending."""
    tries = [(i, k, label[:k] + P(more))
             for i, label in enumerate(labels) for k in range(len(label) + 1) for more in CONTINUE]
    longest = [0] * len(labels)
    for (i, k, _), got in zip(tries, crate_many([t for _, _, t in tries])):
        if got not in ERRORS:
            longest[i] = max(longest[i], k)
    return longest


def crate_answers(labels):
    """Document 01's answer to each label, before request 12 and with the limit of request 4. The
    crate has no refusal 4: the symbols are counted in its row."""
    answers, gots = [], crate_many(labels)
    places = iter(crate_places([x for x, got in zip(labels, gots) if got == "Character"]))
    for label, got in zip(labels, gots):
        if got == "Length":
            answer = refuse(2, 0)
        elif got == "Character":
            answer = refuse(3, next(places))
        else:
            n = (len(got) - 24) // 11
            answer = ("accept", n, [int(d) for d in got]) if n <= MOST else refuse(4, n)
        assert answer == model.encode_with_fnc2(ROOM, label), (label, answer)
        answers.append(answer)
    return answers


RETIRED = []


def not_retired(labels, answers):
    """The labels with the crate's answers, but for those with ź that the crate accepts (or 4, if
    its row has more than 4,000 symbols): encode refuses these by 19, and they go to RETIRED."""
    stay = []
    for label, answer in zip(labels, answers):
        if FNC2 in label and (answer[0] == "accept" or answer[1] == 4):
            assert model.encode(ROOM, label) == refuse(19, label.index(FNC2)), label
            RETIRED.append((label, answer))
        else:
            assert model.encode(ROOM, label) == answer, (label, answer)
            stay.append((label, answer))
    return stay


# ---------------------------------------------------------------- antt

PLAIN = set("ÀƁĆŹźŻżŽ÷€ć") | {chr(c) for c in range(0x20, 0x7F)}
TABLES, STATEMENTS, COUNTS = [], [], []


SHORT = {"\\": "\\\\", "\"": "\\\"", "\0": "\\0", "\t": "\\t", "\n": "\\n", "\r": "\\r"}


def text(points):
    out = ""
    for c in points:
        ch = chr(c)
        out += SHORT[ch] if ch in SHORT else ch if ch in PLAIN else "\\u{%x}" % c
    return '"' + out + '"'


def listed(ms):
    return " ∷ ".join([str(m) for m in ms] + ["[]"])


def hexed(cells):
    s = "".join(map(str, cells))
    s += "0" * (-len(s) % 4)
    return '"' + "".join("%X" % int(s[i:i + 4], 2) for i in range(0, len(s), 4)) + '"'


def hexed_bytes(record):
    return 'bytes_of "' + " ".join("%02X" % b for b in record) + '"'


def wide(words):
    """The width of a text without its underscores: lines break where they did before the names had
    any, so that the files differ from the older ones in the names alone."""
    return len(words) - words.count("_")


def wrapped(piece, width):
    """An entry that is too long for one line, as two lines; the second begins with a word below."""
    for word in (" ⇒ ", " gives ", " draws ", " sends "):
        at = piece.find(word)
        if 0 < at <= width and wide(piece[at:]) <= width:
            return piece[:at] + "\n   " + piece[at:]
    assert False, piece


def listing(entries, width=160):
    """The entries of a table, as many on a line as fit."""
    lines, line = [], ""
    for e in entries:
        piece = "(%s) ∷" % e
        if line and wide(line) + 1 + wide(piece) > width:
            lines.append(line)
            line = ""
        if wide(piece) > width:
            lines.append(wrapped(piece, width))
        else:
            line = line + " " + piece if line else piece
    if line:
        lines.append(line)
    return "".join("    %s\n" % x for x in lines[:-1] + [lines[-1] + " []"])


def said(comment):
    """A comment, wrapped at 100 columns."""
    lines = textwrap.wrap(" ".join(comment.split()), 97, break_on_hyphens=False)
    return "".join("-- %s\n" % line for line in lines)


def title(words):
    TABLES.append("-- ---- %s\n" % words)


def table(group, name, kind, comment, entries, each=1):
    """Adds a table. `each` is the number of answers that are compared for one entry."""
    typed = "unfoldable pub %s : List %s\n%s =\n" % (name, kind, name)
    TABLES.append(said(comment) + typed + listing(entries))
    COUNTS.append((group, name, len(entries) * each))


def states(name, statement):
    STATEMENTS.append((name, statement))


def plain_answer(answer, form):
    if answer[0] == "refuse":
        return "refuse %d %d" % answer[1:]
    return "accept %d (%s)" % (answer[1], form(answer[2]))


def row_answer(answer):
    if answer[0] == "refuse":
        return "refuse %d %d" % answer[1:]
    assert len(answer[2]) == 11 * answer[1] + 24
    return "accepted %d %s" % (answer[1], hexed(answer[2]))


def labels_table(group, name, comment, labels):
    unique = [list(t) for t in dict.fromkeys(tuple(l) for l in labels)]
    answers = crate_answers(unique)
    table(group, name, "Label", comment, ["%s ⇒ %s" % (text(l), row_answer(a)) for l, a in not_retired(unique, answers)])
    states("%s_hold" % name, "answered %s ≡ expected %s" % (name, name))
    return list(zip(unique, answers))


def points_table(group, name, comment, labels):
    """Like labels_table, with the labels written as code points in hexadecimal."""
    shown = [(" ∷ ".join(["0x%X" % c for c in l] + ["[]"]), a) for l, a in not_retired(labels, crate_answers(labels))]
    table(group, name, "Example", comment, ["%s into %d gives %s" % (x, ROOM, row_answer(a)) for x, a in shown])
    states("%s_hold" % name, "map (asked encode) %s ≡ map given %s" % (name, name))


def examples_table(group, name, job, comment, entries):
    table(group, name, "Example", comment, entries)
    for j in job.split():
        states("%s_hold" % name if j == job else "%s_of_%s" % (name, j), "map (asked %s) %s ≡ map given %s" % (j, name, name))


def model_of(job):
    return model.encode_with_fnc2 if job == "encode_with_fnc2" else getattr(model, job)


def held_to(job, shown, value, room, answer, form):
    got = model_of(job)(room, value)
    assert got == answer, (job, shown, room, got, answer)
    return "%s into %d gives %s" % (shown, room, form(answer))


def accept(out, number=None):
    return ("accept", len(out) if number is None else number, list(out))


# ================================================================ a. document 01's labels

title("a. document 01's labels")

A254, A255 = [104] + [33] * 254, [104] + [33] * 255
C508 = [105] + [int("0123456789"[2 * i % 10:2 * i % 10 + 2]) for i in range(254)]
assert model.parse(P("Ɓ" + "A" * 254)) == A254 and model.parse(P("Ć" + "0123456789" * 50 + "01234567")) == C508

hand_a = [
    ('points "Ć1À"', P("Ć1À"), ROOM, refuse(3, 2)),
    ('points "Ɓ\\u{7f}"', P("Ɓ\x7f"), ROOM, refuse(3, 1)),
    ("65 ∷ 0xD800 ∷ []", [65, 0xD800], ROOM, refuse(1, 1)),
    ("0x110000 ∷ []", [0x110000], ROOM, refuse(1, 0)),
    ("Ɓ ∷ replicate 300 65 ++ (0x20AC ∷ [])", [0x181] + [65] * 300 + [0x20AC], ROOM, refuse(3, 301)),
    ('points "À"', P("À"), 34, refuse(5, 35)),
    ('points "À"', P("À"), 35, ("accept", 1, "11010000100110110011001100011101011")),
    # the label program's lines
    ('points "À"', P("À"), ROOM, ("accept", 1, "11010000100110110011001100011101011")),
    ('points "Ć12"', P("Ć12"), ROOM, ("accept", 2, "1101001110010110011100100110011101100011101011")),
    ("[]", [], ROOM, refuse(2, 0)),
    ('points "Ć1"', P("Ć1"), ROOM, refuse(3, 2)),
    ("0xD800 ∷ []", [0xD800], ROOM, refuse(1, 0)),
]
entries = []
for shown, value, room, answer in hand_a:
    want = answer if answer[0] == "refuse" else accept([int(d) for d in answer[2]], answer[1])
    entries.append(held_to("encode", shown, value, room, want, lambda a: plain_answer(a, lambda o: 'cells_of "%s"' % "".join(map(str, o)))))
examples_table("a", "unstarred", "encode", """
"Labels on each side of the line", those without a star except those of 255 and 256 symbols, and the
lines of "The label program", all as document 01 prints them.
""", entries)

entries = []
for shown, value, room, answer in [
    ("1 ∷ 0 ∷ []", [1, 0], ROOM, refuse(22, 0)),
    ("2 ∷ 1 ∷ []", [2, 1], ROOM, refuse(22, 0)),
    ("1 ∷ []", [1], ROOM, refuse(20, 1)),
]:
    entries.append(held_to("unpack", shown, value, room, answer, lambda a: plain_answer(a, listed)))
examples_table("a", "unstarred_records", "unpack", """
"Unpack of 1, 0: 22, 0. … Of one byte: 20, 1.", and by request 4 of document 02 "unpack of 2, 1
answers 22, 0".
""", entries)

LONG_C = model.check_of(A254), model.check_of(C508), model.check_of(A255)
pairs5 = " ".join(PATTERNS[m] for m in (1, 23, 45, 67, 89))
TABLES.append(said("""
"Ɓ and 254 A: n = 255." and "Ć and 508 digits: n = 255.", the digits being 0 to 9 again and again;
and by request 4 "Ɓ and 255 A is now accepted with n = 256". The rows are put together from patterns
of `CHARS`, copied from the crate's source, and the crate writes the same; model.py computed the
checks, %d, %d and %d.
""" % LONG_C) + """unfoldable pub long_rows : List Example
long_rows =
    ((Ɓ ∷ replicate 254 65) into 44024 gives accept 255
    (cells_of "%s" ++ (times 254 (cells_of "%s") ++ cells_of "%s %s"))) ∷
    ((Ć ∷ times 50 (points "0123456789") ++ points "01234567") into 44024 gives accept 255
    (cells_of "%s" ++ (times 50 (cells_of "%s") ++
    cells_of "%s %s %s"))) ∷
    ((Ɓ ∷ replicate 255 65) into 44024 gives accept 256
    (cells_of "%s" ++ (times 255 (cells_of "%s") ++ cells_of "%s %s"))) ∷ []
""" % (PATTERNS[104], PATTERNS[33], PATTERNS[LONG_C[0]], STOP,
       PATTERNS[105], pairs5, " ".join(PATTERNS[m] for m in (1, 23, 45, 67)), PATTERNS[LONG_C[1]], STOP,
       PATTERNS[104], PATTERNS[33], PATTERNS[LONG_C[2]], STOP))
COUNTS.append(("a", "long_rows", 3))
for label, symbols in (("Ɓ" + "A" * 254, A254), ("Ć" + "0123456789" * 50 + "01234567", C508), ("Ɓ" + "A" * 255, A255)):
    assert crate_answers([P(label)]) == [model.encode(ROOM, P(label))] == [accept(model.cells_of(symbols), len(symbols))]
states("long_rows_hold", "map (asked encode) long_rows ≡ map given long_rows")

entries = []
for shown, value, room, answer in [
    # 1 over the whole input before 2, 3, 4 and 5
    ("0xDFFF ∷ []", [0xDFFF], ROOM, refuse(1, 0)),
    ("0xFFFFFFFF ∷ []", [0xFFFFFFFF], ROOM, refuse(1, 0)),
    ("0xD7FF ∷ []", [0xD7FF], ROOM, refuse(3, 0)),
    ("0xE000 ∷ []", [0xE000], ROOM, refuse(3, 0)),
    ("0x10FFFF ∷ []", [0x10FFFF], ROOM, refuse(3, 0)),
    ("À ∷ 0xDBFF ∷ 0xDC00 ∷ []", [0xC0, 0xDBFF, 0xDC00], ROOM, refuse(1, 1)),
    ("65 ∷ 65 ∷ 65 ∷ 0xDABC ∷ []", [65, 65, 65, 0xDABC], ROOM, refuse(1, 3)),
    ("Ć ∷ 49 ∷ À ∷ 0x110000 ∷ 0xD800 ∷ []", [0x106, 49, 0xC0, 0x110000, 0xD800], 0, refuse(1, 3)),
    ("Ɓ ∷ replicate 4000 65 ++ (0xD800 ∷ [])", [0x181] + [65] * 4000 + [0xD800], ROOM, refuse(1, 4001)),
    # 2 before 3 and 5
    ("[]", [], 0, refuse(2, 0)),
    ("0x7F ∷ []", [0x7F], 0, refuse(2, 0)),
    ("0 ∷ []", [0], ROOM, refuse(2, 0)),
    ("0x80 ∷ []", [0x80], 0, refuse(3, 0)),
    ("65 ∷ 65 ∷ []", [65, 65], 0, refuse(3, 0)),
    # 3 before 4 and 5, 4 before 5
    ('points "ÀÀ"', P("ÀÀ"), 0, refuse(3, 1)),
    ("Ɓ ∷ replicate 4000 65 ++ (0x20AC ∷ [])", [0x181] + [65] * 4000 + [0x20AC], ROOM, refuse(3, 4001)),
    ("Ć ∷ replicate 8000 48", [0x106] + [48] * 8000, 0, refuse(4, 4001)),
    ("Ɓ ∷ replicate 4000 65", [0x181] + [65] * 4000, 0, refuse(4, 4001)),
    # 5
    ('points "À"', P("À"), 0, refuse(5, 35)),
    ('points "Ć12"', P("Ć12"), 45, refuse(5, 46)),
    ("Ɓ ∷ replicate 254 65", [0x181] + [65] * 254, 2828, refuse(5, 2829)),
    ("Ɓ ∷ replicate 255 65", [0x181] + [65] * 255, 2839, refuse(5, 2840)),
    ("Ć ∷ replicate 509 48", [0x106] + [48] * 509, ROOM, refuse(3, 510)),
    ("Ć ∷ replicate 510 48", [0x106] + [48] * 510, 0, refuse(5, 2840)),
]:
    entries.append(held_to("encode", shown, value, room, answer, lambda a: plain_answer(a, listed)))
examples_table("a", "order", "encode", """
Encode's refusals, their places and their order, by hand from document 01's table and "Order", with
the limit of request 4. The values D800..DFFF and those above 10FFFF are no Rust chars, so the crate cannot be asked about
refusal 1.
""", entries)

# ================================================================ b. published examples

title("b. published examples")

PUBLISHED = [
    ("ƁAIM", [104, 33, 41, 45], 45, "AIM"),
    ("ƁAIMĆ1234", [104, 33, 41, 45, 99, 12, 34], 87, "AIM1234"),
    ("ÀPJJ123C", [103, 48, 42, 42, 17, 18, 19, 35], 54, "PJJ123C"),
    ("ƁWikipedia", [104, 55, 73, 75, 73, 80, 69, 68, 73, 65], 88, "Wikipedia"),
]
entries = []
for label, symbols, check, message in PUBLISHED:
    assert model.parse(P(label)) == symbols and model.check_of(symbols) == check and model.scan(ROOM, symbols)[2] == P(message)
    entries.append('%s is (%s) checked %d sends "%s"' % (text(P(label)), listed(symbols), check, message))
table("b", "published", "Published", """
AIM in set B with the check 45 (ISO/IEC 15417, Figure 1); AIM1234 with the check 87 (its Annex A.1);
and, from Wikipedia's article "Code 128", PJJ123C in set A with the check 54 and the word Wikipedia
in set B. No copy of these texts was at hand: the values are as we know them. An entry has the
label, its symbols, its check and what a scanner sends. The sums that give the checks, by hand:
104+33+82+135=354, 354+396+60+204=1014, 103+48+84+126+68+90+114+245=878 and
104+55+146+225+292+400+414+476+584+585=3281.
""", entries, each=3)
states("published_hold", "map parsed_as published ≡ map printed_as published")

wiki = "11010000100 11101110110 10110111000 10110111000 10011100110 11001110010 11001011100 10001000110 11101011000 1100011101011"
assert "".join(map(str, model.encode(ROOM, P("ÀPJJ123C"))[2])) == wiki.replace(" ", "")
aim = " ".join("".join("10"[i % 2] * int(w) for i, w in enumerate(ws)) for ws in "211214 111323 231311 113123 113123 2331112".split())
assert aim == " ".join(PATTERNS[m] for m in (104, 33, 41, 45, 45)) + " " + STOP
entries = ['points "ÀPJJ123C" into 112 gives accept 8 (cells_of "%s")' % wiki,
           'points "ƁAIM" into 68 gives accept 4 (cells_of "%s")' % aim]
assert model.encode(112, P("ÀPJJ123C"))[0] == model.encode(68, P("ƁAIM"))[0] == "accept"
examples_table("b", "published_rows", "encode", """
Two of their rows: that of PJJ123C from the bar patterns in the article's table, that of AIM from
the standard's widths 211214 111323 231311 113123 113123 2331112.
""", entries)

# ================================================================ c. the crate's answers

title("c. the crate's answers")
TABLES.append(said("""
The tables under c are from the crate barcoders 2.0.0, its source unchanged: first its constants,
then what `Code128` answers when it is run. Rows are written in hexadecimal. Error::Length is
refusal 2 and Error::Character is refusal 3. The crate gives no place: the place is the length of
the longest prefix of the label that the crate accepts with some ending, and each prefix was tried
with these endings: none, À, 0, 00, Ź0, A, a. The crate cannot be asked about D800..DFFF and above
10FFFF, which are no Rust chars, nor about the length of a buffer; and it has no upper limit. The
labels with ź that the crate accepts, and that encode refuses by request 12 of document 02, stand in
`with_fnc2`.
"""))

full = open(CODE128, encoding="utf-8").read()
assert "const STOP: Encoding = [1, 1, 0, 0, 0, 1, 1, 1, 0, 1, 0];" in full and "const TERM: [u8; 2] = [1, 1];" in full
flat = hexed([int(d) for p in PATTERNS for d in p])[1:-1]
parts = [flat[i:i + 98] for i in range(0, len(flat), 98)]
TABLES.append("""-- `CHARS`, all 1,166 cells as they stand in the crate's source
unfoldable pub crate_chars : List ℕ
crate_chars =
    take 1166 (fours (
    %s))

-- `STOP` and then `TERM`
unfoldable pub crate_stop : List ℕ
crate_stop = cells_of "11000111010 11"
""" % " ++\n    ".join('cells_of "%s"' % p for p in parts))
COUNTS.append(("c", "crate_chars", 107))
states("crate_chars_lem", "chars ≡ crate_chars")
states("crate_patterns", "cells (count 0 106) ≡ crate_chars")
states("crate_stop_lem", "stop ≡ crate_stop")

widths = []
for p in PATTERNS:
    runs = [1]
    for x, y in zip(p, p[1:]):
        if x == y:
            runs[-1] += 1
        else:
            runs.append(1)
    widths.append("".join(map(str, runs)))
assert widths[0] == "212222" and widths[105] == "211232"
lines = [" ".join(widths[i:i + 20]) for i in range(0, 106, 20)]
TABLES.append("""-- the widths of the bars and spaces of each pattern, counted in the crate's cells by tools/examples
unfoldable pub crate_widths : List ℕ
crate_widths =
    %s

-- how many cells of each pattern are bars, counted in the same way
unfoldable pub crate_bars : List ℕ
crate_bars = cells_of "%s"
""" % (" ++\n    ".join('cells_of "%s"' % x for x in lines), "".join(str(p.count("1")) for p in PATTERNS)))
COUNTS.append(("c", "crate_widths", 106))
COUNTS.append(("c", "crate_bars", 106))
states("crate_widths_lem", "joined (map runs (elevens 106 crate_chars)) ≡ crate_widths")
states("crate_bars_lem", "map bar_cells (elevens 106 crate_chars) ≡ crate_bars")

# every number in every set
SPECIAL = "ŻźŽżŹ"
numbers = [P("À") + list(range(a, b)) for a, b in ((0x20, 0x40), (0x40, 0x60), (0x00, 0x10), (0x10, 0x20))] + [P("À" + SPECIAL), P("ÀŻŽżŹ")]
numbers += [P("Ɓ") + list(range(0x20, 0x40)), P("Ɓ") + list(range(0x40, 0x60)), P("Ɓ") + list(range(0x60, 0x7F)) + [0xF7], P("Ɓ" + SPECIAL), P("ƁŻŽżŹ")]
numbers += [P("Ć" + "".join("%02d" % m for m in range(a, a + 25))) for a in (0, 25, 50, 75)] + [P("ĆŹ")]
got = labels_table("c", "every_number", "every number of each set, but for the switches and FNC2", numbers)
assert all(a[0] == "accept" for _, a in got)

switches = ["ÀƁ", "ÀĆ", "ƁÀ", "ƁĆ", "ĆÀ", "ĆƁ", "ÀƁa", "ÀĆ00", "ƁÀ\x1f", "ƁĆ99", "ĆÀ\x00", "ĆƁz", "ÀƁÀƁ", "ÀĆÀĆ", "ƁĆƁĆ", "ÀƁĆÀĆƁÀ", "ĆƁÀĆƁÀĆ", "Ć12À\x01Ɓ~Ć34",
            "ÀAƁaĆ55Ɓ5À5", "ĆŹƁŹÀŹĆŹ", "ÀĆ99Ɓ99À99", "ÀÀ", "ƁƁ", "ĆĆ", "ÀƁƁ", "ƁÀÀ", "ÀĆĆ", "ĆÀÀ", "ĆƁƁ", "Ć12Ć34", "ÀAÀ", "ƁaƁ", "ƁaÀ\x01a", "ÀĆ1À", "ÀĆ1Ɓ", "ÀĆ1Ć",
            "Ć1À", "Ć1Ɓ", "Ć1Ć", "Ć123À", "Ć123Ɓ4", "ÀƁ\x1f", "ƁÀa", "ÀĆA", "ĆÀa", "ĆƁ\n"]
labels_table("c", "every_switch", "every switch, to another set and to the current one, and what follows it", [P(s) for s in switches])

shifts = [start + c for start in "ÀƁĆ" for c in "ŽżźŻŹ"]
shifts += ["ÀŽa", "ÀŽ\x01", "ƁŽ\x01", "ƁŽa", "ƁŽA", "ÀŽŽ", "ÀżA", "Ɓż€", "ƁźŻżŹ", "ĆŹŹŹ", "Ć12Ž", "Ć1Ž2", "Ć1ż2", "Ć1ź2", "Ć1Ż2", "ĆƁŽ", "ĆÀż", "ÀĆŽ", "ƁĆż"]
labels_table("c", "every_function", "Shift and the function symbols in every set, without FNC2 in sets A and B: in encode Ž shifts nothing, and set C has Ź alone",
             [P(s) for s in shifts])

held = ["Ć12", "Ć1Ź2", "ĆŹ12", "Ć1ŹŹ2", "Ć1ŹŹŹ2", "ĆŹ1Ź2", "ĆŹŹ1Ź2", "Ć12Ź", "ĆŹ1Ź2Ź", "Ć1Ź234", "Ć1Ź23Ź4", "Ć12Ź34", "Ć12Ź3Ź4", "Ć1ŹŹ23ŹŹ4Ź", "Ć0Ź0", "Ć9Ź9", "Ć00", "Ć99",
        "Ć09", "Ć90", "ƁĆ1ŹŹ2", "ƁĆ1Ź2Ɓ", "Ć1Ź2ÀA", "Ć1Ź2Ɓa", "Ć1234567890", "Ć1", "Ć123", "Ć12345", "Ć1Ź", "Ć1ŹŹ", "Ć1Ź23", "Ć12Ź3", "Ć12Ź3Ź", "Ć1ŹÀ", "Ć1ŹƁ2", "Ć1ŹĆ2", "Ć1ŹA", "Ć1A",
        "Ć1 2", "ĆA1", "Ć-1", "Ć1/", "Ć1:", "Ć/", "Ć:", "Ć12a", "Ć1a2", "Ć1Ź2a", "ÀĆ1", "ÀĆ1Ź", "ƁĆ1Ź2Ź3"]
labels_table("c", "every_pair", "pairs, digits held across Ź, digits left over, and switches while a digit is held", [P(s) for s in held])

foreign = [P("Ć") + l for l in ([0x661, 0x662], [0x661, 49, 50], [49, 0x661], [0xFF11, 0xFF12], [49, 0xFF12], [0xFF11, 50], [0x967, 0x968], [0xB2, 0xB3], [49, 0xB2], [0x1D7CF, 50])]
foreign += [P("À") + [0x661], P("À") + [0xB2], P("Ɓ") + [0xFF11], P("Ɓ") + [0x2460], [0x661, 49]]
points_table("c", "foreign_digits", "digits that are not ASCII", foreign)

lone = [[]] + [[c] for c in (0x00, 0x30, 0x41, 0x7F, 0x80, 0xC0, 0x106, 0x181, 0xF7, 0x179, 0x7FF, 0x800, 0xFFFF, 0x10000, 0x10FFFF)]
lone += [P(x) for x in ("AA", "12", "AÀ", "ŹÀ", " À", "\ufeffÀ", "A\u0300")]
points_table("c", "first_points", "what a label may begin with, and Error::Length; 41 300 is A with a combining accent, not À", lone)

doc = ["ƁHE1234A*1", "ÀHE@$AĆ123456", "À\x06", "ÀHELLO", "ÀXYĆ2199", "ƁxyZÀ199!*1", "ƁŹ4218402050À0", "ÀB\x06", "ÀPJJ123C", "ƁAIM", "ƁAIMĆ1234", "ƁWikipedia",
       "ĆŹ0012345678901234567890", "ĆŹ0109501101530003Ɓ", "Ɓ-Rattle 0.1-"]
labels_table("c", "documented", "the labels of the crate's documentation, those of b, and others of everyday use", [P(s) for s in doc])


# random labels: accepted, or with one code point changed if `stay` is false
def random_label(length, stay=True):
    while True:
        label, now, digit = [rng.choice((0xC0, 0x181, 0x106))], None, None
        now = model.SET_OF[label[0]]
        while len(label) < length:
            if digit:
                c = 0x179 if rng.random() < 0.2 else rng.choice(P("0123456789"))
                digit = c == 0x179
            elif now == "C" and rng.random() < 0.8:
                c = rng.choice(P("0123456789"))
                digit = True
            else:
                pool = sorted(model.NUMBER[now])
                named = [x for x in pool if x > 0x7F]
                c = rng.choice(named) if rng.random() < 0.3 else rng.choice(pool)
                now = model.SET_OF.get(c, now)
            label.append(c)
        if not digit:
            break
    if not stay:
        at = rng.randrange(1, length)
        label[at] = rng.choice((0x7F, 0x20AC, 0x107, label[at - 1], 0xC0, 0x106, 0x181))
    return label


# where a random label has ź, the same label with Ż in place of each ź comes after it
labels = [random_label(k) for k in range(2, 41)]
both = [l for label in labels for l in (label, [0x17B if c == FNC2 else c for c in label])]
got = labels_table("c", "randomly", "one random label without ź of each length from 2 to 40", both)
assert all(a[0] == "accept" for _, a in got)
RANDOM = [(label, a) for label, a in got if label in labels]
labels, k = [], 0
while len(labels) < 30:
    label = random_label(3 + k % 20, stay=False)
    if model.encode_with_fnc2(ROOM, label)[0] == "refuse":
        labels.append(label)
        k += 1
labels_table("c", "randomly_wrong", "random labels with one code point changed, so that they are refused", labels)


# labels that have a given check
def with_check(start, wanted, fnc2=True):
    while True:
        label = random_label(rng.randrange(2, 7))
        symbols = model.parse(label)
        if label[0] == start and model.check_of(symbols) == wanted and (fnc2 or FNC2 not in label):
            return label


# where such a label has ź, one without ź comes after it
wanted = [(s, c) for c in (0, 1, 64, 95, 96, 99, 101, 102, 97) for s in (0xC0, 0x181, 0x106)]
labels = [with_check(s, c) for s, c in wanted]
labels = [l for (s, c), label in zip(wanted, labels)
          for l in ([label, with_check(s, c, fnc2=False)] if FNC2 in label else [label])]
labels_table("c", "checks_on", "for each of the checks 0, 1, 64, 95, 96, 99, 101, 102 and 97, one label without ź of each START", labels)

# the labels with ź that the crate accepts: those left out above, others, and one above the limit
more = ["ƁAźź", "ĆƁź", "ĆÀź", "Ć97Ɓź", "Ć97Àź", "ÀƁź", "ƁÀź", "ÀźƁź", "ƁźĆ12", "ÀĆ12Ɓź", "Ć1Ź2Ɓź", "ƁźĆ1Ź2", "ƁŽź", "ÀŹź", "Ɓ÷ź", "À\x00ź", "ƁźAź", "ÀAIMź", "ƁAIMĆ1234Ɓź", "ÀŻźĆ99"]
labels = [P(x) for x in more] + [[0x181] + [65] * 4000 + [FNC2]]
assert not_retired(labels, crate_answers(labels)) == []
shown = {tuple(labels[-1]): "Ɓ ∷ replicate 4000 65 ++ (0x17A ∷ [])"}
entries = []
for label, answer in {tuple(l): a for l, a in RETIRED}.items():
    place = "".join(map(chr, label)).index("ź")
    entries.append("%s first_at %d gives %s" % (shown.get(label) or "points " + text(label), place, row_answer(answer)))
table("c", "with_fnc2", "WithFNC2", """
The labels with ź that the crate accepts: those left out of the tables above, and others, one of
them with more than 4,000 symbols. Before request 12 of document 02 they were answered by the
crate's row, or by 4 above the limit; now they are refused 19 at their first ź, whose place was
looked up in the text.
""", entries)
COUNTS.append(("k", "with_fnc2", len(entries)))
states("with_fnc2_before", "map (answer_of encode_with_fnc2) with_fnc2 ≡ map of_crate with_fnc2")
states("with_fnc2_hold", "map (answer_of encode) with_fnc2 ≡ map retired with_fnc2")

# sweeps
FAR = [0x7FF, 0x800, 0xD7FF, 0xE000, 0xFFFF, 0x10000, 0x10FFFF]
SHOWN = {
    "À": ("count 0 96 ++ points \"ĆŹźŻżŽƁ\"", list(range(96)) + P("ĆŹźŻżŽƁ")),
    "Ɓ": ("count 32 95 ++ points \"À÷ĆŹźŻżŽ\"", list(range(32, 127)) + P("À÷ĆŹźŻżŽ")),
    "Ć": ("points \"0123456789ÀŹƁ\"", P("0123456789ÀŹƁ")),
    "Ć1": ("points \"0123456789Ź\"", P("0123456789Ź")),
    "ÀĆ1Ź": ("points \"0123456789Ź\"", P("0123456789Ź")),
    "": ("points \"ÀĆƁ\"", P("ÀĆƁ")),
}
sweeps = []
for first, rest, place in (("", "A", 0), ("À", "", 1), ("Ɓ", "", 1), ("Ć", "", 1), ("Ć1", "", 2), ("ÀĆ1Ź", "2", 4)):
    every = [c for c in range(0x110000) if not 0xD800 <= c <= 0xDFFF]
    got = crate_many([P(first) + [c] + P(rest) for c in every])
    near = [P(first) + [c] + P(rest) for c in range(SWEPT)] + [P(first) + [c] + P(rest) for c in FAR]
    kept = [label[len(first)] for label, a in zip(near, crate_answers(near)) if a != refuse(3, place)]
    assert kept == SHOWN[first][1] and all(c < SWEPT for c, g in zip(every, got) if g != "Character")
    sweeps.append("swept %s %s %d (%s)" % (text(P(first)), text(P(rest)), place, SHOWN[first][0]))
table("c", "sweeps", "Sweep", """
Every code point below 512 and 7FF, 800, D7FF, E000, FFFF, 10000 and 10FFFF, put between two texts:
those that are not refused 3 at that place, in their order. The crate was run on all other code
points up to 10FFFF too, and refuses each with Error::Character. The crate accepts ź in sets A and
B, and encode refuses it there by 19: see `fnc2_swept`.
""", sweeps, each=SWEPT + len(FAR))
states("sweeps_hold", "map passing sweeps ≡ map kept sweeps")

# ================================================================ d. read

title("d. read")
PA, PB, PC = PATTERNS[103], PATTERNS[104], PATTERNS[105]

labels = [a for a in RANDOM if a[1][1] in (2, 3, 4, 5, 6, 7, 9, 10, 12, 15, 18, 20)]
entries, used = [], set()
for label, answer in labels:
    n, row = answer[1], answer[2]
    if n in used:
        continue
    used.add(n)
    s = "".join(map(str, row))
    symbols = [PATTERNS.index(s[11 * i:11 * i + 11]) for i in range(n)]
    entries.append(held_to("read", "row_of %d %s" % (n, hexed(row)), row, n, accept(symbols), lambda a: plain_answer(a, listed)))
examples_table("d", "read_back", "read", """
rows that the crate wrote, read into a buffer just long enough; the symbols are the places of the
row's blocks in the crate's `CHARS`
""", entries)


def rows(*parts, stop=STOP):
    """A row in blocks: a number becomes its pattern in CHARS, a text stays as it is."""
    return " ".join([PATTERNS[p] if isinstance(p, int) else p for p in parts] + ([stop] if stop else []))


def flip(block, i):
    return block[:i] + "10"[int(block[i])] + block[i + 1:]


def put(block, i, c):
    return block[:i] + c + block[i + 1:]


def reading(name, comment, cases, group="d"):
    entries = []
    for row, room, answer in cases:
        if isinstance(row, tuple):
            shown, value = row
        else:
            shown, value = 'cells_of "%s"' % row, [int(d) for d in row.replace(" ", "")]
        entries.append(held_to("read", shown, value, room, answer, lambda a: plain_answer(a, listed)))
    examples_table(group, name, "read", comment, entries)


NONE = "11000111010"   # the first eleven cells of the stop
assert NONE not in PATTERNS
ZERO, ONES = "0" * 11, "1" * 11
reading("read_lengths", """
Refusals 10 and 11, by hand: a row has 11(n+1)+13 cells with 1 ≤ n ≤ 4,000, and 11 gives the place
of the first cell neither 0 nor 1.
""", [
    (("[]", []), MOST, refuse(10, 0)),
    (("replicate 24 1", [1] * 24), MOST, refuse(10, 24)),
    (("replicate 34 0", [0] * 34), MOST, refuse(10, 34)),
    (("replicate 36 0", [0] * 36), MOST, refuse(10, 36)),
    (("replicate 47 1", [1] * 47), MOST, refuse(10, 47)),
    (("replicate 2829 0", [0] * 2829), MOST, refuse(12, 0)),
    (("replicate 2829 1", [1] * 2829), MOST, refuse(16, 0)),
    (("replicate 2830 1", [1] * 2830), MOST, refuse(10, 2830)),
    (("replicate 2840 1", [1] * 2840), MOST, refuse(16, 0)),
    (("replicate 44025 1", [1] * 44025), MOST, refuse(10, 44025)),
    (("replicate 44035 1", [1] * 44035), MOST, refuse(10, 44035)),
    (("replicate 34 2", [2] * 34), 0, refuse(10, 34)),
    (("replicate 35 2", [2] * 35), 0, refuse(11, 0)),
    (("replicate 35 255", [255] * 35), MOST, refuse(11, 0)),
    (("replicate 34 0 ++ (2 ∷ [])", [0] * 34 + [2]), MOST, refuse(11, 34)),
    (("replicate 2828 0 ++ (3 ∷ [])", [0] * 2828 + [3]), MOST, refuse(11, 2828)),
    (rows(103, 0)[:-1], MOST, refuse(10, 34)),
    (rows(103, 0) + "1", MOST, refuse(10, 36)),
    (rows(103, stop="") + " " + STOP, MOST, refuse(10, 24)),
    (rows(103, put(PATTERNS[0], 3, "2")), MOST, refuse(11, 14)),
    (rows(ZERO, put(PATTERNS[0], 10, "2")), MOST, refuse(11, 21)),
    (rows(ONES, put(PATTERNS[0], 10, "2")), MOST, refuse(11, 21)),
    (rows(33, 103, stop=put(STOP, 12, "2")), MOST, refuse(11, 34)),
    (rows(103, 0, stop=put(STOP, 0, "2")), 0, refuse(11, 22)),
    (rows(put(PA, 0, "2"), put(PATTERNS[0], 5, "3")), MOST, refuse(11, 0)),
    (rows(103, 99, put(PATTERNS[99], 1, "2"), stop=put(STOP, 3, "2")), MOST, refuse(11, 23)),
])
reading("read_blocks", """
Refusals 12, 16 and 13, by hand: the first block from the left that is no pattern, 16 where its
number of bar cells is odd and else 12; or that is not a START at block 0, or that is above 102
after it. They come before 15, 14 and 5.
""", [
    (rows(flip(PA, 10), 0), MOST, refuse(16, 0)),
    (rows(ZERO, 0), MOST, refuse(12, 0)),
    (rows(ONES, 0), MOST, refuse(16, 0)),
    (rows(NONE, 0), MOST, refuse(12, 0)),
    (rows(PA[::-1], 0), MOST, refuse(12, 0)),
    (rows(103, flip(PATTERNS[0], 4)), MOST, refuse(16, 1)),
    (rows(103, NONE), MOST, refuse(12, 1)),
    (rows(105, flip(PATTERNS[12], 1), 14), MOST, refuse(16, 1)),
    (rows(105, 12, ZERO), MOST, refuse(12, 2)),
    (rows(105, 12, flip(PATTERNS[14], 9)), MOST, refuse(16, 2)),
    (rows(104, 33, 41, ONES, 45), MOST, refuse(16, 3)),
    (rows(104, 33, 41, 45, ONES), 0, refuse(16, 4)),
    (rows(0, 0), MOST, refuse(13, 0)),
    (rows(102, 0), MOST, refuse(13, 0)),
    (rows(33, 41, 45), MOST, refuse(13, 0)),
    (rows(103, 103), MOST, refuse(13, 1)),
    (rows(103, 104), MOST, refuse(13, 1)),
    (rows(105, 103, 14), MOST, refuse(13, 1)),
    (rows(105, 12, 103), MOST, refuse(13, 2)),
    (rows(105, 12, 105), MOST, refuse(13, 2)),
    (rows(104, 33, 104, 45, 45), MOST, refuse(13, 2)),
    (rows(104, 33, 41, 45, 104), 0, refuse(13, 4)),
    # both refusals apply: the one further left is answered
    (rows(ZERO, 103), MOST, refuse(12, 0)),
    (rows(33, ZERO), MOST, refuse(13, 0)),
    (rows(105, ZERO, 103), MOST, refuse(12, 1)),
    (rows(105, 103, ZERO), MOST, refuse(13, 1)),
    (rows(104, 33, ZERO, 103, 45), MOST, refuse(12, 2)),
    (rows(104, 33, 103, ZERO, 45), MOST, refuse(13, 2)),
    # before 15
    (rows(103, 103, stop=ZERO + "00"), MOST, refuse(13, 1)),
    (rows(103, ZERO, stop=ZERO + "00"), MOST, refuse(12, 1)),
    (rows(33, 0, stop=flip(STOP, 0)), MOST, refuse(13, 0)),
])
# for each number of bar cells from 0 to 11, a block with all its bar cells in front, which is no pattern
cases = [(rows(103, "1" * k + "0" * (11 - k)), MOST, refuse(number, 1))
         for k, number in enumerate((12, 16, 12, 16, 12, 16, 12, 16, 12, 16, 12, 16))]
cases += [
    # two cells flipped in a pattern: no pattern, or another pattern
    (rows(flip(flip(PA, 9), 10), 0), MOST, refuse(12, 0)),
    (rows(105, flip(flip(PATTERNS[12], 0), 1), 14), MOST, refuse(12, 1)),
    (rows(105, 12, flip(flip(PATTERNS[14], 9), 10)), MOST, refuse(12, 2)),
    (rows(flip(flip(PA, 6), 8), 0), MOST, refuse(14, 1)),
    (rows(105, flip(flip(PATTERNS[12], 1), 2), 14), MOST, refuse(13, 1)),
    # three in a pattern, and one in each of two patterns
    (rows(flip(flip(flip(PA, 0), 1), 2), 0), MOST, refuse(16, 0)),
    (rows(105, flip(PATTERNS[12], 10), flip(PATTERNS[14], 0)), MOST, refuse(16, 1)),
    # both 12 and 16 apply: the one further left is answered
    (rows(ONES, ZERO), MOST, refuse(16, 0)),
    (rows(ZERO, ONES), MOST, refuse(12, 0)),
    (rows(105, ONES, NONE), MOST, refuse(16, 1)),
    (rows(105, NONE, ONES), MOST, refuse(12, 1)),
    (rows(104, 33, flip(PATTERNS[41], 4), ZERO, 45), MOST, refuse(16, 2)),
    (rows(104, 33, ZERO, flip(PATTERNS[45], 4), 45), MOST, refuse(12, 2)),
    # both 13 and 16
    (rows(ONES, 103), MOST, refuse(16, 0)),
    (rows(33, ONES), MOST, refuse(13, 0)),
    (rows(105, flip(PATTERNS[12], 5), 103), MOST, refuse(16, 1)),
    (rows(105, 103, flip(PATTERNS[14], 5)), MOST, refuse(13, 1)),
    # in the check's place, before 15, 14 and 5
    (rows(103, flip(PATTERNS[0], 10)), 0, refuse(16, 1)),
    (rows(103, flip(PATTERNS[1], 10)), MOST, refuse(16, 1)),
    (rows(105, 13, flip(PATTERNS[14], 0)), 1, refuse(16, 2)),
    (rows(103, flip(PATTERNS[0], 0), stop=ZERO + "00"), MOST, refuse(16, 1)),
    (rows(flip(PA, 0), 1, stop=flip(STOP, 0)), 0, refuse(16, 0)),
]
assert all(p.count("1") % 2 == 0 for p in PATTERNS)
reading("read_worn", """
Refusal 16 and its neighbours, by hand from request 3 of document 02: a block that is no pattern is
answered 16 where its number of bar cells is odd. Every pattern has an even number, so one cell
flipped in a pattern makes 16, and two make 12 or another pattern.
""", cases)
cases = [(rows(103, 0, stop=flip(STOP, i)), MOST, refuse(15, 22 + i)) for i in range(13)]
cases += [(rows(105, 12, 14, stop=flip(STOP, i)), MOST, refuse(15, 33 + i)) for i in (0, 6, 12)]
cases += [(rows(103, 0, stop=ZERO + "00"), MOST, refuse(15, 22)), (rows(103, 0, stop=ONES + "11"), MOST, refuse(15, 24)),
          (rows(103, 0, stop=PATTERNS[103] + "11"), MOST, refuse(15, 25)), (rows(103, 0, stop=STOP[::-1]), MOST, refuse(15, 25)),
          (rows(103, 0, stop=flip(flip(STOP, 12), 5)), MOST, refuse(15, 27)),
          # the stop before its place: its place follows from the row's length, not from a search
          (rows(103, 0, stop="1100011101011 00000000000"), MOST, refuse(12, 2)),
          (rows(103, 0, stop="11000111010 1100011101011"), MOST, refuse(12, 2)),
          # before 14 and 5
          (rows(103, 1, stop=flip(STOP, 12)), MOST, refuse(15, 34)), (rows(105, 12, 15, stop=flip(STOP, 1)), 0, refuse(15, 34)),
          (rows(104, 0, stop=flip(STOP, 11)), MOST, refuse(15, 33))]
reading("read_stops", "Refusal 15, by hand: it gives the place in the row of the first wrong cell of the last 13.", cases)
cases = [
    (rows(103, 1), MOST, refuse(14, 0)), (rows(103, 102), MOST, refuse(14, 0)), (rows(104, 0), MOST, refuse(14, 1)), (rows(105, 0), MOST, refuse(14, 2)),
    (rows(105, 12, 13), MOST, refuse(14, 14)), (rows(105, 12, 15), 0, refuse(14, 14)), (rows(105, 13, 14), MOST, refuse(14, 15)), (rows(104, 12, 14), MOST, refuse(14, 13)),
    (rows(103, 12, 14), MOST, refuse(14, 12)), (rows(105, 99, 99), MOST, refuse(14, 101)), (rows(104, 33, 41, 45, 44), MOST, refuse(14, 45)),
    (rows(104, 41, 33, 45, 45), MOST, refuse(14, 37)), (rows(104, 33, 41, 45, 99, 12, 34, 86), 6, refuse(14, 87)), (rows(105, 102, 12, 24), MOST, refuse(14, 25)),
    # room
    (rows(103, 0), 0, refuse(5, 1)), (rows(103, 0), 1, accept([103])), (rows(104, 1), 1, accept([104])), (rows(105, 2), 1, accept([105])), (rows(103, 0), MOST, accept([103])),
    (rows(105, 12, 14), 1, refuse(5, 2)), (rows(105, 12, 14), 2, accept([105, 12])), (rows(105, 102, 12, 25), 2, refuse(5, 3)), (rows(105, 102, 12, 25), 3, accept([105, 102, 12])),
    (rows(104, 33, 41, 45, 45), 3, refuse(5, 4)), (rows(104, 33, 41, 45, 45), 4, accept([104, 33, 41, 45])),
    (rows(104, 33, 41, 45, 99, 12, 34, 87), 7, accept([104, 33, 41, 45, 99, 12, 34])), (rows(104, 98, 99), 2, accept([104, 98])), (rows(104, 95, 96), 2, accept([104, 95])),
    (rows(103, 99, 12, 20), 3, accept([103, 99, 12])), (rows(103, 48, 42, 42, 17, 18, 19, 35, 54), 8, accept([103, 48, 42, 42, 17, 18, 19, 35])),
]
reading("read_checks", "Refusal 14 with the right check number, refusal 5 with n, and rows that are accepted, by hand.", cases)

B103 = [104] + [1] * 103
good = lambda s: [int(d) for m in s + [model.check_of(s)] for d in PATTERNS[m]] + [int(d) for d in STOP]
assert model.read(255, good(A254)) == accept(A254) and model.read(256, good(A255)) == accept(A255)
TABLES.append("""-- Two of the rows of `long_rows`, read.
unfoldable pub read_long : List Example
read_long =
    (cells_of "%s" ++ (times 254 (cells_of "%s") ++ cells_of "%s %s") into 255 gives accept 255 (104 ∷ replicate 254 33)) ∷
    (cells_of "%s" ++ (times 255 (cells_of "%s") ++ cells_of "%s %s") into 256 gives accept 256 (104 ∷ replicate 255 33)) ∷ []
""" % (PB, PATTERNS[33], PATTERNS[LONG_C[0]], STOP, PB, PATTERNS[33], PATTERNS[LONG_C[2]], STOP))
COUNTS.append(("d", "read_long", 2))
states("read_long_hold", "map (asked read) read_long ≡ map given read_long")

# ================================================================ e. spell, scan, draw

title("e. spell, scan and draw")
LISTS = [
    # by hand: a list, what spell writes and what scan sends
    ([103], "À", ""), ([104], "Ɓ", ""), ([105], "Ć", ""),
    ([103, 0], "À ", " "), ([103, 33], "ÀA", "A"), ([103, 63], "À_", "_"), ([103, 64], "À\x00", "\x00"), ([103, 95], "À\x1f", "\x1f"),
    ([103, 96], "ÀŻ", ""), ([103, 97], "Àź", ""), ([103, 98], "ÀŽ", ""), ([103, 99], "ÀĆ", ""), ([103, 100], "ÀƁ", ""), ([103, 101], "Àż", ""), ([103, 102], "ÀŹ", ""),
    ([104, 0], "Ɓ ", " "), ([104, 33], "ƁA", "A"), ([104, 63], "Ɓ_", "_"), ([104, 64], "Ɓ`", "`"), ([104, 94], "Ɓ~", "~"), ([104, 95], "Ɓ÷", "\x7f"),
    ([104, 96], "ƁŻ", ""), ([104, 97], "Ɓź", ""), ([104, 98], "ƁŽ", ""), ([104, 99], "ƁĆ", ""), ([104, 100], "Ɓż", ""), ([104, 101], "ƁÀ", ""), ([104, 102], "ƁŹ", ""),
    ([105, 0], "Ć00", "00"), ([105, 5], "Ć05", "05"), ([105, 10], "Ć10", "10"), ([105, 33], "Ć33", "33"), ([105, 95], "Ć95", "95"), ([105, 96], "Ć96", "96"),
    ([105, 98], "Ć98", "98"), ([105, 99], "Ć99", "99"), ([105, 100], "ĆƁ", ""), ([105, 101], "ĆÀ", ""), ([105, 102], "ĆŹ", ""),
    # the set that a switch leads to, and 99 as a pair
    ([105, 99, 99, 99], "Ć999999", "999999"), ([103, 99, 99], "ÀĆ99", "99"), ([104, 99, 99, 100, 99, 12], "ƁĆ99ƁĆ12", "9912"),
    ([103, 100, 65], "ÀƁa", "a"), ([103, 100, 100, 65], "ÀƁża", "a"), ([103, 100, 101, 65], "ÀƁÀ\x01", "\x01"), ([103, 101, 65], "Àż\x01", "\x01"),
    ([104, 101, 65], "ƁÀ\x01", "\x01"), ([104, 101, 101, 65], "ƁÀż\x01", "\x01"), ([104, 101, 100, 65], "ƁÀƁa", "a"), ([104, 100, 65], "Ɓża", "a"),
    ([105, 100, 65], "ĆƁa", "a"), ([105, 101, 65], "ĆÀ\x01", "\x01"), ([105, 100, 100, 12], "ĆƁż,", ","), ([105, 101, 101, 12], "ĆÀż,", ","),
    ([105, 100, 101, 99, 65], "ĆƁÀĆ65", "65"), ([105, 101, 100, 99, 65], "ĆÀƁĆ65", "65"), ([103, 99, 100, 101, 95], "ÀĆƁÀ\x1f", "\x1f"), ([103, 99, 100, 95], "ÀĆƁ÷", "\x7f"),
    # Shift: scan reads the next symbol in the other set, spell and draw do not
    ([103, 98, 65], "ÀŽ\x01", "a"), ([104, 98, 65], "ƁŽa", "\x01"), ([103, 98, 98, 65], "ÀŽŽ\x01", "a"), ([103, 98, 65, 65], "ÀŽ\x01\x01", "a\x01"),
    ([103, 98, 99, 12], "ÀŽĆ12", "12"), ([103, 98, 99, 98], "ÀŽĆ98", "98"), ([104, 98, 100, 65], "ƁŽża", "a"),
    # function symbols send nothing
    ([103, 102, 33, 102], "ÀŹAŹ", "A"), ([104, 96, 65, 97], "ƁŻaź", "a"),
    ([105, 102, 12], "ĆŹ12", "12"), ([105, 12, 102], "Ć12Ź", "12"), ([105, 102, 102, 12, 102, 34], "ĆŹŹ12Ź34", "1234"), ([105, 12, 102, 34], "Ć12Ź34", "1234"),
    ([104, 102, 95, 99, 102, 95, 101, 95], "ƁŹ÷ĆŹ95À\x1f", "\x7f95\x1f"),
    ([104, 33, 41, 45, 99, 12, 34], "ƁAIMĆ1234", "AIM1234"), ([103, 48, 42, 42, 17, 18, 19, 35], "ÀPJJ123C", "PJJ123C"),
    ([105, 102, 0, 12, 34, 56, 78, 90, 12, 34, 56, 78, 100, 16], "ĆŹ00123456789012345678Ɓ0", "001234567890123456780"),
]


def lists_table(group, name, comment, lists):
    entries = []
    crate_rows = crate_many([P(x) for _, x, _ in lists])
    for (s, x, b), got in zip(lists, crate_rows):
        row = [int(d) for d in got]
        assert model.spell(len(x), s) == accept(P(x)) and model.scan(len(b), s) == accept(P(b)) and model.draw(len(row), s) == accept(row, len(s)), (s, x, b)
        entries.append("(%s) spells %s scans %s draws %s" % (listed(s), text(P(x)), text(P(b)), hexed(row)))
    table(group, name, "Listed", comment, entries, each=3)
    states("%s_hold" % name, "map three_jobs %s ≡ map three_answers %s" % (name, name))


lists_table("e", "lists", """
Symbol lists, the label that spell writes and the bytes that scan sends, by hand from document 01
and request 1 of document 02; the row is what the crate writes for that label. Each job gets a
buffer just long enough.
""", LISTS)

bad = [
    ("[]", [], 0, refuse(10, 0)), ("[]", [], ROOM, refuse(10, 0)),
    ("103 ∷ replicate 4000 33", [103] + [33] * 4000, ROOM, refuse(10, 4001)), ("replicate 4001 106", [106] * 4001, 0, refuse(10, 4001)), ("replicate 5000 0", [0] * 5000, ROOM, refuse(10, 5000)),
    ("0 ∷ []", [0], ROOM, refuse(13, 0)), ("33 ∷ []", [33], ROOM, refuse(13, 0)), ("99 ∷ []", [99], 0, refuse(13, 0)), ("102 ∷ []", [102], ROOM, refuse(13, 0)),
    ("106 ∷ []", [106], ROOM, refuse(13, 0)), ("255 ∷ []", [255], 0, refuse(13, 0)), ("102 ∷ 103 ∷ []", [102, 103], ROOM, refuse(13, 0)), ("106 ∷ 106 ∷ []", [106, 106], ROOM, refuse(13, 0)),
    ("103 ∷ 103 ∷ []", [103, 103], ROOM, refuse(13, 1)), ("103 ∷ 104 ∷ 105 ∷ []", [103, 104, 105], ROOM, refuse(13, 1)), ("105 ∷ 106 ∷ []", [105, 106], 0, refuse(13, 1)),
    ("104 ∷ 255 ∷ []", [104, 255], ROOM, refuse(13, 1)), ("104 ∷ 102 ∷ 103 ∷ []", [104, 102, 103], ROOM, refuse(13, 2)), ("104 ∷ 33 ∷ 41 ∷ 105 ∷ 255 ∷ []", [104, 33, 41, 105, 255], 0, refuse(13, 3)),
    ("105 ∷ 99 ∷ 98 ∷ 97 ∷ 106 ∷ []", [105, 99, 98, 97, 106], ROOM, refuse(13, 4)),
    ("104 ∷ replicate 253 33 ++ (103 ∷ [])", [104] + [33] * 253 + [103], ROOM, refuse(13, 254)), ("0 ∷ replicate 254 33", [0] + [33] * 254, 0, refuse(13, 0)),
    ("replicate 255 103", [103] * 255, ROOM, refuse(13, 1)), ("replicate 256 106", [106] * 256, 0, refuse(13, 0)), ("replicate 300 0", [0] * 300, ROOM, refuse(13, 0)),
    ("104 ∷ replicate 254 33 ++ (103 ∷ [])", [104] + [33] * 254 + [103], ROOM, refuse(13, 255)), ("replicate 4000 103", [103] * 4000, ROOM, refuse(13, 1)),
]
entries = []
for shown, value, room, answer in bad:
    for job in ("draw", "spell", "scan"):
        e = held_to(job, shown, value, room, answer, lambda a: plain_answer(a, listed))
    entries.append(e)
examples_table("e", "bad_lists", "draw spell scan", "\"Draw, spell, scan: 10, 13, 5.\", by hand; the three jobs give the same answers.", entries)
COUNTS[-1] = ("e", "bad_lists", 3 * len(bad))

entries = []
for s, room, answer in [
    ([103], 0, refuse(5, 35)), ([103], 34, refuse(5, 35)), ([105, 12], 45, refuse(5, 46)), ([104, 33, 41, 45], 67, refuse(5, 68)),
]:
    entries.append(held_to("draw", listed(s), s, room, answer, lambda a: plain_answer(a, listed)))
v = [104] + [33] * 254
entries.append(held_to("draw", "104 ∷ replicate 254 33", v, 2828, refuse(5, 2829), lambda a: plain_answer(a, listed)))
entries.append(held_to("draw", "104 ∷ replicate 255 33", v + [33], 2839, refuse(5, 2840), lambda a: plain_answer(a, listed)))
examples_table("e", "draw_short", "draw", "Refusal 5 of draw, by hand: a row has 11(n+1)+13 cells.", entries)
entries = []
for s, room, answer in [
    ([103], 0, refuse(5, 1)), ([105], 0, refuse(5, 1)), ([105, 12], 2, refuse(5, 3)), ([105, 102], 1, refuse(5, 2)), ([104, 33, 41, 45], 3, refuse(5, 4)), ([103, 99, 12], 3, refuse(5, 4)),
]:
    entries.append(held_to("spell", listed(s), s, room, answer, lambda a: plain_answer(a, listed)))
v = [105] + [0] * 254
entries.append(held_to("spell", "105 ∷ replicate 254 0", v, 508, refuse(5, 509), lambda a: plain_answer(a, listed)))
assert model.spell(509, v) == accept([0x106] + [48] * 508)
entries.append("105 ∷ replicate 254 0 into 509 gives accept 509 (Ć ∷ replicate 508 48)")
entries.append(held_to("spell", "105 ∷ replicate 255 0", v + [0], 510, refuse(5, 511), lambda a: plain_answer(a, listed)))
assert model.spell(7999, [105] + [0] * 3999) == accept([0x106] + [48] * 7998)
entries.append("105 ∷ replicate 3999 0 into 7999 gives accept 7999 (Ć ∷ replicate 7998 48)")
examples_table("e", "spell_short", "spell", """
Refusal 5 of spell, by hand; "At most 1 + 2·254 = 509 code points" in document 01, and "spelling
7,999 code points" by request 4.
""", entries)
entries = []
for s, room, answer in [
    ([103], 0, accept([])), ([103, 98, 102], 0, accept([])), ([105, 12], 1, refuse(5, 2)), ([105, 12], 0, refuse(5, 2)), ([104, 33, 41, 45], 2, refuse(5, 3)), ([104, 33, 102], 0, refuse(5, 1)),
    ([104, 33, 102], 1, accept([65])),
]:
    entries.append(held_to("scan", listed(s), s, room, answer, lambda a: plain_answer(a, listed)))
entries.append(held_to("scan", "105 ∷ replicate 254 0", v, 507, refuse(5, 508), lambda a: plain_answer(a, listed)))
assert model.scan(508, v) == accept([48] * 508)
entries.append("105 ∷ replicate 254 0 into 508 gives accept 508 (replicate 508 48)")
entries.append(held_to("scan", "105 ∷ replicate 255 0", v + [0], 509, refuse(5, 510), lambda a: plain_answer(a, listed)))
assert model.scan(7998, [105] + [0] * 3999) == accept([48] * 7998)
entries.append("105 ∷ replicate 3999 0 into 7998 gives accept 7998 (replicate 7998 48)")
examples_table("e", "scan_short", "scan", """
Refusal 5 of scan, by hand, empty buffers where nothing is sent, and all that 4,000 symbols can send.
""", entries)

# Shift in scan: what a number below 96 sends in set A and in set B, as the standard's table has it
SENDS = {"A": [*range(0x20, 0x60), *range(0x00, 0x20)], "B": [*range(0x20, 0x80)]}
entries = []
for start, own, other in ((103, "A", "B"), (104, "B", "A")):
    for first in range(0, 96, 16):
        numbers = range(first, first + 16)
        s = [start] + [x for m in numbers for x in (98, m, m)]
        b = [c for m in numbers for c in (SENDS[other][m], SENDS[own][m])]
        shown = "%d ∷ shift_then_plain (count %d 16)" % (start, first)
        entries.append(held_to("scan", shown, s, 32, accept(b), lambda a: plain_answer(a, hexed_bytes)))
examples_table("e", "shift_each", "scan", """
Every number below 96, right after a Shift and then once more without one, in set A and in set B: by
hand from request 1 of document 02, the bytes from the columns of the standard's table.
""", entries)


def sends(s, b):
    """A list and its bytes in hexadecimal, into a buffer just long enough."""
    b = [int(x, 16) for x in b.split()]
    return s, len(b), accept(b)


def scanning(name, comment, cases):
    entries = [held_to("scan", listed(s), s, room, answer, lambda a: plain_answer(a, hexed_bytes)) for s, room, answer in cases]
    examples_table("e", name, "scan", comment, entries)


scanning("shift_before", """
Shift before each number from 96 to 102, two text numbers after it, in set A and in set B: by hand
from "Shift has no effect and that symbol keeps its meaning in the current set". A switch switches,
and a second Shift shifts.
""", [
    sends([103, 98, 96, 65, 65], "01 01"), sends([103, 98, 97, 65, 65], "01 01"), sends([103, 98, 98, 65, 65], "61 01"), sends([103, 98, 99, 65, 65], "36 35 36 35"),
    sends([103, 98, 100, 65, 65], "61 61"), sends([103, 98, 101, 65, 65], "01 01"), sends([103, 98, 102, 65, 65], "01 01"),
    sends([104, 98, 96, 65, 65], "61 61"), sends([104, 98, 97, 65, 65], "61 61"), sends([104, 98, 98, 65, 65], "01 61"), sends([104, 98, 99, 65, 65], "36 35 36 35"),
    sends([104, 98, 100, 65, 65], "61 61"), sends([104, 98, 101, 65, 65], "01 01"), sends([104, 98, 102, 65, 65], "61 61"),
])
scanning("shifting", """
More lists with Shift, by hand from request 1 of document 02: at the end, several in a row, beside
the switches, 98 as a pair in set C, and short buffers. The number of bytes and the refusals do not
depend on Shift.
""", [
    # at the end
    sends([103, 98], ""), sends([104, 98], ""), sends([103, 65, 98], "01"), sends([104, 65, 98], "61"), sends([103, 98, 98], ""), sends([104, 98, 65, 98], "01"), sends([103, 100, 65, 98], "61"),
    # one symbol alone, and several in a row
    sends([103, 65, 98, 65, 98, 65, 65], "01 61 61 01"), sends([104, 65, 98, 65, 98, 65, 65], "61 01 01 61"),
    sends([103, 98, 98, 98, 65, 65], "61 01"), sends([104, 98, 98, 98, 65, 65], "01 61"), sends([103, 98, 98, 98, 98, 65, 65], "61 01"), sends([104, 98, 98, 98, 98, 65, 65], "01 61"),
    sends([103, 98, 98, 102, 65], "01"), sends([104, 98, 98, 96, 65], "61"), sends([103, 98, 98, 100, 65], "61"), sends([104, 98, 98, 101, 65], "01"),
    # a switch between A and B, with a Shift before it or after it
    sends([103, 100, 98, 65, 65], "01 61"), sends([104, 101, 98, 65, 65], "61 01"), sends([103, 98, 100, 98, 65, 65], "01 61"), sends([104, 98, 101, 98, 65, 65], "61 01"),
    sends([103, 98, 65, 100, 65], "61 61"), sends([104, 98, 65, 101, 65], "01 01"), sends([103, 98, 101, 98, 65], "61"), sends([104, 98, 100, 98, 65], "01"),
    # a switch to C and back; 98 in C is a pair and shifts nothing
    sends([105, 98], "39 38"), sends([105, 98, 98, 65], "39 38 39 38 36 35"), sends([105, 98, 100, 65], "39 38 61"), sends([105, 98, 101, 65], "39 38 01"),
    sends([103, 98, 99, 98], "39 38"), sends([103, 98, 99, 98, 101, 65], "39 38 01"), sends([104, 98, 99, 98, 100, 65], "39 38 61"), sends([104, 98, 99, 100, 65], "61"), sends([103, 98, 99, 101, 65], "01"),
    sends([105, 100, 98, 65, 99, 98], "01 39 38"), sends([105, 101, 98, 65, 99, 98], "61 39 38"), sends([103, 98, 99, 98, 100, 98, 65, 65], "39 38 01 61"), sends([104, 98, 99, 65, 101, 98, 65, 65], "36 35 61 01"),
    # refusal 5, and longer buffers
    ([103, 98, 65], 0, refuse(5, 1)), ([104, 98, 65], 0, refuse(5, 1)), ([104, 98, 65], 3, accept([1])), ([103, 98, 65, 65], 1, refuse(5, 2)), ([103, 98, 98, 65], 0, refuse(5, 1)),
    ([103, 98, 99, 12], 1, refuse(5, 2)), ([104, 98, 100, 65], 0, refuse(5, 1)), ([105, 98], 1, refuse(5, 2)), ([103, 98, 99, 98, 100, 98, 65, 65], 3, refuse(5, 4)), ([103, 98], 5, accept([])),
    # 13
    ([98], 0, refuse(13, 0)), ([98, 65], 9, refuse(13, 0)), ([103, 98, 103], 0, refuse(13, 2)), ([104, 98, 65, 106], 9, refuse(13, 3)),
])

# ================================================================ f. the row record

title("f. the row record")


def by_hand(job, cases, form):
    return [held_to(job, shown, value, room, answer, lambda a: plain_answer(a, form)) for shown, value, room, answer in cases]


def shown_cells(t):
    return 'cells_of "%s"' % t, [int(d) for d in t.replace(" ", "")]


def shown_bytes(t):
    return 'bytes_of "%s"' % t, [int(b, 16) for b in t.split()]


RA, RC = "01 01 D0 9B 33 1D 60", "01 02 D3 96 72 67 63 AC"
BA, BC = shown_bytes(RA)[1], shown_bytes(RC)[1]
CA, CC = "11010000 10011011 00110011 00011101 011", "11010011 10010110 01110010 01100111 01100011 101011"
VA, VC = shown_cells(CA)[1], shown_cells(CC)[1]
entries = by_hand("pack", [
    (*shown_cells(CA), 7, accept(BA)), (*shown_cells(CA), 6, refuse(5, 7)), (*shown_cells(CA), 0, refuse(5, 7)), (*shown_cells(CA), ROOM, accept(BA)),
    (*shown_cells(CC), 8, accept(BC)), (*shown_cells(CC), 7, refuse(5, 8)),
    # rows that cannot be read are packed too
    ("replicate 35 0", [0] * 35, 7, accept(shown_bytes("01 01 00 00 00 00 00")[1])), ("replicate 35 1", [1] * 35, 7, accept(shown_bytes("01 01 FF FF FF FF E0")[1])),
    ("replicate 34 0 ++ (1 ∷ [])", [0] * 34 + [1], 7, accept(shown_bytes("01 01 00 00 00 00 20")[1])), ("1 ∷ replicate 34 0", [1] + [0] * 34, 7, accept(shown_bytes("01 01 80 00 00 00 00")[1])),
    (*shown_cells("00000001 00000010 00000100 00001000 000"), 7, accept(shown_bytes("01 01 01 02 04 08 00")[1])),
    (*shown_cells("10101010 01010101 11110000 00001111 101"), 7, accept(shown_bytes("01 01 AA 55 F0 0F A0")[1])),
    # n = 8: 112 cells, no spare bit
    ("replicate 112 1", [1] * 112, 16, accept(shown_bytes("01 08" + " FF" * 14)[1])),
    # 10, 11, 5
    ("[]", [], ROOM, refuse(10, 0)), ("replicate 24 1", [1] * 24, ROOM, refuse(10, 24)), ("replicate 34 2", [2] * 34, 0, refuse(10, 34)), ("replicate 36 0", [0] * 36, ROOM, refuse(10, 36)),
    ("replicate 40 0", [0] * 40, ROOM, refuse(10, 40)), ("replicate 2830 0", [0] * 2830, ROOM, refuse(10, 2830)), ("replicate 2839 0", [0] * 2839, ROOM, refuse(10, 2839)),
    ("replicate 35 2", [2] * 35, 0, refuse(11, 0)), ("replicate 34 0 ++ (2 ∷ [])", [0] * 34 + [2], 0, refuse(11, 34)), ("replicate 46 1", [1] * 46, 0, refuse(5, 8)),
    (*shown_cells("11010000 10011211 00110011 00011101 091"), ROOM, refuse(11, 13)), ("255 ∷ replicate 34 7", [255] + [7] * 34, 7, refuse(11, 0)),
    ("replicate 2829 0", [0] * 2829, 355, refuse(5, 356)),
], lambda o: hexed_bytes(o))
assert model.pack(356, [1] * 2829) == accept([1, 255] + [255] * 353 + [0xF8])
entries.append("replicate 2829 1 into 356 gives accept 356 (1 ∷ 255 ∷ replicate 353 255 ++ (0xF8 ∷ []))")
examples_table("f", "packings", "pack", """
By hand from "Row record" and "Pack: 10, 11, 5", records of version 1. The first rows are those of
"The label program", written with eight cells together.
""", entries)


def set_bits(record, value):
    return record[:-1] + [record[-1] | value]


def sb(record):
    return shown_bytes(" ".join("%02X" % b for b in record))


cases = [
    (*sb(BA), 35, accept(VA)), (*sb(BA), 34, refuse(5, 35)), (*sb(BC), 46, accept(VC)), (*sb(BC), 45, refuse(5, 46)),
]
# each spare bit alone, and all of them
cases += [(*sb(set_bits(BA, b)), ROOM, refuse(23, 6)) for b in (1, 2, 4, 8, 16, 31)] + [(*sb(set_bits(BC, b)), ROOM, refuse(23, 7)) for b in (1, 2, 3)]
cases += [(*sb(set_bits(BA, 1)), 0, refuse(23, 6))]
# the lowest bit that is not spare
cases += [(*shown_bytes("01 01 00 00 00 00 20"), 35, accept([0] * 34 + [1])), (*shown_bytes("01 01 80 00 00 00 00"), 35, accept([1] + [0] * 34)),
          (*shown_bytes("01 01 FF FF FF FF E0"), 35, accept([1] * 35)), (*shown_bytes("01 01 FF FF FF FF FF"), 35, refuse(23, 6)),
          (*shown_bytes("01 01 01 02 04 08 00"), 35, accept([int(d) for d in "00000001000000100000010000001000000"])),
          (*shown_bytes("01 08" + " FF" * 14), 112, accept([1] * 112)), (*shown_bytes("01 08" + " FF" * 14), 111, refuse(5, 112)), (*shown_bytes("01 08" + " FF" * 15), 112, refuse(22, 16))]
# 20, 21, 22
cases += [("[]", [], ROOM, refuse(20, 0)), ("0 ∷ []", [0], 0, refuse(20, 1)), ("2 ∷ []", [2], ROOM, refuse(20, 1)),
          (*sb([0] + BA[1:]), 35, refuse(21, 0)), (*sb([4] + BA[1:]), 35, refuse(21, 4)), (*sb([255] + BA[1:]), 0, refuse(21, 255)), (*sb([3, 0]), 35, refuse(21, 3)), (*sb([0, 0]), 35, refuse(21, 0)),
          (*sb([3] + set_bits(BA, 1)[1:]), 35, refuse(21, 3)),
          (*sb([1, 0, 0]), 35, refuse(22, 0)), (*sb([1, 0, 0, 0, 0]), 35, refuse(22, 0)), (*sb([1, 0, 255, 255, 255]), 0, refuse(22, 0)),
          (*sb([1, 1]), 35, refuse(22, 7)), (*sb(BA[:-1]), 35, refuse(22, 7)), (*sb(BA + [0]), 35, refuse(22, 7)), (*sb(BA + [255]), 0, refuse(22, 7)),
          (*sb([1, 2] + BA[2:]), 46, refuse(22, 8)), (*sb([1, 1] + BC[2:]), 46, refuse(22, 7)), (*sb(set_bits(BA[:-1], 1)), 0, refuse(22, 7)),
          (*sb([1, 3]), 0, refuse(22, 10)), (*sb([1, 8]), 0, refuse(22, 16)), (*sb([1, 254]), ROOM, refuse(22, 355)), (*sb([1, 255]), ROOM, refuse(22, 356)),
          ("1 ∷ 255 ∷ replicate 353 0", [1, 255] + [0] * 353, ROOM, refuse(22, 356)), ("1 ∷ 255 ∷ replicate 355 0", [1, 255] + [0] * 355, ROOM, refuse(22, 356)),
          ("1 ∷ 255 ∷ replicate 354 0", [1, 255] + [0] * 354, 2828, refuse(5, 2829)), ("1 ∷ 255 ∷ replicate 353 0 ++ (4 ∷ [])", [1, 255] + [0] * 353 + [4], ROOM, refuse(23, 355))]
entries = by_hand("unpack", cases, lambda o: ("replicate %d %d" % (len(o), o[0])) if len(set(o)) == 1 else 'cells_of "%s"' % "".join(map(str, o)))
assert model.unpack(2829, [1, 255] + [255] * 353 + [0xF8]) == accept([1] * 2829)
entries.append("1 ∷ 255 ∷ replicate 353 255 ++ (0xF8 ∷ []) into 2829 gives accept 2829 (replicate 2829 1)")
examples_table("f", "unpackings", "unpack", """
By hand from "Row record" and "Unpack: 20, 21, 22, 23, 5", records of version 1: each spare bit,
count 0, one byte too few and one too many; and the versions 0, 3, 4 and 255.
""", entries)

# ================================================================ g. settle

title("g. Ź inside a pair")
MOVED = [("Ć1Ź2", "ĆŹ12"), ("Ć1ŹŹ2", "ĆŹŹ12"), ("Ć1ŹŹŹ2", "ĆŹŹŹ12"), ("ĆŹ1Ź2Ź", "ĆŹŹ12Ź"), ("Ć12Ź3Ź4", "Ć12ŹŹ34"), ("Ć1Ź23Ź4", "ĆŹ12Ź34"), ("Ć1ŹŹ23ŹŹŹ4", "ĆŹŹ12ŹŹŹ34"),
         ("ÀĆ1Ź2", "ÀĆŹ12"), ("ÀAŹĆ9Ź9ÀŹA", "ÀAŹĆŹ99ÀŹA"), ("Ɓ1Ź2Ć1Ź2", "Ɓ1Ź2ĆŹ12"), ("Ć1Ź2Ɓ1Ź2", "ĆŹ12Ɓ1Ź2"), ("Ć1Ź2ÀĆ3Ź4", "ĆŹ12ÀĆŹ34"), ("Ć12345Ź6", "Ć1234Ź56"), ("Ć0Ź00Ź0", "ĆŹ00Ź00"),
         ("ƁźĆ1Ź2", "ƁźĆŹ12")]
STILL = ["", "À", "Ć", "1Ź2", "1Ź2Ć34", "ĆŹ12", "Ć12", "Ć12Ź", "Ć12Ź34", "ĆŹŹ12ŹŹ", "À1Ź2", "Ɓ1Ź2", "ÀAŹ1Ź2", "Ć12Ɓ1Ź2", "Ć12À1Ź2", "ĆŹ", "ƁŽ1Ź2", "ĆƁ1Ź2", "ÀĆŹ1234Ź", "Ɓ1ź2", "ƁźŹ1Ź2"]
for x, y in MOVED:
    assert model.settle(P(x)) == P(y) and crate_many([P(x)]) == crate_many([P(y)])
    assert model.encode_with_fnc2(ROOM, P(x)) == model.encode_with_fnc2(ROOM, P(y)) and model.encode_with_fnc2(ROOM, P(x))[0] == "accept"
for x in STILL:
    assert model.settle(P(x)) == P(x)
table("g", "settling", "Settled", """
By hand from "every Ź standing between the two digits of a set C pair is moved ahead of that pair"
(demand 3). The crate writes the same row for both labels of an entry. Digits outside set C are no
pairs, and a Ź before a pair or after it stays. Labels in which a first digit has no second are left
out: the sentence says nothing about them, and encode refuses them.
""",
      ["%s becomes %s" % (text(P(x)), text(P(y))) for x, y in MOVED] + ["stays %s" % text(P(x)) for x in STILL], each=2)
states("settling_hold", "map settles settling ≡ map settled settling")

# ================================================================ h. the lent buffer

title("h. the lent buffer")


def shown_text(t):
    return 'points "%s"' % t, P(t)


def shown_list(*ms):
    return listed(ms), list(ms)


def shown_equal(n, m):
    return "replicate %d %d" % (n, m), [m] * n


def shown_times(n, t):
    return 'times %d (%s)' % (n, shown_cells(t)[0]), n * shown_cells(t)[1]


def then(first, rest):
    return "%s ++ (%s)" % (first[0], rest[0]), first[1] + rest[1]


def ahead(numbers, rest):
    return " ∷ ".join([*map(str, numbers), rest[0]]), list(numbers) + rest[1]


ROW_A = "11010000100110110011001100011101011"
ROW_FNC2 = "11010010000" + "11110101000" + "11110100010" + STOP   # 104, 97 and the check 98
assert rows(104, 97, 98).replace(" ", "") == ROW_FNC2
entries = []
for job, given, before, number, second, after in [
    ("encode", shown_text("À"), shown_equal(37, 7), 0, 1, then(shown_cells(ROW_A), shown_list(7, 7))),
    ("encode", shown_text("À"), shown_equal(35, 9), 0, 1, shown_cells(ROW_A)),
    ("encode", shown_text("À"), shown_equal(34, 9), 5, 35, shown_equal(34, 9)),
    ("encode", shown_text("Ć1"), shown_list(4, 5, 6), 3, 2, shown_list(4, 5, 6)),
    ("encode", shown_text("Ɓź"), shown_equal(47, 7), 19, 1, shown_equal(47, 7)),
    ("encode", shown_text("Ć97Ɓź"), shown_list(4, 5, 6), 19, 4, shown_list(4, 5, 6)),
    ("encode", shown_text("Ɓź"), shown_list(), 19, 1, shown_list()),
    ("encode", shown_text("Ɓź€"), shown_equal(47, 7), 3, 2, shown_equal(47, 7)),
    ("encode_with_fnc2", shown_text("Ɓź"), shown_equal(47, 7), 0, 2, then(shown_cells(ROW_FNC2), shown_list(7))),
    ("encode_with_fnc2", shown_text("Ɓź"), shown_list(4, 5, 6), 5, 46, shown_list(4, 5, 6)),
    ("draw", shown_list(104, 97), shown_equal(47, 7), 0, 2, then(shown_cells(ROW_FNC2), shown_list(7))),
    ("read", shown_cells(ROW_FNC2), shown_list(1, 2, 3), 0, 2, shown_list(104, 97, 3)),
    ("spell", shown_list(104, 97), shown_list(8, 8, 8), 0, 2, ("Ɓ ∷ 0x17A ∷ 8 ∷ []", P("Ɓź") + [8])),
    ("scan", shown_list(104, 97), shown_list(8, 9), 0, 0, shown_list(8, 9)),
    ("draw", shown_list(105, 2), shown_list(3), 5, 46, shown_list(3)),
    ("read", shown_cells(ROW_A), shown_list(1, 2, 3), 0, 1, shown_list(103, 2, 3)),
    ("read", shown_cells(ROW_A[:-1] + "0"), shown_list(1, 2, 3), 15, 34, shown_list(1, 2, 3)),
    ("read", shown_cells("0" + ROW_A[1:]), shown_list(1, 2, 3), 16, 0, shown_list(1, 2, 3)),
    ("read", shown_cells(ROW_A[:21] + "1" + ROW_A[22:]), shown_list(9), 16, 1, shown_list(9)),
    ("read", shown_cells(ROW_A[:21] + "1" + ROW_A[22:]), shown_list(), 16, 1, shown_list()),
    ("spell", shown_list(105, 12), shown_list(8, 8, 8, 8, 8), 0, 3, ("Ć ∷ 49 ∷ 50 ∷ 8 ∷ 8 ∷ []", P("Ć12") + [8, 8])),
    ("scan", shown_list(105, 12), shown_list(8, 8, 8, 8, 8), 0, 2, shown_list(49, 50, 8, 8, 8)),
    ("scan", shown_list(103), shown_list(8, 9), 0, 0, shown_list(8, 9)),
    ("scan", shown_list(103, 106), shown_list(8, 9), 13, 1, shown_list(8, 9)),
    ("scan", shown_list(103, 98, 65), shown_list(8, 8, 9), 0, 1, shown_list(97, 8, 9)),
    ("scan", shown_list(104, 98, 65, 65), shown_list(8, 9), 0, 2, shown_list(1, 97)),
    ("scan", shown_list(104, 98, 65, 65), shown_list(8), 5, 2, shown_list(8)),
    ("pack", shown_equal(35, 1), shown_list(0, 0, 0, 0, 0, 0, 0, 77), 0, 7, shown_bytes("01 01 FF FF FF FF E0 4D")),
    ("unpack", shown_bytes("01 01 00 00 00 00 00"), shown_equal(36, 5), 0, 35, then(shown_equal(35, 0), shown_list(5))),
    ("unpack", shown_bytes("01 00"), shown_list(6), 22, 0, shown_list(6)),
    ("pack", shown_equal(2840, 1), shown_equal(360, 7), 0, 358, then(ahead([2, 1, 0], shown_equal(355, 255)), shown_list(7, 7))),
    ("pack", shown_equal(2840, 1), shown_equal(357, 7), 5, 358, shown_equal(357, 7)),
    ("unpack", ahead([2, 1, 0], shown_equal(355, 0)), shown_equal(2841, 5), 0, 2840, then(shown_equal(2840, 0), shown_list(5))),
    ("unpack", shown_bytes("02 01"), shown_list(6, 6), 22, 0, shown_list(6, 6)),
    ("unpack", shown_bytes("02 01 00"), shown_list(6, 6), 22, 358, shown_list(6, 6)),
]:
    got = model_of(job)(len(before[1]), given[1])
    if got[0] == "refuse":
        assert got[1:] == (number, second) and after[1] == before[1], (job, given, got)
    else:
        assert got[1] == second and number == 0 and after[1] == got[2] + before[1][len(got[2]):], (job, given, got)
    entries.append("calls %s (%s) (%s) %d %d (%s)" % (job, given[0], before[0], number, second, after[0]))
table("h", "buffers", "Buffer", """
By hand from "An accepted call fills the front of its buffer and answers 0 with a number", "Bytes or
numbers behind that are unchanged" and "A refusal changes no lent memory". An entry has a job, its
input and the buffer before the call, and then the answer number, the second number and the buffer
after the call.
""", entries, each=3)
states("buffers_hold", "map called buffers ≡ map left buffers")

# ================================================================ i. one block drawn over

title("i. one block drawn over")
entries = []
for shown, s, i, m, answer in [
    (None, [103], 0, 104, refuse(14, 1)), (None, [103], 0, 105, refuse(14, 2)), (None, [103], 0, 0, refuse(13, 0)), (None, [103], 0, 102, refuse(13, 0)), (None, [103], 1, 1, refuse(14, 0)),
    (None, [103], 1, 102, refuse(14, 0)), (None, [103], 1, 103, refuse(13, 1)), (None, [105, 12], 0, 103, refuse(14, 12)), (None, [105, 12], 0, 104, refuse(14, 13)),
    (None, [105, 12], 0, 14, refuse(13, 0)), (None, [105, 12], 1, 13, refuse(14, 15)), (None, [105, 12], 1, 102, refuse(14, 1)), (None, [105, 12], 1, 105, refuse(13, 1)),
    (None, [105, 12], 2, 12, refuse(14, 14)), (None, [105, 12], 2, 105, refuse(13, 2)), (None, [104, 33, 41, 45], 2, 42, refuse(14, 47)), (None, [104, 33, 41, 45], 3, 0, refuse(14, 13)),
    (None, [104, 33, 41, 45], 4, 104, refuse(13, 4)),
    ("104 ∷ replicate 103 1", B103, 103, 65, ("accept", 104, "104 ∷ replicate 102 1 ++ (65 ∷ [])")),
    ("104 ∷ replicate 102 1", B103[:103], 103, 65, refuse(14, 1)), ("104 ∷ replicate 206 1", [104] + [1] * 206, 206, 0, ("accept", 207, "104 ∷ replicate 205 1 ++ (0 ∷ [])")),
    ("104 ∷ replicate 309 1", [104] + [1] * 309, 309, 65, ("accept", 310, "104 ∷ replicate 308 1 ++ (65 ∷ [])")),
]:
    number = (s + [model.check_of(s)])[i]
    cells = good(s)
    cells[11 * i:11 * i + 11] = [int(d) for d in PATTERNS[m]]
    got = model.read(MOST, cells)
    assert number != m and got[:2] == answer[:2] and (got[0] == "refuse" and got == answer or got[2] == s[:i] + [m] + s[i + 1:]), (s, i, m, got)
    entries.append("(%s) at %d drawn %d gives %s" % (shown or listed(s), i, m, "refuse %d %d" % answer[1:] if answer[0] == "refuse" else "accept %d (%s)" % answer[1:]))
table("i", "redrawings", "Redrawn", """
By hand: refusal 13 where the new number may not stand; an acceptance at the data places 103, 206
and 309, whose weight is 0 modulo 103; and otherwise refusal 14 with the check of the changed list.
""", entries, each=2)
states("redrawings_hold", "map ruled redrawings ≡ map twice redrawings")

# ================================================================ j. one cell flipped

title("j. one cell flipped")
PAIR, AIM = [105, 12], [104, 33, 41, 45]
cases = [([103], i, refuse(16, 0)) for i in range(11)] + [([103], i, refuse(16, 1)) for i in range(11, 22)]
cases += [([103], i, refuse(15, i)) for i in range(22, 35)]
# START, data, check and stop
cases += [(PAIR, i, refuse(16, b)) for i, b in ((0, 0), (10, 0), (11, 1), (21, 1), (22, 2), (32, 2))]
cases += [(AIM, i, refuse(16, b)) for i, b in ((5, 0), (12, 1), (27, 2), (43, 3), (44, 4), (54, 4))]
cases += [(s, i, refuse(15, i)) for s, i in ((PAIR, 33), (PAIR, 45), (AIM, 55), (AIM, 61), (AIM, 67))]
entries = []
for s, i, answer in cases:
    cells = good(s)
    cells[i] = 1 - cells[i]
    assert model.read(MOST, cells) == model.read(0, cells) == answer, (s, i, answer)
    entries.append("(%s) flipped_at %d gives refuse %d %d" % (listed(s), i, *answer[1:]))
table("j", "flippings", "Flipped", """
By hand from request 3 of document 02: refusal 16 with the block of the flipped cell, or 15 with its
place in the stop, whatever the length of the buffer. First every cell of one row; then cells in the
START, in data, in the check and in the stop of others.
""", entries, each=3)
states("flippings_hold", "map flips flippings ≡ map thrice flippings")

# ================================================================ k. FNC2 retired

title("k. FNC2 retired")
entries = by_hand("encode", [
    # whatever the length of the buffer
    *[('points "Ɓź"', P("Ɓź"), room, refuse(19, 1)) for room in (0, 34, 35, 45, 46, ROOM)],
    # the place of the first ź
    *[('points "%s"' % x, P(x), ROOM, refuse(19, place)) for x, place in (
        ("Àź", 1), ("ƁAźź", 2), ("ÀźźźA", 1), ("ĆƁź", 2), ("ĆÀź", 2), ("Ć97Ɓź", 4), ("ÀĆ9797Ɓź", 7), ("Ć1Ź2Àź", 5), ("ƁźĆ12", 1), ("ÀƁź", 2), ("ƁÀź", 2), ("ÀźƁź", 1),
        ("ƁŽź", 2), ("Ɓ÷÷ź", 3), ("ƁŹŻŽżź", 5), ("ƁźĆ12Ź", 1))],
    # 1 over the whole input before 19
    ("Ɓ ∷ 0x17A ∷ 0xD800 ∷ []", [0x181, FNC2, 0xD800], ROOM, refuse(1, 2)),
    ("Ɓ ∷ 0x17A ∷ 0x110000 ∷ 0x17A ∷ []", [0x181, FNC2, 0x110000, FNC2], 0, refuse(1, 2)),
    ("0x17A ∷ 0xDFFF ∷ []", [FNC2, 0xDFFF], ROOM, refuse(1, 1)),
    ("Ɓ ∷ 0x17A ∷ replicate 300 65 ++ (0xD800 ∷ [])", [0x181, FNC2] + [65] * 300 + [0xD800], ROOM, refuse(1, 302)),
    # 3 over the whole input before 19; in set C ź is 3
    *[('points "%s"' % x, P(x), ROOM, refuse(3, place)) for x, place in (
        ("ź", 0), ("źƁ", 0), ("Ćź", 1), ("Ć12ź", 3), ("ƁĆź", 2), ("ÀĆ97ź", 4), ("ƁźĆź", 3), ("Ɓź€", 2), ("Ɓ€ź", 1), ("Àźa", 2), ("ƁźƁ", 2), ("ÀźÀ", 2))],
    # a digit held, and one left over
    *[('points "%s"' % x, P(x), ROOM, refuse(3, place)) for x, place in (
        ("Ć1ź", 2), ("Ć1ź2", 2), ("Ć1Źź2", 3), ("ƁźĆ1À", 4), ("ƁźĆ1", 4), ("ƁźĆ1Ź", 5), ("ÀźĆ123", 6))],
    ('points "Ɓź€"', P("Ɓź€"), 0, refuse(3, 2)),
    ("Ɓ ∷ 0x17A ∷ replicate 300 65 ++ (0x20AC ∷ [])", [0x181, FNC2] + [65] * 300 + [0x20AC], ROOM, refuse(3, 302)),
    # 19 before 4 and 5
    ("Ɓ ∷ 0x17A ∷ replicate 253 65", [0x181, FNC2] + [65] * 253, 0, refuse(19, 1)),
    ("Ɓ ∷ replicate 253 65 ++ (0x17A ∷ [])", [0x181] + [65] * 253 + [FNC2], 2828, refuse(19, 254)),
    ("Ɓ ∷ replicate 254 65 ++ (0x17A ∷ [])", [0x181] + [65] * 254 + [FNC2], ROOM, refuse(19, 255)),
    ("Ɓ ∷ 0x17A ∷ replicate 254 65", [0x181, FNC2] + [65] * 254, ROOM, refuse(19, 1)),
    ("Ć ∷ replicate 510 48 ++ (Ɓ ∷ 0x17A ∷ [])", [0x106] + [48] * 510 + [0x181, FNC2], 0, refuse(19, 512)),
    ("À ∷ replicate 4000 0x17A", [0xC0] + [FNC2] * 4000, 0, refuse(19, 1)),
], listed)
examples_table("k", "fnc2_refused", "encode", """
Refusal 19 and its place in the order, by hand from request 12 of document 02: "19 at the first ź
(its place), after 3 and before 4; in set C ź is still 3".
""", entries)


def shown_row(*blocks):
    return accept([int(d) for d in rows(*blocks).replace(" ", "")], len(blocks) - 1)


def spaced(cells):
    """A row, eleven cells together."""
    cut = len(cells) - 13
    s = "".join(map(str, cells))
    return 'cells_of "%s"' % " ".join([s[i:i + 11] for i in range(0, cut, 11)] + [s[cut:]])


entries = by_hand("encode_with_fnc2", [
    ('points "Ɓź"', P("Ɓź"), 46, shown_row(104, 97, 98)), ('points "Àź"', P("Àź"), 46, shown_row(103, 97, 97)), ('points "ƁAźź"', P("ƁAźź"), 68, shown_row(104, 33, 97, 97, 4)),
    ('points "ĆƁź"', P("ĆƁź"), 57, shown_row(105, 100, 97, 90)), ('points "Ć97Ɓź"', P("Ć97Ɓź"), 68, shown_row(105, 97, 100, 97, 75)),
    *[('points "Ɓź"', P("Ɓź"), room, refuse(5, 46)) for room in (0, 34, 35, 45)],
    # 3 before 4, 4 before 5
    ('points "Ćź"', P("Ćź"), ROOM, refuse(3, 1)), ('points "Ɓź€"', P("Ɓź€"), 0, refuse(3, 2)), ('points "ƁźĆ1"', P("ƁźĆ1"), ROOM, refuse(3, 4)),
    ("Ɓ ∷ 0x17A ∷ 0xD800 ∷ []", [0x181, FNC2, 0xD800], ROOM, refuse(1, 2)),
    ("Ɓ ∷ 0x17A ∷ replicate 3999 65", [0x181, FNC2] + [65] * 3999, 0, refuse(4, 4001)),
    ("Ɓ ∷ 0x17A ∷ replicate 254 65", [0x181, FNC2] + [65] * 254, 2839, refuse(5, 2840)),
    ("Ɓ ∷ 0x17A ∷ replicate 253 65", [0x181, FNC2] + [65] * 253, 2828, refuse(5, 2829)),
], spaced)
examples_table("k", "fnc2_before", "encode_with_fnc2", """
Document 01's encoder, before request 12, by hand: ź is 97 in sets A and B. The checks are
104+97=201, 103+97=200, 104+33+2·97+3·97=622, 105+100+2·97=399 and 105+97+2·100+3·97=693, all modulo
103.
""", entries)

entries = []
for x, blocks in (("ƁŻ", (104, 96, 97)), ("Ć97", (105, 97, 99)), ("ƁŹ", (104, 102, 0)), ("ÀŻ", (103, 96, 96)), ("Ɓz", (104, 90, 91)), ("ÀĆ97", (103, 99, 97, 87)), ("Ć97ƁŻ", (105, 97, 100, 96, 72))):
    for job in ("encode", "encode_with_fnc2"):
        e = held_to(job, 'points "%s"' % x, P(x), 11 * len(blocks) + 13, shown_row(*blocks), lambda a: plain_answer(a, spaced))
    entries.append(e)
examples_table("k", "fnc2_beside", "encode encode_with_fnc2", """
Labels without ź that are still accepted, by hand, and that document 01's encoder answers alike: the
code points beside ź, 97 as the check, and 97 as a pair in set C.
""", entries)
COUNTS[-1] = ("k", "fnc2_beside", 2 * len(entries))

entries = []
for first, rest, place, shown in (("À", "", 1, "ź"), ("Ɓ", "", 1, "ź"), ("Ć", "", 1, "")):
    tried = [P(first) + [c] + P(rest) for c in [*range(SWEPT), *FAR]]
    assert [label[len(first)] for label in tried if model.encode(ROOM, label) == refuse(19, place)] == P(shown)
    entries.append("swept %s %s %d (%s)" % (text(P(first)), text(P(rest)), place, 'points "%s"' % shown if shown else "[]"))
table("k", "fnc2_swept", "Sweep", """
The code points of `sweeps`, put between two texts: those that are refused 19 at that place, by
hand. It is ź in sets A and B, and nothing else.
""", entries, each=SWEPT + len(FAR))
states("fnc2_swept_hold", "map retires fnc2_swept ≡ map kept fnc2_swept")

reading("fnc2_rows", """
Rows with 97 in set A or B, 97 as a pair in set C and 97 as the check, by hand: read answers as
before request 12.
""", [
    (rows(104, 97, 98), 2, accept([104, 97])), (rows(104, 97, 98), 1, refuse(5, 2)), (rows(104, 97, 97), 2, refuse(14, 98)), (rows(103, 97, 97), 2, accept([103, 97])),
    (rows(103, 97, 98), 2, refuse(14, 97)), (rows(105, 97, 99), 2, accept([105, 97])), (rows(105, 97, 97), 2, refuse(14, 99)), (rows(104, 96, 97), 2, accept([104, 96])),
    (rows(104, 33, 97, 97, 4), 4, accept([104, 33, 97, 97])), (rows(105, 97, 100, 97, 75), 4, accept([105, 97, 100, 97])), (rows(105, 97, 100, 97, 75), 0, refuse(5, 4)),
    (rows(103, 97, 99, 97, 71), 4, accept([103, 97, 99, 97])), (rows(97, 97, 98), MOST, refuse(13, 0)), (rows(104, flip(PATTERNS[97], 3), 98), MOST, refuse(16, 1)),
    (rows(104, 97, 98, stop=flip(STOP, 4)), MOST, refuse(15, 37)),
], group="k")

lists_table("k", "fnc2_lists", """
Lists with 97 in set A, B or C, with the label that spell writes and the bytes that scan sends, by
hand from document 01 and requests 1 and 12 of document 02; the row is what the crate writes for
that label. 97 in set A or B is spelled ź and sends nothing; in set C it is the pair.
""", [
    ([105, 97], "Ć97", "97"), ([103, 97, 97], "Àźź", ""), ([104, 33, 97, 33], "ƁAźA", "AA"), ([103, 97, 64], "Àź\x00", "\x00"), ([104, 97, 95], "Ɓź÷", "\x7f"),
    ([105, 97, 97], "Ć9797", "9797"), ([105, 97, 100, 97], "Ć97Ɓź", "97"), ([105, 97, 101, 97, 65], "Ć97Àź\x01", "97\x01"), ([104, 97, 99, 97], "ƁźĆ97", "97"),
    ([103, 97, 99, 97, 101, 97], "ÀźĆ97Àź", "97"), ([103, 97, 100, 97, 101, 97], "ÀźƁźÀź", ""), ([104, 97, 65, 101, 97, 65], "ƁźaÀź\x01", "a\x01"),
    ([105, 102, 97, 102, 100, 97, 102], "ĆŹ97ŹƁźŹ", "97"), ([104, 96, 97, 102, 100], "ƁŻźŹż", ""),
    # beside Shift, which shifts no 97
    ([103, 98, 97, 65], "ÀŽź\x01", "\x01"), ([104, 98, 97, 65], "ƁŽźa", "a"), ([103, 97, 98, 65], "ÀźŽ\x01", "a"), ([104, 97, 98, 65, 97], "ƁźŽaź", "\x01"),
])

# ================================================================ l. two blocks exchanged

title("l. two blocks exchanged")


def traded(s, i, j):
    """The cells of the row of s with blocks i and j exchanged, the check left as drawn."""
    cells = good(s)
    a, b = slice(11 * i, 11 * i + 11), slice(11 * j, 11 * j + 11)
    cells[a], cells[b] = cells[b], cells[a]
    return cells


TWELVE, LAST103, LAST206 = [105, 12, 34], [104, 1] + [1] * 102 + [2], [104, 1] + [1] * 205 + [2]
entries = []
for s, i, j, blocks in [
    (TWELVE, 1, 2, (105, 34, 12, 82)), (AIM, 1, 2, (104, 41, 33, 45, 45)), (AIM, 2, 3, (104, 33, 45, 41, 45)), (AIM, 1, 3, (104, 45, 41, 33, 45)), ([104, 33, 33], 1, 2, (104, 33, 33, 100)),
    ([103, 0, 102], 1, 2, (103, 102, 0, 101)),
]:
    cells = [int(d) for d in rows(*blocks).replace(" ", "")]
    assert cells == traded(s, i, j), (s, i, j)
    entries.append("(%s) exchanging %d with %d draws %s" % (listed(s), i, j, spaced(cells)))
table("l", "exchanged_rows", "Exchange", """
Request 9 of document 02: rows with two data blocks exchanged, the crate's patterns put in their
order by hand, the check left as drawn. Two that are alike leave the row as it was.
""", entries)
states("exchanged_rows_hold", "map trades exchanged_rows ≡ map traded exchanged_rows")

entries = []
for shown, s, i, j, answer in [
    (None, TWELVE, 1, 2, refuse(14, 60)), (None, AIM, 1, 2, refuse(14, 37)), (None, AIM, 2, 3, refuse(14, 41)), (None, AIM, 1, 3, refuse(14, 21)), (None, [103, 0, 102], 1, 2, refuse(14, 102)),
    (None, [103, 102, 0], 1, 2, refuse(14, 101)),
    # places 103 and 104, with check 3; 103 apart; 206 apart
    ("104 ∷ 1 ∷ replicate 102 1 ++ (2 ∷ [])", LAST103, 103, 104, refuse(14, 2)),
    ("104 ∷ 1 ∷ replicate 102 1 ++ (2 ∷ [])", LAST103, 1, 104, ("accept", 105, "104 ∷ 2 ∷ replicate 102 1 ++ (1 ∷ [])")),
    ("104 ∷ 1 ∷ replicate 205 1 ++ (2 ∷ [])", LAST206, 1, 207, ("accept", 208, "104 ∷ 2 ∷ replicate 205 1 ++ (1 ∷ [])")),
]:
    short = answer if answer[0] == "refuse" else refuse(5, answer[1])
    got = model.read(MOST, traded(s, i, j))
    left = s[:i] + [s[j]] + s[i + 1:j] + [s[i]] + s[j + 1:]
    assert got[:2] == answer[:2] and (got == answer if got[0] == "refuse" else got[2] == left), (s, i, j, got)
    assert model.read(0, traded(s, i, j)) == short, (s, i, j)
    shown_answer = "refuse %d %d" % answer[1:] if answer[0] == "refuse" else "accept %d (%s)" % answer[1:]
    entries.append("(%s) between %d and %d gives %s short refuse %d %d" % (shown or listed(s), i, j, shown_answer, *short[1:]))
table("l", "exchangings", "Between", """
By hand from request 9: refusal 14 with the check of the exchanged list, whatever the length of the
buffer; and an acceptance where the two places are 103 or 206 apart, or refusal 5 if there is no
room. The sum moves by the difference of the two numbers times the distance of their places.
""", entries, each=3)
states("exchangings_hold", "map exchanges exchangings ≡ map threefold exchangings")

# ================================================================ m. up to 4,000 symbols

title("m. up to 4,000 symbols")
entries = []
for n, fits in ((0, False), (1, True), (255, True), (256, True), (3999, True), (4000, True), (4001, False), (65535, False)):
    assert (model.draw(0, [106] * n) == refuse(13, 0)) == fits and (model.scan(0, [106] * n) == refuse(10, n)) != fits, n
    entries.append("%d symbols_fit %s" % (n, str(fits).lower()))
for size, fits in ((0, False), (24, False), (34, False), (35, True), (36, False), (46, True), (2828, False), (2829, True), (2830, False), (2839, False), (2840, True), (2841, False),
                   (44013, True), (44023, False), (44024, True), (44025, False), (44034, False), (44035, False), (44036, False), (44046, False)):
    assert (model.read(0, [2] * size) == refuse(11, 0)) == fits and (model.pack(0, [2] * size) == refuse(10, size)) != fits, size
    entries.append("%d cells_fit %s" % (size, str(fits).lower()))
table("m", "sizes", "Size", """
By hand from request 4 of document 02, "The limit becomes 4,000 everywhere, rows 44,024 cells": which
lengths of a list and of a row are possible.
""", entries)
states("sizes_hold", "map fits sizes ≡ map fitting sizes")

# the label in set C is not in the table: it takes longer to compute
for label in ([0x181] + [65] * 3999, P("Ć" + "0123456789" * 799 + "01234567")):
    assert crate_answers([label]) == [model.encode(44024, label)] and model.encode(44024, label)[:2] == ("accept", 4000)
table("m", "longest", "Example", """
A label of 4,000 symbols, by hand: its row fits 44,024 cells. The cells are left out, so that this is
quickly computed; the crate writes the row that model.py writes.
""", ["Ɓ ∷ replicate 3999 65 into 44024 gives accept 4000 []"])
states("longest_hold", "map (asked (briefly encode)) longest ≡ map given longest")

entries = []
for start, m, k in ((104, 33, 254), (104, 33, 255), (104, 33, 3999), (103, 0, 3999), (103, 1, 3999), (104, 99, 3999), (105, 102, 3998), (105, 102, 3999)):
    check = (start + m * (k * (k + 1) // 2)) % 103
    assert check == model.check_of([start] + [m] * k)
    entries.append("(%d ∷ replicate %d %d) checks %d" % (start, k, m, check))
assert 105 + 102 * (3999 * 4000 // 2) == 815796105
table("m", "long_checks", "Checked", """
Checks of a START and k equal numbers m, by hand: START + m·k(k+1)/2 modulo 103. The last has the
largest sum of all, 815,796,105.
""", entries)
states("long_checks_hold", "map check_in long_checks ≡ map right_check long_checks")

entries = []
for n, first, size in ((1, [1, 1], 7), (8, [1, 8], 16), (254, [1, 254], 355), (255, [1, 255], 356), (256, [2, 1, 0], 358), (257, [2, 1, 1], 360), (511, [2, 1, 255], 709), (512, [2, 2, 0], 710),
                       (1000, [2, 3, 232], 1381), (3999, [2, 15, 159], 5505), (4000, [2, 15, 160], 5506)):
    got = model.pack(ROOM, [0] * (11 * n + 24))
    assert got[1] == size and got[2][:len(first)] == first and size == len(first) + -(-(11 * n + 24) // 8)
    entries.append("%d packed_after %s long %d" % (n, listed(first), size))
table("m", "heads", "Headed", """
By hand from request 4, "Up to 255 symbols are still packed as version 1 … more as version 2": the
first bytes of the record of n symbols, and the record's length.
""", entries)
states("heads_hold", "map headed heads ≡ map begun heads")


def both_shown(job, cases):
    """By hand; each input and each accepted output is a pair: how it is shown, and its elements."""
    entries = []
    for given, room, answer in cases:
        want = answer if answer[0] == "refuse" else accept(answer[1])
        entries.append(held_to(job, *given, room, want, lambda a: plain_answer(a, lambda o: answer[0])))
    return entries


ZEROS, ONE_BITS, BYTES = shown_equal(2840, 0), shown_equal(2840, 1), shown_times(355, "11010010")
OF_BYTES = ahead([2, 1, 0], ("replicate 355 0xD2", [0xD2] * 355))
LEFT_OVER = then(shown_times(356, "11010010"), shown_cells("101"))   # 257 symbols, five spare bits
OF_LEFT_OVER = ahead([2, 1, 1], then(("replicate 356 0xD2", [0xD2] * 356), ("0xA0 ∷ []", [0xA0])))
examples_table("m", "second_packings", "pack", """
Records of version 2, by hand from request 4: rows of 256 and 257 symbols. At 256
there is no spare bit, at 257 there are five.
""", both_shown("pack", [
    (ZEROS, 358, ahead([2, 1, 0], shown_equal(355, 0))), (ONE_BITS, 358, ahead([2, 1, 0], shown_equal(355, 255))), (BYTES, ROOM, OF_BYTES), (BYTES, 357, refuse(5, 358)), (BYTES, 356, refuse(5, 358)),
    (BYTES, 0, refuse(5, 358)), (LEFT_OVER, 360, OF_LEFT_OVER), (LEFT_OVER, 359, refuse(5, 360)), (shown_equal(2851, 1), 360, ahead([2, 1, 1], then(shown_equal(356, 255), ("0xE0 ∷ []", [0xE0])))),
    (then(shown_equal(2839, 0), shown_list(2)), 0, refuse(11, 2839)), (shown_equal(2841, 2), 0, refuse(10, 2841)),
]))

cases = [
    # under 3 bytes, a count up to 255, a count above 4,000: each with 0, whatever the length
    (shown_list(2), 0, refuse(20, 1)), *[(shown_list(*x), 0, refuse(22, 0)) for x in (
        (2, 0), (2, 1), (2, 15), (2, 255), (2, 0, 0), (2, 0, 1), (2, 0, 254), (2, 0, 255), (2, 15, 161), (2, 16, 0), (2, 160, 15), (2, 255, 255))],
    (ahead([2, 0, 1], shown_equal(5, 0)), 35, refuse(22, 0)), (ahead([2, 0, 255], shown_equal(354, 0)), ROOM, refuse(22, 0)), (ahead([2, 0, 1], shown_equal(355, 0)), ROOM, refuse(22, 0)),
    (ahead([2, 0, 0], shown_equal(3, 0)), ROOM, refuse(22, 0)), (ahead([2, 15, 161], shown_equal(5505, 0)), ROOM, refuse(22, 0)),
    # the length needed
    *[(shown_list(*x), 0, refuse(22, size)) for *x, size in (
        (2, 1, 0, 358), (2, 1, 1, 360), (2, 1, 255, 709), (2, 2, 0, 710), (2, 15, 159, 5505), (2, 15, 160, 5506), (2, 1, 0xD0, 644))],
    (ahead([2, 1, 0], shown_equal(354, 0)), ROOM, refuse(22, 358)), (ahead([2, 1, 0], shown_equal(356, 0)), ROOM, refuse(22, 358)), (ahead([1, 1, 0], shown_equal(355, 0)), ROOM, refuse(22, 7)),
    (ahead([2, 1, 1], shown_equal(356, 255)), ROOM, refuse(22, 360)), (ahead([2, 1, 1], shown_equal(358, 255)), 0, refuse(22, 360)), (ahead([2, 15, 160], shown_equal(5502, 0)), ROOM, refuse(22, 5506)),
    # another version, before its count
    *[(shown_list(*x), ROOM, refuse(21, x[0])) for x in ((0, 1), (3, 1), (3, 9), (3, 1, 0), (255, 15, 161))], (ahead([3, 1, 0], shown_equal(355, 0)), ROOM, refuse(21, 3)),
    # accepted, and too short a buffer
    (ahead([2, 1, 0], shown_equal(355, 0)), 2840, ZEROS), (ahead([2, 1, 0], shown_equal(355, 255)), 2840, ONE_BITS), (OF_BYTES, ROOM, BYTES), (OF_BYTES, 2839, refuse(5, 2840)),
    (OF_LEFT_OVER, 2851, LEFT_OVER), (OF_LEFT_OVER, 2850, refuse(5, 2851)),
    # each spare bit alone, all of them, and the lowest bit that is not spare
    *[(ahead([2, 1, 1], then(shown_equal(356, 0), shown_list(b))), ROOM, refuse(23, 359)) for b in (1, 2, 4, 8, 16, 31)], (ahead([2, 1, 1], shown_equal(357, 255)), 0, refuse(23, 359)),
    (ahead([2, 1, 1], then(shown_equal(356, 0), shown_list(32))), 2851, then(shown_equal(2850, 0), shown_list(1))),
]
examples_table("m", "second_unpackings", "unpack", """
By hand from request 4: "21 now means neither 1 nor 2; 22 also for that small count, for a count
above 4,000 and for a version 2 record under 3 bytes, each with 0". Among the counts are 256 and
4,000 with their bytes the wrong way round.
""", both_shown("unpack", cases))

entries = []
FAR_LIST = ("104 ∷ replicate 3999 0", [104] + [0] * 3999)   # check 1
for i, m, answer in [
    (412, 102, ("accept", 4000, "104 ∷ replicate 411 0 ++ (102 ∷ replicate 3587 0)")), (3914, 65, ("accept", 4000, "104 ∷ replicate 3913 0 ++ (65 ∷ replicate 85 0)")),
    (3913, 65, refuse(14, 39)), (3915, 65, refuse(14, 66)), (3999, 1, refuse(14, 86)), (4000, 2, refuse(14, 1)), (3914, 103, refuse(13, 3914)),
]:
    s, cells = FAR_LIST[1], good(FAR_LIST[1])
    cells[11 * i:11 * i + 11] = [int(d) for d in PATTERNS[m]]
    got = model.read(MOST, cells)
    assert got[:2] == answer[:2] and (got == answer if got[0] == "refuse" else got[2] == s[:i] + [m] + s[i + 1:]), (i, m, got)
    entries.append("(%s) at %d drawn %d gives %s" % (FAR_LIST[0], i, m, "refuse %d %d" % answer[1:] if answer[0] == "refuse" else "accept %d (%s)" % answer[1:]))
table("m", "far_redrawings", "Redrawn", """
By hand from request 4, "demand 3's places become all multiples of 103, up to 3,914": one block of a
row of 4,000 symbols drawn over, by `verdict` alone.
""", entries)
states("far_redrawings_hold", "map judged far_redrawings ≡ map judgement far_redrawings")

entries = []
FAR_PAIR = ("104 ∷ 1 ∷ replicate 3913 0 ++ (2 ∷ replicate 84 0)", [104, 1] + [0] * 3913 + [2] + [0] * 84)   # check 4
for i, j, answer in [
    (1, 3915, ("accept", 4000, "104 ∷ 2 ∷ replicate 3913 0 ++ (1 ∷ replicate 84 0)")), (1, 310, ("accept", 4000, "104 ∷ 0 ∷ replicate 308 0 ++ (1 ∷ replicate 3604 0 ++ (2 ∷ replicate 84 0))")),
    (1, 3914, refuse(14, 3)), (3914, 3915, refuse(14, 2)), (3915, 3999, refuse(14, 69)),
]:
    s, short = FAR_PAIR[1], answer if answer[0] == "refuse" else refuse(5, answer[1])
    got = model.read(MOST, traded(s, i, j))
    left = s[:i] + [s[j]] + s[i + 1:j] + [s[i]] + s[j + 1:]
    assert got[:2] == answer[:2] and (got == answer if got[0] == "refuse" else got[2] == left) and model.read(0, traded(s, i, j)) == short, (i, j, got)
    shown_answer = "refuse %d %d" % answer[1:] if answer[0] == "refuse" else "accept %d (%s)" % answer[1:]
    entries.append("(%s) between %d and %d gives %s short refuse %d %d" % (FAR_PAIR[0], i, j, shown_answer, *short[1:]))
table("m", "far_exchangings", "Between", """
By hand, two blocks of a row of 4,000 symbols exchanged, 3,914 or 309 places apart or not, by
`exchanged_verdict` alone.
""", entries)
states("far_exchangings_hold", "map settled_between far_exchangings ≡ map foretold far_exchangings")

# ================================================================ the files

HEAD = '''-- Answers from outside that the definitions in specs/ are held to: from documents 01 and 02 by
-- hand, from the standard as we know it, and from the crate when it is run. Where a comment says
-- "by hand", a Python program written from these documents alone gave the same answer
-- (tools/examples/model.py). Only proofs use these tables: Against.antt proves by computation that
-- the definitions give every answer in them. Nobody needs to audit them to know what is promised:
-- that is in specs/.
-- tools/examples makes this file. Assumes nothing.
use Prim.Native.Nat.{ℕ, zero, suc, ◌+◌, ◌-◌, ◌*◌, ◌/◌, ◌%◌}
use Prim.Native.String.{String}
use mathlib.Core.Bool.{Bool, true, false, ◌&&◌, not}
use mathlib.Core.List.{List, [], ◌∷◌, ◌++◌}
use lib.Dec.{ltb, eqb}
use lib.ListN.{length, take, drop, replicate}
use Rattle.std.specs.Prelude.{if◌then◌else◌}
use Rattle.helpers.specs.Answers.{Answer, refuse, accept, number, second, after}
use Rattle.paper.specs.Iso15417.{points, check, count, row}
use Rattle.paper.specs.Crate.{À, Ɓ, Ć, Parsed, symbols, parse}
use Rattle.paper.specs.Settle.{settle, inside}
use Rattle.paper.specs.Jobs.{possible, possible_row, encode, encode_with_fnc2, draw, read, spell, scan, head, pack, record_length, unpack}
use Rattle.paper.specs.Labels.{Label, ◌⇒◌}
use Rattle.paper.specs.Damage.{redrawn, verdict, flipped, flipped_verdict, exchanged, exchanged_verdict}
use Rattle.paper.proofs.Computes.{settle_computes, chars_computes, rules_computes, damage_computes}

-- ---- how the tables are written

-- the digits 0 to 9 and A to F as numbers; blanks are left out
unfoldable pub digit16 : ℕ → List ℕ
digit16 c = if eqb c 32 then [] else if ltb c 65 then (c - 48) ∷ [] else ((c - 55) ∷ [])

unfoldable pub digits16 : List ℕ → List ℕ
digits16 [] = []
digits16 (c ∷ cs) = digit16 c ++ digits16 cs

-- cells one by one
unfoldable pub cells_of : String → List ℕ
cells_of text = digits16 (points text)

-- the four cells of each digit, the first in the top bit
unfoldable pub fours : List ℕ → List ℕ
fours [] = []
fours (d ∷ ds) = (d / 8) ∷ (d / 4 % 2) ∷ (d / 2 % 2) ∷ (d % 2) ∷ fours ds

-- the row of n symbols, four cells to a digit
unfoldable pub row_of : ℕ → String → List ℕ
row_of n text = take (11 * n + 24) (fours (cells_of text))

-- an acceptance with that row
unfoldable pub accepted : ℕ → String → Answer
accepted n text = accept n (row_of n text)

-- the numbers of two digits each
unfoldable pub pairs16 : List ℕ → List ℕ
pairs16 [] = []
pairs16 (a ∷ []) = []
pairs16 (a ∷ b ∷ ds) = (16 * a + b) ∷ pairs16 ds

-- bytes, two digits each
unfoldable pub bytes_of : String → List ℕ
bytes_of text = pairs16 (cells_of text)

-- the first n blocks of eleven cells
unfoldable pub elevens : ℕ → List ℕ → List (List ℕ)
elevens zero cs = []
elevens (suc n) cs = take 11 cs ∷ elevens n (drop 11 cs)

-- some lists, one after the other
unfoldable pub joined : List (List ℕ) → List ℕ
joined [] = []
joined (xs ∷ xss) = xs ++ joined xss

-- n copies of a list, one after the other
unfoldable pub times : ℕ → List ℕ → List ℕ
times zero xs = []
times (suc n) xs = xs ++ times n xs

-- each number right after a Shift, and then once more without one
unfoldable pub shift_then_plain : List ℕ → List ℕ
shift_then_plain [] = []
shift_then_plain (m ∷ ms) = 98 ∷ m ∷ m ∷ shift_then_plain ms

-- ---- what is compared: the answers of the definitions with the answers in a table's entries

infix 15 ◌into◌gives◌
infix 15 ◌is◌checked◌sends◌
infix 15 ◌spells◌scans◌draws◌
infix 15 ◌becomes◌
infix 15 ◌at◌drawn◌gives◌
infix 15 ◌flipped_at◌gives◌
infix 15 ◌exchanging◌with◌draws◌
infix 15 ◌between◌and◌gives◌short◌
infix 15 ◌first_at◌gives◌
infix 15 ◌symbols_fit◌
infix 15 ◌cells_fit◌
infix 15 ◌checks◌
infix 15 ◌packed_after◌long◌
-- a job's input, the number of elements of the lent buffer, and the answer
pub data Example : Type 0 where
  ◌into◌gives◌ : List ℕ → ℕ → Answer → Example

unfoldable pub asked : (ℕ → List ℕ → Answer) → Example → Answer
asked job (x into room gives a) = job room x

unfoldable pub given : Example → Answer
given (x into room gives a) = a

-- an answer without the list that is written
unfoldable pub brief : Answer → Answer
brief (refuse k m) = refuse k m
brief (accept n out) = accept n []

unfoldable pub briefly : (ℕ → List ℕ → Answer) → ℕ → List ℕ → Answer
briefly job room x = brief (job room x)

-- a label, its symbols, its check, and what a scanner sends for it
pub data Published : Type 0 where
  ◌is◌checked◌sends◌ : String → List ℕ → ℕ → String → Published

unfoldable pub parsed_as : Published → Parsed × ℕ × Answer
parsed_as (x is s checked c sends b) = (parse (points x), check s, scan (length (points b)) s)

unfoldable pub printed_as : Published → Parsed × ℕ × Answer
printed_as (x is s checked c sends b) = (symbols s, c, accept (length (points b)) (points b))

-- a label with ź that the crate accepts, the place of its first ź, and document 01's answer: the
-- crate's row, or refusal 4 if that row has more than 4,000 symbols
pub data WithFNC2 : Type 0 where
  ◌first_at◌gives◌ : List ℕ → ℕ → Answer → WithFNC2

unfoldable pub answer_of : (ℕ → List ℕ → Answer) → WithFNC2 → Answer
answer_of job (x first_at i gives a) = job 44024 x

unfoldable pub of_crate : WithFNC2 → Answer
of_crate (x first_at i gives a) = a

unfoldable pub retired : WithFNC2 → Answer
retired (x first_at i gives a) = refuse 19 i

-- two texts, a place, and those code points in `tried` that are not refused 3 at that place when
-- they are put between the texts; or those that are refused 19 there
pub data Sweep : Type 0 where
  swept : String → String → ℕ → List ℕ → Sweep

unfoldable pub tried : List ℕ
tried = count 0 512 ++ (0x7FF ∷ 0x800 ∷ 0xD7FF ∷ 0xE000 ∷ 0xFFFF ∷ 0x10000 ∷ 0x10FFFF ∷ [])

unfoldable pub passes_at : ℕ → Answer → Bool
passes_at place a = not (eqb (number a) 3 && eqb (second a) place)

unfoldable pub retires_at : ℕ → Answer → Bool
retires_at place a = eqb (number a) 19 && eqb (second a) place

-- the elements that have a property
unfoldable pub those : (ℕ → Bool) → List ℕ → List ℕ
those keeps [] = []
those keeps (c ∷ cs) = (if keeps c then c ∷ [] else []) ++ those keeps cs

unfoldable pub passing : Sweep → List ℕ
passing (swept first rest place found) = those (λ c. passes_at place (encode 44024 (points first ++ (c ∷ points rest)))) tried

unfoldable pub retires : Sweep → List ℕ
retires (swept first rest place found) = those (λ c. retires_at place (encode 44024 (points first ++ (c ∷ points rest)))) tried

unfoldable pub kept : Sweep → List ℕ
kept (swept first rest place found) = found

-- a symbol list, the label that spells it, what a scanner sends for it, and its row
pub data Listed : Type 0 where
  ◌spells◌scans◌draws◌ : List ℕ → String → String → String → Listed

unfoldable pub three_jobs : Listed → List Answer
three_jobs (s spells x scans b draws r) = spell (length (points x)) s ∷ scan (length (points b)) s ∷ draw (11 * length s + 24) s ∷ []

unfoldable pub three_answers : Listed → List Answer
three_answers (s spells x scans b draws r) =
    accept (length (points x)) (points x) ∷ accept (length (points b)) (points b) ∷ accepted (length s) r ∷ []

-- a label with a Ź inside a pair and the label that it becomes when each such Ź is moved ahead of
-- its pair; or a label with no Ź inside a pair, which stays as it is
pub data Settled : Type 0 where
  ◌becomes◌ : String → String → Settled
  stays : String → Settled

unfoldable pub settles : Settled → Bool × List ℕ
settles (x becomes y) = (inside (points x), settle (points x))
settles (stays x) = (inside (points x), settle (points x))

unfoldable pub settled : Settled → Bool × List ℕ
settled (x becomes y) = (true, points y)
settled (stays x) = (false, points x)

-- a symbol list, a block of its row, the number that is drawn over it, and what read answers then:
-- `verdict` must say the same, and so must `read` of the changed row
pub data Redrawn : Type 0 where
  ◌at◌drawn◌gives◌ : List ℕ → ℕ → ℕ → Answer → Redrawn

unfoldable pub ruled : Redrawn → List Answer
ruled (s at i drawn m gives a) = verdict s i m ∷ read 4000 (redrawn i m (row s)) ∷ []

unfoldable pub twice : Redrawn → List Answer
twice (s at i drawn m gives a) = a ∷ a ∷ []

-- the same by `verdict` alone, for a long list
unfoldable pub judged : Redrawn → Answer
judged (s at i drawn m gives a) = verdict s i m

unfoldable pub judgement : Redrawn → Answer
judgement (s at i drawn m gives a) = a

-- a symbol list, the place of a cell of its row that is flipped, and what read answers then:
-- `flipped_verdict` must say the same, and so must `read` of the changed row, into 4,000 elements
-- and into none
pub data Flipped : Type 0 where
  ◌flipped_at◌gives◌ : List ℕ → ℕ → Answer → Flipped

unfoldable pub flips : Flipped → List Answer
flips (s flipped_at i gives a) = flipped_verdict s i ∷ read 4000 (flipped i (row s)) ∷ read 0 (flipped i (row s)) ∷ []

unfoldable pub thrice : Flipped → List Answer
thrice (s flipped_at i gives a) = a ∷ a ∷ a ∷ []

-- a symbol list, two of its places, and its row with these two blocks exchanged
pub data Exchange : Type 0 where
  ◌exchanging◌with◌draws◌ : List ℕ → ℕ → ℕ → List ℕ → Exchange

unfoldable pub trades : Exchange → List ℕ
trades (s exchanging i with j draws cs) = exchanged i j (row s)

unfoldable pub traded : Exchange → List ℕ
traded (s exchanging i with j draws cs) = cs

-- a symbol list, two of its data places, and what read answers to that row, into 4,000 elements and
-- into none: `exchanged_verdict` must say the first
pub data Between : Type 0 where
  ◌between◌and◌gives◌short◌ : List ℕ → ℕ → ℕ → Answer → Answer → Between

unfoldable pub exchanges : Between → List Answer
exchanges (s between i and j gives a short b) = exchanged_verdict s i j ∷ read 4000 (exchanged i j (row s)) ∷ read 0 (exchanged i j (row s)) ∷ []

unfoldable pub threefold : Between → List Answer
threefold (s between i and j gives a short b) = a ∷ a ∷ b ∷ []

-- the same by `exchanged_verdict` alone, for a long list
unfoldable pub settled_between : Between → Answer
settled_between (s between i and j gives a short b) = exchanged_verdict s i j

unfoldable pub foretold : Between → Answer
foretold (s between i and j gives a short b) = a

-- a job, its input and the buffer lent to it; then the answer number, the second number and what
-- the buffer holds after the call
pub data Buffer : Type 0 where
  calls : (ℕ → List ℕ → Answer) → List ℕ → List ℕ → ℕ → ℕ → List ℕ → Buffer

unfoldable pub gave : Answer → List ℕ → ℕ × ℕ × List ℕ
gave a buf = (number a, second a, after a buf)

unfoldable pub called : Buffer → ℕ × ℕ × List ℕ
called (calls job x buf k m out) = gave (job (length buf) x) buf

unfoldable pub left : Buffer → ℕ × ℕ × List ℕ
left (calls job x buf k m out) = (k, m, out)

-- a number of symbols, or of cells, and whether a list, or a row, may have it
pub data Size : Type 0 where
  ◌symbols_fit◌ : ℕ → Bool → Size
  ◌cells_fit◌ : ℕ → Bool → Size

unfoldable pub fits : Size → Bool
fits (n symbols_fit b) = possible n
fits (n cells_fit b) = possible_row n

unfoldable pub fitting : Size → Bool
fitting (n symbols_fit b) = b
fitting (n cells_fit b) = b

-- a symbol list and its check
pub data Checked : Type 0 where
  ◌checks◌ : List ℕ → ℕ → Checked

unfoldable pub check_in : Checked → ℕ
check_in (s checks c) = check s

unfoldable pub right_check : Checked → ℕ
right_check (s checks c) = c

-- a number of symbols, the first bytes of the record of such a row, and the record's length
pub data Headed : Type 0 where
  ◌packed_after◌long◌ : ℕ → List ℕ → ℕ → Headed

unfoldable pub headed : Headed → List ℕ × ℕ
headed (n packed_after h long k) = (head n, record_length n)

unfoldable pub begun : Headed → List ℕ × ℕ
begun (n packed_after h long k) = (h, k)

'''

HELPERS = [line.split()[2] for line in HEAD.split("\n") if line.startswith("unfoldable pub ")]
NAMES = [t.split("unfoldable pub ")[k].split()[0] for t in TABLES for k in range(1, t.count("unfoldable pub ") + 1)]
TAIL = """-- a proof by computation names this on its `unfolding` line: it opens every definition above
unfoldable pub examples_computes : Unit {0}
unfolding %s %s settle_computes chars_computes rules_computes damage_computes
examples_computes = tt
""" % (" ".join(HELPERS), " ".join(NAMES))

PROOFS = """-- The definitions give every answer in the tables of Examples.antt, by computation.
-- tools/examples makes this file. Assumes nothing.
use mathlib.Core.Path.{◌≡◌, refl}
use mathlib.Core.List.{map}
use Rattle.paper.specs.Iso15417.{bar_cells, cells, count, stop}
use Rattle.paper.specs.Chars.{chars}
use Rattle.paper.specs.Rules.{runs}
use Rattle.paper.specs.Jobs.{encode, encode_with_fnc2, draw, read, spell, scan, pack, unpack}
use Rattle.paper.specs.Labels.{answered, expected}
%s
"""
used = ["examples_computes"] + [n for n in HELPERS + NAMES if any(n in st.replace("(", "").replace(")", "").split() for _, st in STATEMENTS)]
lines = [used[:1]]
for name in used[1:]:
    if wide(", ".join([*lines[-1], name]) + ",") > 120:
        lines.append([])
    lines[-1].append(name)
PROOFS = PROOFS % "\n".join("use Rattle.paper.proofs.Examples.{%s}" % ", ".join(line) for line in lines)
for name, statement in STATEMENTS:
    PROOFS += "\npub %s : %s\nunfolding examples_computes%s\n%s = refl\n" % (name, statement, " answered expected" if "answered" in statement else "", name)

if __name__ == "__main__":
    for path, body in ((EXAMPLES, HEAD + "\n".join(TABLES) + "\n" + TAIL), (AGAINST, PROOFS)):
        assert all(len(line) <= 100 for line in body.split("\n") if line.startswith("--"))
        with open(path, "w", encoding="utf-8") as f:
            f.write(body)
    print("\n".join("%s %-18s %d" % c for c in COUNTS))
    swept = sum(c for _, n, c in COUNTS if n in ("sweeps", "fnc2_swept"))
    print(sum(c for _, _, c in COUNTS) - swept, "and", swept, "swept")
