"""Code 128: rows that zint draws, held to the library's read, draw, scan, spell and encode."""
import itertools
import os
import re
import subprocess
from collections import Counter

from codes import CHECKS, NUMBERS, list_words, words
from labels import KINDS, all_lists
from library import Refused
from reading import FNC1, SETS, STARTS, check_of, reading

MOST = 60  # symbols after the START
FULL, FULL_UPPER = 56, 40  # symbols at least in the longest beginning of a text that is too long:
# a character can need four, and of the upper half zint counts more than it then writes
LENGTHS = range(2, MOST + 2)  # symbols with the START: each of them has to be drawn
NEVER = {("A", 97), ("B", 97), ("A", 102)}  # FNC2; FNC1 in set A, which GS1 labels do not need
STYLES = {
    "control": bytes(range(32)),
    "set-a": bytes(range(96)),
    "set-b": bytes(range(32, 128)),
    "lower": bytes(range(97, 123)),
    "digits": b"0123456789",
    "mixed": bytes(range(128)) + b"0123456789" * 12,
    "shifts": b"abcdefghij\x01\x02ABCDEFGHIJ" + b"klmnop",
    "latin-1": bytes(range(256)) + b"0123456789" * 8 + bytes(range(192, 256)) * 3,
}
WAYS = {
    "no-text": "a list that sends nothing: zint wants a text",
    "own-sets": "zint chooses the sets and puts in no function symbol: another list for the text",
    "too-long": f"a text that needs more than {MOST} symbols after the START, as zint counts",
    "fnc4": "a byte above 7F: zint writes FNC4, and scan sends the byte less 128",
    "fnc4-latched": "after FNC4 twice, zint's row does not say its text to ZXing",
    "fnc1": "GS1-128: zint writes FNC1, and scan sends nothing for it",
    "fnc3": "--init: zint writes FNC3, and scan sends nothing for it",
}
PROGRAM = "zint"


def ask(folder, lines, options):
    """Rows as zint draws them, or the number of its error, one for each line."""
    path = os.path.join(folder, "texts")
    with open(path, "wb") as file:
        file.write(b"".join(line + b"\n" for line in lines))
    done = subprocess.run([PROGRAM, *options, "--batch", "--dump", "-i", path], check=False,
                          stdout=subprocess.PIPE, stderr=subprocess.PIPE)
    errors = {int(line): int(number) for line, number in
              re.findall(rb"^On line (\d+): Error (\d+)", done.stderr, re.M)}
    drawn = iter(done.stdout.split(b"\n"))
    answers = [errors.get(place) or cells(next(drawn)) for place in range(1, len(lines) + 1)]
    if any(drawn) or b"" in answers:
        raise RuntimeError(f"zint draws another number of rows: {done.stderr[:200]!r}")
    return answers


def cells(line):
    """The cells of a row in hex. A row ends with a bar, so spaces at the end are not its own."""
    digits = line.replace(b" ", b"").decode("ascii")
    bits = "".join(f"{int(digit, 16):04b}" for digit in digits).rstrip("0")
    return bytes(map(int, bits))


def escaped(text):
    """A text as zint's --esc takes it, every byte of it escaped."""
    return b"".join(b"\\x%02X" % byte for byte in text)


class Zint:
    """What zint drew, and what the library says otherwise."""

    def __init__(self, library, folder, plant=None):
        self.library, self.folder, self.plant = library, folder, plant
        self.tallies, self.smallest, self.faults = {}, {}, []
        self.numbers, self.checks, self.drawn, self.lengths = set(), set(), set(), set()

    def rows(self, texts, options):
        """What zint answers to texts that are bytes."""
        drawn = ask(self.folder, list(map(escaped, texts)), [*options, "--esc", "--binary"])
        if self.plant == "zint":  # one cell of the first row
            drawn[0] = drawn[0][:20] + bytes([1 - drawn[0][20]]) + drawn[0][21:]
        return drawn

    def meet(self, tally, way, shown, ours, theirs):
        """Counts a way, and keeps the smallest list or text that shows it, if one is given."""
        tally["listed"] += 1
        tally[way] += 1
        if shown is None:
            return
        key = len(shown), shown
        if way not in self.smallest or key < self.smallest[way][0]:
            self.smallest[way] = key, ours, theirs

    def held(self, row):
        """The list of a row that read takes, draw draws and encode writes again."""
        numbers = self.library.read(row)
        if self.library.draw(numbers) != row:
            raise Refused(f"draw gives another row for {list_words(numbers)}")
        if self.library.encode(self.library.spell(numbers)) != row:
            raise Refused(f"encode gives another row for what spells {list_words(numbers)}")
        return numbers

    def cover(self, numbers):
        """Takes down what was drawn, each number with the set in which it stands."""
        now = STARTS[numbers[0]]
        for number in numbers[1:]:
            self.drawn.add((now, number))
            if number in SETS and not (now == "C" and number < 100):
                now = SETS[number]
        self.numbers.update(numbers, [check_of(numbers)])
        self.checks.add(check_of(numbers))
        self.lengths.add(len(numbers))

    def texts(self, name, texts, options):
        """A part: texts, each drawn by zint, or too long for it."""
        tally = self.tallies.setdefault(name, Counter())
        for text, row in zip(texts, self.rows(texts, options)):
            tally["labels"] += 1
            try:
                if isinstance(row, int):
                    self.refused(tally, text, row, options)
                else:
                    self.text(tally, text, row)
            except Refused as fault:
                short = self.shortest(text, options)
                self.faults.append(f"zint, {name}: {fault}; the text in hex is {short.hex(' ')}")
                return

    def text(self, tally, text, row):
        """One text that was drawn."""
        numbers = self.held(row)
        sent = self.library.scan(numbers)
        self.cover(numbers)
        if sent != bytes(byte & 127 for byte in text):
            raise Refused(f"scan of {list_words(numbers)} sends {words((sent, ()))}")
        if sent == text and numbers[1] == 96 and numbers[0] != 105:
            self.meet(tally, "fnc3", numbers, words((sent, ())), words((text, ("initialise",))))
        elif sent == text:
            tally["alike"] += 1
        else:
            upper = reading(numbers, "ZXing", {"fnc4"})[0]
            if upper != text and (100, 100) not in zip(numbers, numbers[1:]) and \
                    (101, 101) not in zip(numbers, numbers[1:]):
                raise Refused(f"the upper half of {list_words(numbers)} is {words((upper, ()))}")
            self.meet(tally, "fnc4" if upper == text else "fnc4-latched", numbers,
                      words((sent, ())), words((text, ())))

    def refused(self, tally, text, error, options):
        """A text that zint does not draw: what comes before its last characters fills a row."""
        prefixes = [text[:length] for length in range(1, len(text))]
        rows = [row for row in self.rows(prefixes, options) if not isinstance(row, int)]
        full = max([0, *(len(row) // 11 - 3 for row in rows)])
        if error != 341 or full < (FULL if text.isascii() else FULL_UPPER):
            raise Refused(f"zint refuses the text by its error {error}")
        shown = text if text.isascii() and text[2:] == text[:-2] else None  # not one of chance
        self.meet(tally, "too-long", shown, "drawn", f"error {error}")

    def shortest(self, text, options):
        """The shortest part of a text at which zint and the library still differ."""
        length = len(text)
        ends = itertools.combinations(range(length + 1), 2)
        parts = {text[first:last] for first, last in ends}
        parts = sorted(parts, key=lambda part: (len(part), part))[:2000]
        for part, row in zip(parts, self.rows(parts, options)):
            try:
                if not isinstance(row, int):
                    self.text(Counter(), part, row)
            except Refused:
                return part
        return text

    def gs1(self, name, labels):
        """A part: GS1-128, lists of an identifier and its data, with FNC1 where data end."""
        tally = self.tallies.setdefault(name, Counter())
        lines = [b"".join(b"[%s]%s" % field for field in label) for label in labels]
        rows = ask(self.folder, lines, ["-b", "16", "--gs1nocheck"])
        for label, line, row in zip(labels, lines, rows):
            tally["labels"] += 1
            text = b"".join(b"%s%s" % field for field in label)
            marked = b"".join(b"%s%s%s" % (*field, b"" if field[0] == b"01" else b"\x1d")
                              for field in label).rstrip(b"\x1d")
            try:
                numbers = self.held(row) if isinstance(row, bytes) else ()
                sent = self.library.scan(numbers) if numbers else row
                wanted = {"fnc1-first", "fnc1-inside"}
                if sent != text or numbers[1] != FNC1 or \
                        reading(numbers, "ZXing", wanted) != (marked, frozenset({"GS1"})):
                    raise Refused(f"scan of {list_words(numbers)} sends {sent!r}")
            except Refused as fault:
                self.faults.append(f"zint, {name}: {fault}; the text is {line!r}")
                return
            self.cover(numbers)
            self.meet(tally, "fnc1", numbers, words((sent, ())), words((marked, ("GS1",))))

    def again(self, name, small):
        """A part: the texts of short lists. Zint draws the list, or another with the text."""
        tally = self.tallies.setdefault(name, Counter())
        lists = list(all_lists(range(103), (0, 1))) + list(all_lists(KINDS, (2,)))
        lists = lists[::9] if small else lists
        texts = [self.library.scan(numbers) for numbers in lists]
        drawn = iter(self.rows([text for text in texts if text], ["-b", "20"]))
        empty = ask(self.folder, [b""], ["-b", "20"])[0]
        for numbers, text in zip(lists, texts):
            tally["labels"] += 1
            if not text:
                self.meet(tally, "no-text", numbers, "drawn", f"error {empty}")
                continue
            try:
                other = self.held(next(drawn))
                if self.library.scan(other) != text:
                    raise Refused(f"scan of {list_words(other)} sends another text than {text!r}")
            except Refused as fault:
                self.faults.append(f"zint, {name}: {fault}")
                return
            if other == numbers:
                tally["alike"] += 1
            else:
                self.meet(tally, "own-sets", numbers, "drawn", list_words(other))

    def missing(self, _):
        """What every run has to meet, and did not."""
        wanted = {(name, number) for name in "ABC" for number in range(103)} - NEVER
        for what, lost in [
                ("patterns", [each for each in NUMBERS if each not in self.numbers]),
                ("check numbers", [each for each in CHECKS if each not in self.checks]),
                ("lengths", [each for each in LENGTHS if each not in self.lengths]),
                ("numbers in their sets", sorted(wanted - self.drawn)),
                ("ways", [way for way in WAYS if way not in self.smallest])]:
            if lost:
                self.faults.append(f"zint: never drawn or met, {what} {lost}")
        if self.drawn & NEVER:
            self.faults.append(f"zint draws {sorted(self.drawn & NEVER)}, listed as never drawn")


def upper_texts(most):
    """Every byte, and every text of up to most of a letter without and with its upper bit."""
    yield from (bytes([byte]) for byte in range(256))
    for count in range(2, most + 1):
        yield from map(bytes, itertools.product(b"\x41\xC1", repeat=count))


def repeated(kinds):
    """Every two of these bytes by turns, at every length."""
    for word in itertools.product(kinds, repeat=2):
        for length in range(1, MOST + 3):
            yield (bytes(word) * length)[:length]


def texts_of(random, style, count):
    """Random texts of a style: every length that zint can hold, and a few above."""
    alphabet = STYLES[style]
    most = {"digits": 2 * MOST + 2}.get(style, MOST + 2)
    return [bytes(random.choices(alphabet, k=1 + place % most)) for place in range(count)]


def gs1_labels(random, count):
    """Random GS1 labels: 01 with 14 digits, and 10 and 21 with other data, which FNC1 ends."""
    letters = b"ABCDEFGHIJKLMNOPQRSTUVWXYZabcdefghijklmnopqrstuvwxyz0123456789" + b"0123456789" * 9
    for size in (1, 2):  # the shortest, in order
        yield from ([(b"10", b"%0*d" % (size, number))] for number in range(10 ** size))
    for _ in range(count):
        fields = []
        for identifier in random.sample([b"01", b"10", b"21"], random.randrange(1, 4)):
            size = 14 if identifier == b"01" else random.randrange(1, 12)
            source = b"0123456789" if identifier == b"01" else letters
            fields.append((identifier, bytes(random.choices(source, k=size))))
        yield fields


def run(zint, random, count, small):
    """All parts of zint."""
    plain = ["-b", "20"]
    for style in STYLES:
        zint.texts(f"code128-{style}", texts_of(random, style, count), plain)
    zint.texts("code128-repeated", list(repeated(b" 0a" if small else b" 0a\0\x80\xC1\xE1")), plain)
    zint.texts("code128-upper", list(upper_texts(7 if small else 11)), plain)
    for style in ("set-b", "digits"):
        zint.texts(f"code128b-{style}", texts_of(random, style, count), ["-b", "60"])
    for style in ("set-a", "set-b", "digits"):
        zint.texts(f"init-{style}", texts_of(random, style, count // 4), [*plain, "--init"])
    zint.texts("init-single", [bytes([byte]) for byte in range(128)], [*plain, "--init"])
    zint.gs1("gs1-128", list(gs1_labels(random, count)))
    zint.again("short-lists", small)
