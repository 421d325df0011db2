"""What a symbol list says: as scan has it, and way by way as a reader says it otherwise.

A reading is a pair, the bytes and the marks (GS1, AIM, initialise); None stands for no reading.
Scan knows no marks, so its reading has none. WAYS is the one table of the known differences: a
reader has all of its ways at once, and any other difference is an error."""
from collections import namedtuple

SHIFT, FNC1, FNC3 = 98, 102, 96
OWN = {"A": 101, "B": 100, "C": 99}  # what switches to a set; in A and B its own is FNC4
SETS = {number: name for name, number in OWN.items()}
STARTS = {103: "A", 104: "B", 105: "C"}
OTHER = {"A": "B", "B": "A"}
ZBAR_ROOM = 256  # what ZBar keeps: START, data, check, stop, and a second byte for each pair

Way = namedtuple("Way", "reader name words")

WAYS = (
    Way("ZXing", "start-alone", "a START with no data is not read"),
    Way("ZXing", "fnc1-first", "FNC1 before any text: marked GS1 (]C1)"),
    Way("ZXing", "fnc1-second", "FNC1 after one letter, or in set C after two digits: marked AIM "
        "(]C2)"),
    Way("ZXing", "fnc1-inside", "FNC1 elsewhere sends GS (1D)"),
    Way("ZXing", "fnc3", "FNC3 is marked as initialisation"),
    Way("ZXing", "fnc4", "FNC4: upper half, 128 is added"),
    Way("ZXing", "two-shifts", "two Shifts one after the other are not read"),
    Way("ZXing", "shift-switch", "Shift before 99, 100 or 101: the set is another afterwards"),
    Way("ZXing", "check-symbol", "the check is taken for data: 96 is FNC3, 102 is FNC1, and "
        "98 after Shift is a second Shift"),
    Way("ZBar", "fnc1-first", "FNC1 at place 1: marked GS1"),
    Way("ZBar", "fnc1-second", "FNC1 at place 2, but after a pair of set C: marked AIM"),
    Way("ZBar", "fnc1-inside", "FNC1 elsewhere but at the end sends GS (1D)"),
    Way("ZBar", "shift-kept", "Shift before FNC1, FNC2 or FNC3 shifts the symbol after these"),
    Way("ZBar", "pairs-lost", "pairs of set C for which 256 bytes have no room (two for a pair, "
        "one for any other symbol) are left out"),
    Way("ZBar", "too-long", "more than 254 symbols are not read"),
)


def check_of(numbers):
    """The check number of a list."""
    return (numbers[0] + sum(place * number for place, number in enumerate(numbers))) % 103


class Reading:
    """The state of one reading."""

    def __init__(self, numbers, reader, ways):
        self.numbers, self.reader, self.ways = numbers, reader, ways
        self.set, self.shifted = STARTS[numbers[0]], False
        self.next_upper, self.all_upper = False, False
        self.text, self.marks = bytearray(), frozenset()
        self.run, self.moved, self.readable = 0, 0, True

    def data(self, number):
        """A number below 96 in set A or B, or a pair in set C."""
        if self.set == "C":
            self.text += b"%02d" % number
            self.run += 1
            return
        name = OTHER[self.set] if self.shifted else self.set
        low = number + 32 if name == "B" or number < 64 else number - 64
        upper = self.next_upper != self.all_upper
        self.text.append(low + 128 if upper else low)
        self.next_upper = False

    def fnc1(self, place):
        """FNC1: scan sends nothing."""
        which = self.fnc1_zxing() if self.reader == "ZXing" else self.fnc1_zbar(place)
        if which not in self.ways:
            return
        if which == "fnc1-inside":
            self.text.append(0x1D)
        elif self.reader == "ZXing":  # one identifier: the later one stays
            kept = self.marks & {"initialise"}
            self.marks = kept | {"GS1" if which == "fnc1-first" else "AIM"}
        else:
            self.marks |= {"GS1" if which == "fnc1-first" else "AIM"}

    def fnc1_zxing(self):
        """ZXing goes by the text so far."""
        if not self.text:
            return "fnc1-first"
        if self.set == "C":
            second = len(self.text) == 2 and self.text.isdigit()
        else:
            second = len(self.text) == 1 and self.text.isalpha()
        return "fnc1-second" if second else "fnc1-inside"

    def fnc1_zbar(self, place):
        """ZBar goes by the place, which pairs of set C move on; at the end FNC1 sends nothing."""
        if place == 1:
            return "fnc1-first"
        if place + self.moved == 2:
            return "fnc1-second"
        return "fnc1-inside" if place < len(self.numbers) - 1 else None

    def fnc4(self):
        """FNC4: scan sends nothing. One is for the next character, two for all that follow."""
        if "fnc4" in self.ways:
            if self.next_upper:
                self.all_upper = not self.all_upper
            self.next_upper = not self.next_upper

    def switch(self, number):
        """99, 100 or 101: a switch, or FNC4 where it would switch to the set in use."""
        if self.shifted and "shift-switch" in self.ways:
            self.switch_shifted(number)
        elif SETS[number] == self.set:
            self.fnc4()
        else:
            self.set = SETS[number]

    def switch_shifted(self, number):
        """ZXing exchanges A and B for the one symbol and back, whatever it switched to."""
        was = self.set
        if SETS[number] == OTHER[was]:
            self.fnc4()
        else:
            self.set = OTHER[was] if SETS[number] == was else "A"

    def run_ends(self):
        """After the last of some pairs: ZBar makes two bytes of each, if there is room for all."""
        room = ZBAR_ROOM - len(self.numbers) - 2 - self.moved
        if self.run > room and "pairs-lost" in self.ways:
            del self.text[-2 * self.run:]
        else:
            self.moved += self.run
        self.run = 0

    def symbol(self, place, number):
        """One symbol after the START."""
        pair = self.set == "C" and number < 100
        if self.run and not pair:
            self.run_ends()
        if pair or number < 96:
            self.data(number)
        elif number == FNC1:
            self.fnc1(place)
        elif number == SHIFT:
            self.readable &= not (self.shifted and "two-shifts" in self.ways)
        elif number in SETS:
            self.switch(number)
        elif number == FNC3 and "fnc3" in self.ways:
            self.marks |= {"initialise"}
        kept = self.shifted and number in (96, 97, FNC1) and "shift-kept" in self.ways
        self.shifted = not pair and number == SHIFT or kept

    def whole(self):
        """The reading of the whole list."""
        for place, number in enumerate(self.numbers[1:], 1):
            self.symbol(place, number)
        if self.run:
            self.run_ends()
        if "check-symbol" in self.ways:
            length = len(self.text)
            self.symbol(len(self.numbers), check_of(self.numbers))
            del self.text[length:]
        if len(self.numbers) == 1 and "start-alone" in self.ways:
            return None
        if len(self.numbers) + 2 > ZBAR_ROOM and "too-long" in self.ways:
            return None
        return (bytes(self.text), self.marks) if self.readable else None


def ways_of(reader):
    """The names of a reader's ways."""
    return frozenset(way.name for way in WAYS if way.reader == reader)


def reading(numbers, reader, ways):
    """What a list says to a reader with these ways; with none, what scan sends."""
    return Reading(numbers, reader, ways).whole()


def met(numbers, reader, ways):
    """The ways without which the reading would be another one."""
    with_all = reading(numbers, reader, ways)
    return [way for way in sorted(ways) if reading(numbers, reader, ways - {way}) != with_all]
