"""Code 128: rows that the library draws, read by another maker's program and held to scan."""
from collections import Counter

from reading import check_of, met, reading, ways_of

NUMBERS = range(106)
CHECKS = range(103)
LENGTHS = {"ZXing": range(2, 4001), "ZBar": range(1, 255)}  # symbols: each has to be read


def words(finding):
    """A reading in words, shortened."""
    if finding is None:
        return "not read"
    data, marks = finding
    text = "nothing" if not data else data.hex(" ").upper()
    text = text if len(text) <= 60 else f"{len(data)} bytes, {text[:44]} ..."
    return " ".join([text, *(f"({mark})" for mark in sorted(marks))])


def list_words(numbers):
    """A list in words: equal numbers at its end are counted."""
    same = len(numbers)
    while same > 1 and numbers[same - 1] == numbers[-1]:
        same -= 1
    head = " ".join(map(str, numbers[:same]))
    if len(numbers) - same > 4:
        return f"{head} and {len(numbers) - same} times {numbers[-1]}"
    return " ".join(map(str, numbers))


class Codes:
    """One reader: what it read, the ways that were met, and what it read otherwise."""

    def __init__(self, library, reader, ways=None):
        self.library, self.reader, self.name = library, reader, reader.name
        self.ways = ways_of(self.name) if ways is None else ways
        self.tallies, self.smallest, self.faults = {}, {}, []
        self.numbers, self.checks, self.lengths = set(), set(), set()

    def seen(self, lists):
        """What the reader finds in the rows of these lists: readings, or None; two are an error."""
        found = self.reader.all([self.library.draw(numbers) for numbers in lists], "code128")
        return [each[0] if len(each) == 1 else tuple(each) or None for each in found]

    def judge(self, numbers, seen):
        """Alike, listed, or the words of a difference that no table has."""
        sent = self.library.scan(numbers), frozenset()
        listed = reading(numbers, self.name, self.ways)
        if seen == listed == sent:
            return "alike"
        if seen == listed and reading(numbers, self.name, frozenset()) == sent:
            return "listed"
        if seen is not None and not isinstance(seen[0], bytes):
            return f"{self.name} finds {len(seen)} labels in one row"
        return (f"{list_words(numbers)}, check {check_of(numbers)}: scan sends {words(sent)}, "
                f"{self.name} gives {words(seen)}, and the table has {words(listed)}")

    def part(self, name, lists):
        """All lists of a part. The first difference is made small, and the part ends there."""
        tally = self.tallies.setdefault(name, Counter())
        for first in range(0, len(lists), 2000):
            some = lists[first:first + 2000]
            for numbers, seen in zip(some, self.seen(some)):
                verdict = self.judge(numbers, seen)
                if verdict not in ("alike", "listed"):
                    self.faults.append(f"{self.name}, {name}: {self.small(numbers, verdict)}")
                    return
                self.count(tally, numbers, seen, verdict)

    def count(self, tally, numbers, seen, verdict):
        """Counts a label, and the numbers and the check that were read in it."""
        tally["labels"] += 1
        tally[verdict] += 1
        if seen is not None:
            self.numbers.update(numbers, [check_of(numbers)])
            self.checks.add(check_of(numbers))
            self.lengths.add(len(numbers))
        if verdict == "alike":
            return
        ways = met(numbers, self.name, self.ways)
        for way in ways:
            tally[way] += 1
            key = len(ways), len(numbers), numbers
            if way not in self.smallest or key < self.smallest[way][0]:
                self.smallest[way] = key, self.library.scan(numbers), seen

    def small(self, numbers, verdict):
        """The words of a difference, made as small as removing and lowering make it."""
        for _ in range(40):
            tries = candidates(numbers)
            verdicts = [self.judge(*each) for each in zip(tries, self.seen(tries))]
            still = [each for each in zip(tries, verdicts) if each[1] not in ("alike", "listed")]
            if not still:
                break
            numbers, verdict = min(still, key=lambda each: (len(each[0]), each[0]))
        return verdict

    def missing(self, small):
        """What a run has to meet, and did not; a small one has not all lengths."""
        for what, wanted, met_with in [("pattern", NUMBERS, self.numbers),
                                       ("check number", CHECKS, self.checks),
                                       ("length", () if small else LENGTHS[self.name],
                                        self.lengths),
                                       ("way", sorted(self.ways), self.smallest)]:
            lost = [each for each in wanted if each not in met_with]
            if lost:
                self.faults.append(f"{self.name}: never read or met, {what} {lost[:9]}")


def candidates(numbers):
    """Smaller lists: parts left out, the START or a number lowered."""
    made, size = set(), max(1, len(numbers) // 2)
    while size:
        for first in range(1, len(numbers), max(size, len(numbers) // 40)):
            made.add(numbers[:first] + numbers[first + size:])
        size //= 2
    for place in range(max(1, len(numbers) - 60), len(numbers)):
        for lower in (0, numbers[place] // 2, numbers[place] - 1):
            made.add(numbers[:place] + (max(0, lower),) + numbers[place + 1:])
    made |= {(start,) + numbers[1:] for start in range(103, numbers[0])}
    made.discard(numbers)
    return sorted(each for each in made if (len(each), each) < (len(numbers), numbers))
