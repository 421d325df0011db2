"""Holds the library to programs of other makers: bin/peers builds the library and calls this.

python3 peers.py LIBRARY [--seed N] [--count N] [--self-test]"""
import random
import subprocess
import sys
import tempfile
import time
from collections import Counter

import ean13
import labels
import zint
from codes import Codes, list_words, words
from library import Library
from reading import WAYS, ways_of
from readers import ZBar, ZXing

SMALL = 130  # the count of the self-test: every length of texts, once or twice
PLANTS = {  # what is wrong on purpose, and which parts have to find it
    "patterns": ("ZXing", "ZBar", "zint"),
    "check": ("ZXing", "ZBar", "zint"),
    "scan": ("ZXing", "ZBar", "zint"),
    "listed": ("ZXing", "ZBar"),
    "cover": ("ZXing", "ZBar"),
    "met": ("ZXing", "ZBar"),
    "zint": ("zint",),
    "ean13": ("ZXing, EAN-13", "ZBar, EAN-13", "zint, EAN-13"),
}
LEFT_OUT = {"listed": {"fnc4", "shift-kept"}}  # of the listed ways, one of each reader


def say(line=""):
    """A line at once, since a run takes minutes."""
    print(line, flush=True)


def ways_for(name, plant):
    """A reader's ways; planted, one of them is left out or one is there that never comes."""
    ways = ways_of(name) - LEFT_OUT.get(plant, set())
    return ways | {"never"} if plant == "met" else ways


class Run:
    """One run of all parts."""

    def __init__(self, library, folder, seed, count, plant=None, small=False):
        self.seed, self.count, self.plant, self.small = seed, count, plant, small
        self.library = Library(library, plant)
        self.readers = [ZXing(folder), ZBar(folder)]
        self.codes = {reader.name: Codes(self.library, reader, ways_for(reader.name, plant))
                      for reader in self.readers}
        self.zint = zint.Zint(self.library, folder, plant)
        self.ean13 = ean13.Ean13(self.library, folder, self.readers)

    def all(self):
        """Runs all parts; the faults."""
        chance = random.Random(self.seed)
        for name, lists, readers in labels.parts(chance, self.count, self.small):
            if self.plant == "cover":  # no label with 77 is shown
                lists = [each for each in lists if 77 not in (*each, labels.check_of(each))]
            for reader in readers:
                if not (self.plant and self.codes[reader].faults):  # one is enough there
                    self.codes[reader].part(name, lists)
        zint.run(self.zint, chance, self.count, self.small)
        for part in (*self.codes.values(), self.zint):
            if not part.faults:
                part.missing(self.small)
        self.ean13.run(ean13.numbers_of(chance, self.count))
        parts = (*self.codes.values(), self.zint, self.ean13)
        return [fault for part in parts for fault in part.faults]

    def table(self):
        """What was compared, part by part."""
        line = "{:<8} {:<20} {:>8} {:>8} {:>8}  {}".format
        say(line("program", "part", "labels", "alike", "listed", "of these, by way"))
        for name, part in (*self.codes.items(), ("zint", self.zint)):
            total = sum(part.tallies.values(), start=Counter())
            for title, tally in (*part.tallies.items(), ("all", total)):
                ways = ", ".join(f"{way} {count}" for way, count in sorted(tally.items())
                                 if way not in ("labels", "alike", "listed"))
                say(line(name, title, tally["labels"], tally["alike"], tally["listed"], ways))
        for name, tally in self.ean13.tallies.items():
            say(line(name, "EAN-13", tally["labels"], tally["alike"], 0, ""))

    def covered(self):
        """What was covered, and the smallest input of each way."""
        for name, part in (*self.codes.items(), ("zint", self.zint)):
            say(f"{name}: {len(part.numbers)} of 106 patterns, {len(part.checks)} of 103 check "
                f"numbers, {len(part.lengths)} lengths from {min(part.lengths)} to "
                f"{max(part.lengths)} symbols")
        never = ", ".join(f"{number} in set {name}" for name, number in sorted(zint.NEVER))
        say(f"zint: every number in every set, but never {never}")
        say()
        for way in WAYS:
            (_, _, numbers), sent, seen = self.codes[way.reader].smallest[way.name]
            say(f"{way.reader} {way.name}: {way.words}. Smallest: {list_words(numbers)}; scan "
                f"sends {words((sent, ()))}, {way.reader} gives {words(seen)}")
        for way, meaning in zint.WAYS.items():
            (_, least), ours, theirs = self.zint.smallest[way]
            if way == "too-long":
                shown = f"{len(least)} characters, {least[:2].hex(' ').upper()} by turns"
            else:
                shown = list_words(least)
            say(f"zint {way}: {meaning}. Smallest: {shown}; ours {ours}, zint's {theirs}")


def version(package):
    """The version of a Debian package, since not every program says its own."""
    done = subprocess.run(["dpkg-query", "-W", "-f", "${Version}", package], check=False,
                          stdout=subprocess.PIPE, stderr=subprocess.DEVNULL)
    return f"{package} {done.stdout.decode() or '(unknown version)'}"


def whole(library, folder, options):
    """A whole run, with its tables; the status."""
    began = time.monotonic()
    run = Run(library, folder, options["--seed"], options["--count"], options["--plant"])
    faults = run.all()
    run.table()
    say()
    if not faults:
        run.covered()
    for fault in faults:
        say(f"DIFFERENCE {fault}")
    say()
    say("; ".join(map(version, ("zint", "zxing-cpp-tools", "zbar-tools"))))
    say(f"seed {options['--seed']}, count {options['--count']}, "
        f"{time.monotonic() - began:.0f} seconds")
    say(f"{len(faults)} differences that are not listed" if faults else "all alike, or listed")
    return 1 if faults else 0


def self_test(library, folder):
    """A small run that finds nothing, and one for each thing that is planted; the status."""
    faults = Run(library, folder, 1, SMALL, small=True).all()
    good = not faults
    say(f"nothing planted: {'found nothing' if good else faults}")
    for plant, finders in PLANTS.items():
        faults = Run(library, folder, 1, SMALL, plant, small=True).all()
        say(f"planted {plant}:")
        for name in finders:
            said = [fault for fault in faults if fault.startswith((f"{name}, ", f"{name}: "))]
            good &= bool(said)
            say(f"    found: {said[0]}"[:120] if said else f"    NOT FOUND by {name}")
    say("self-test passed" if good else "self-test FAILED")
    return 0 if good else 1


def main(arguments):
    """The arguments were looked at by bin/peers."""
    library, options = arguments[0], {"--seed": 1, "--count": 2000, "--plant": None}
    testing = arguments[1:] == ["--self-test"]
    if not testing:
        for name, value in zip(arguments[1::2], arguments[2::2]):
            options[name] = value if name == "--plant" else int(value)
    if options["--plant"] not in (None, *PLANTS):
        sys.stderr.write(f"bin/peers: --plant takes one of {', '.join(PLANTS)}\n")
        return 2
    with tempfile.TemporaryDirectory() as folder:
        try:
            return self_test(library, folder) if testing else whole(library, folder, options)
        except RuntimeError as trouble:  # a program said what none of its lines should say
            sys.stderr.write(f"bin/peers: {trouble}\n")
            return 1


if __name__ == "__main__":
    sys.exit(main(sys.argv[1:]))
