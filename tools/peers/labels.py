"""The symbol lists that the readers are given, part by part."""
import itertools

from reading import FNC1, OWN, SETS, SHIFT, STARTS, check_of

KINDS = (0, 16, 31, 33, 62, 64, 65, 93) + tuple(range(95, 103))  # what behaves in its own way
BOTH = 300  # symbols: up to here every length is tried at both readers, in every style
MOST = 4000
ZBAR_ABOVE = (350, 500, 700)  # zbarimg's pictures may be 16,000 pixels wide, some 720 symbols
ONES = ("A", "B", "C", "sets", "shift", "fnc1")
STYLES = (*ONES, "any")


def label(random, count, style):
    """A random list of count symbols, its START among them."""
    start = {"A": 103, "B": 104, "C": 105}.get(style) or random.choice(list(STARTS))
    numbers, now = [start], STARTS[start]
    while len(numbers) < count:
        number = one(random, now, style, numbers[-1])
        if number in SETS and not (now == "C" and number < 100):
            now = SETS[number]
        numbers.append(number)
    return tuple(numbers)


def one(random, now, style, last):
    """The next number in this set. Any: function symbols and switches to the own set, too."""
    dice = random.random()
    if style == "any":
        return random.randrange(103) if dice < 0.6 else random.randrange(95, 103)
    if style == "fnc1" and dice < 0.15:
        return FNC1
    if style == "shift" and dice < 0.2 and now != "C" and last != SHIFT:
        return SHIFT
    if style not in "ABC" and dice > 0.85 and (last != SHIFT or now == "C"):
        return random.choice([OWN[name] for name in OWN if name != now])
    return random.randrange(100 if now == "C" else 96)


def all_lists(numbers, counts):
    """Every list of a START and as many of these numbers, in order."""
    for count in counts:
        for start in STARTS:
            for rest in itertools.product(numbers, repeat=count):
                yield (start, *rest)


def lengths(random, lowest, most):
    """Every length: in every style up to BOTH, with zeros too, and above in one style each."""
    for count in range(lowest, most + 1):
        if count > BOTH:  # no Shift at the end: with a check of 98 ZXing would not read this length
            numbers = label(random, count, ONES[count % len(ONES)])
            yield numbers[:-1] + (0,) if numbers[-1] == SHIFT else numbers
            continue
        for style in STYLES:
            yield label(random, count, style)
        yield (103,) + (0,) * (count - 1)
        yield (105,) + (0,) * (count - 1)


def parts(random, count, small):
    """The parts: name, lists and the readers that get them. Small is for the self-test."""
    both = ("ZXing", "ZBar")
    yield "all-up-to-2", list(all_lists(range(103), (0, 1) if small else (0, 1, 2))), both
    yield "kinds-3", list(all_lists(KINDS, (2,) if small else (3,))), both
    for style in ("sets", "shift", "fnc1", "any"):
        yield f"random-{style}", [label(random, random.randrange(2, 61), style)
                                  for _ in range(count)], both
    if small:
        some = [(103, 98, 96, 64), (103, 98, 98, 0), (103, 98, 100, 64), (103,) + (0,) * 254,
                (105,) + (0,) * 127]
        yield "lengths", some + [label(random, n, "sets") for n in range(1, 300, 20)], both
        return
    yield "lengths", list(lengths(random, 1, BOTH)), both
    yield "lengths-above", list(lengths(random, BOTH + 1, MOST)), ("ZXing",)
    yield "lengths-above", [label(random, n, style) for n in ZBAR_ABOVE for style in STYLES], (
        "ZBar",)
