"""What the comparison must print, worked out from the published definitions alone.

It shares no code with the crates: a circle is looked for along the lines, a total comes from T = I + L·T, and a line is
needed where no other line from its upper block leads on to its lower one. The calls are drawn from the same sequence
as the program's. Run it from the project's root to compare with what is stored:

    python3 tests/comparison_model.py | diff - crates/comparison/stdout
"""

from collections import Counter

SEED = 2026
SIZES = [1, 5, 64]
CALLS = 5000
CALL_MIX = ["enter"] * 4 + ["strike"] * 3 + ["factor", "reach", "reach", "support", "support", "need", "total", "total"]
SOURCE_MIX = ["zero"] + ["one"] * 3 + ["small code"] * 2 + ["any code"] * 2
SMALL_CODES = 8
OPPOSITES = 2
FAR_LINES = 8
NEAR_BLOCKS = 6
NO_BLOCK, SAME_BLOCK, LINE_STANDS, CIRCLE, NO_LINE = 1, 2, 3, 4, 5


class Sequence:
    def __init__(self, seed):
        self.state = seed

    def next(self):
        self.state = (self.state * 6364136223846793005 + 1442695040888963407) % 2**64
        return self.state

    def below(self, bound):
        return self.next() // 2**32 % bound

    def one_of(self, mix):
        return mix[self.below(len(mix))]


class Whole:
    """Numbers modulo 2 to the 32; the code of a number is its remainder."""

    name, width, zero, one = "whole", 32, 0, 1
    decode = code = staticmethod(lambda factor: factor)
    add = staticmethod(lambda x, y: (x + y) % 2**32)
    opposite = staticmethod(lambda x: -x % 2**32)
    multiply = staticmethod(lambda x, y: x * y % 2**32)


class Depth:
    """Four numbers modulo 4096, multiplied like polynomials cut off after the fourth place."""

    name, width, zero, one = "depth", 48, (0, 0, 0, 0), (1, 0, 0, 0)
    decode = staticmethod(lambda code: tuple(code // 4096**place % 4096 for place in (3, 2, 1, 0)))
    code = staticmethod(lambda x: sum(number * 4096 ** (3 - place) for place, number in enumerate(x)))
    add = staticmethod(lambda x, y: tuple((i + j) % 4096 for i, j in zip(x, y)))
    opposite = staticmethod(lambda x: tuple(-i % 4096 for i in x))
    multiply = staticmethod(
        lambda x, y: tuple(sum(x[i] * y[place - i] for i in range(place + 1)) % 4096 for place in range(4))
    )


class Book:
    def __init__(self, kind, size):
        self.kind, self.size, self.lines = kind, size, {}

    def lower_blocks(self, upper):
        return [lower for lower in range(self.size) if (upper, lower) in self.lines]

    def reached(self, upper):
        seen, open_ends = {upper}, [upper]
        while open_ends:
            found = set(self.lower_blocks(open_ends.pop())) - seen
            seen |= found
            open_ends += found
        return seen

    def enter(self, a, b, factor):
        if a == b:
            return SAME_BLOCK
        if (a, b) in self.lines:
            return LINE_STANDS
        if a in self.reached(b):
            return CIRCLE
        self.lines[a, b] = factor
        return "entered", 0

    def strike(self, a, b):
        if (a, b) not in self.lines:
            return NO_LINE
        del self.lines[a, b]
        return "struck", 0

    def factor(self, a, b):
        return ("factor", self.kind.code(self.lines[a, b])) if (a, b) in self.lines else NO_LINE

    def reach(self, a, b):
        return "holds" if b in self.reached(a) else "fails", 0

    def support(self, a, b):
        reached = self.reached(a)
        return "support", sum(1 for upper, lower in self.lines if lower == b and upper in reached)

    def need(self, a, b):
        if (a, b) not in self.lines:
            return NO_LINE
        detour = any(b in self.reached(c) for c in self.lower_blocks(a) if c != b)
        return "fails" if detour else "holds", 0

    def total(self, a, b):
        known = {}

        def total_from(block):
            if block not in known:
                total = self.kind.one if block == b else self.kind.zero
                for lower in self.lower_blocks(block):
                    product = self.kind.multiply(self.lines[block, lower], total_from(lower))
                    total = self.kind.add(total, product)
                known[block] = total
            return known[block]

        return "factor", self.kind.code(total_from(a))

    def answer(self, call, a, b, *factor):
        if a >= self.size or b >= self.size:
            return NO_BLOCK
        return getattr(self, call)(a, b, *factor)


def draw_pair(sequence, size):
    return sequence.below(size + 1), sequence.below(size + 1)


def draw_line(sequence, size):
    if sequence.below(FAR_LINES) == 0:
        return draw_pair(sequence, size)
    upper = sequence.below(size + 1)
    return upper, (upper + sequence.below(NEAR_BLOCKS) + 1) % (size + 1)


def draw_factor(sequence, kind):
    source = sequence.one_of(SOURCE_MIX)
    if source == "zero":
        factor = kind.zero
    elif source == "one":
        factor = kind.one
    elif source == "small code":
        factor = kind.decode(sequence.below(SMALL_CODES))
    else:
        factor = kind.decode(sequence.next() // 2 ** (64 - kind.width))
    return kind.opposite(factor) if sequence.below(OPPOSITES) == 0 else factor


def draw_call(sequence, kind, size):
    call = sequence.one_of(CALL_MIX)
    if call in ("reach", "support", "total"):
        return call, *draw_pair(sequence, size)
    pair = draw_line(sequence, size)
    return (call, *pair, draw_factor(sequence, kind)) if call == "enter" else (call, *pair)


def run(sequence, kind, size):
    book = Book(kind, size)
    counts, sums = Counter(), Counter()
    for _ in range(CALLS):
        answer = book.answer(*draw_call(sequence, kind, size))
        if isinstance(answer, int):
            counts[answer] += 1
        else:
            counts[answer[0]] += 1
            sums[answer[0]] += answer[1]
    refused = sum(counts[number] for number in range(1, 6))
    print(
        f"size {size}, {kind.name} factors: {CALLS} calls answered alike, {CALLS - refused} granted, {refused} refused"
    )
    print(
        f"  granted: {counts['entered']} lines entered, {counts['struck']} struck,"
        f" {counts['holds']} times yes, {counts['fails']} times no,"
        f" {counts['support']} supports (sum {sums['support']}),"
        f" {counts['factor']} factors and totals (sum of codes {sums['factor'] % 2**64})"
    )
    reasons = ["no block", "same block", "line stands", "circle", "no line"]
    print("  refused:", ", ".join(f"{counts[n + 1]} by number {n + 1} ({reason})" for n, reason in enumerate(reasons)))


sequence = Sequence(SEED)
for size in SIZES:
    run(sequence, Whole, size)
    run(sequence, Depth, size)
