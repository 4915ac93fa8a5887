"""What the task of the walkthrough on two books must print, worked out from the published definitions alone.

As in the walkthrough's model, answers come from the chains, listed one by one. It is compared with what is stored by

    python3 tests/two_books_model.py | diff - crates/two_books/stdout
"""

from tariff_model import *


def refused(number):
    return f"refused (number {number})"


def enter(upper, lower, factor):
    if upper == lower:
        return refused(2)
    if (upper, lower) in lines:
        return refused(3)
    if chains(lower, upper):
        return refused(4)
    lines[upper, lower] = factor
    return "entered"


def strike(upper, lower):
    if (upper, lower) not in lines:
        return refused(5)
    del lines[upper, lower]
    return "struck"


def count(upper, lower):
    total = signed(sum(product(chain) for chain in chains(upper, lower)))
    support = sum(1 for (start, end) in lines if end == lower and chains(upper, start))
    return f"{total} (over {support})"


def need(upper, lower):
    if (upper, lower) not in lines:
        return refused(5)
    return "not needed" if any(len(chain) > 1 for chain in chains(upper, lower)) else "needed"


def say(question, answer):
    """Both books have to give the one answer that the rules have."""
    print(f"  {question}: {answer} kept, {answer} plain")


def say_entering(upper, lower, factor):
    say(f"{BLOCKS[upper]} takes in {BLOCKS[lower]} x {factor}", enter(upper, lower, factor))


def say_all():
    print("How often each block counts in an airport trip (over how many lines that end at it):")
    for lower in (BASE_CHARGE, LUGGAGE, DISCOUNT):
        say(BLOCKS[lower], count(AIRPORT_TRIP, lower))
    print("What rests on luggage:")
    for upper, name in enumerate(BLOCKS):
        say(name, "yes" if chains(upper, LUGGAGE) else "no")
    print("Which lines show the whole reach:")
    for upper, lower, _ in TARIFF:
        say(f"{BLOCKS[upper]} to {BLOCKS[lower]}", need(upper, lower))


size = len(BLOCKS)
print(f"A tariff is opened in two books: {size} blocks kept, {size} blocks plain. Its lines:")
for line in TARIFF:
    say_entering(*line)
say_all()
print("A line that would close a circle:")
say_entering(LUGGAGE, AIRPORT_TRIP, 1)
print("Luggage becomes free in the airport extra and in the day fare:")
for upper in (AIRPORT_EXTRA, DAY_FARE):
    say(f"{BLOCKS[upper]} to {BLOCKS[LUGGAGE]}", strike(upper, LUGGAGE))
say_all()
