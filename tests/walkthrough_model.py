"""What the walkthrough must print, worked out from the published definitions alone.

It shares no code with the crates: chains are listed one by one, a circle is looked for among them, and a total adds up
the products along each. Run it from the project's root to compare with what is stored:

    python3 tests/walkthrough_model.py | diff - crates/walkthrough/stdout
"""

from tariff_model import *


def enter(upper, lower, factor):
    line = f"  {BLOCKS[upper]} takes in {BLOCKS[lower]} x {factor}"
    if upper == lower:
        print(f"{line}: refused, number 2")
    elif (upper, lower) in lines:
        print(f"{line}: refused, number 3")
    elif chains(lower, upper):
        print(f"{line}: refused, number 4")
    else:
        lines[upper, lower] = factor
        print(line)


def strike(upper, lower):
    if (upper, lower) not in lines:
        print(f"  {BLOCKS[upper]} takes in {BLOCKS[lower]}: not struck, number 5")
        return
    del lines[upper, lower]
    print(f"  {BLOCKS[upper]} no longer takes in {BLOCKS[lower]}")


def say_all():
    print("How often each block counts in an airport trip (over how many lines that end at it):")
    for block in (BASE_CHARGE, LUGGAGE, DISCOUNT):
        total = signed(sum(product(chain) for chain in chains(AIRPORT_TRIP, block)))
        support = sum(1 for (start, end) in lines if end == block and chains(AIRPORT_TRIP, start))
        print(f"  {BLOCKS[block]}: {total} (over {support})")
    print("What rests on luggage:")
    for block, name in enumerate(BLOCKS):
        if chains(block, LUGGAGE):
            print(f"  {name}")
    print("Which lines show the whole reach:")
    for upper, lower, _ in TARIFF:
        line = f"  {BLOCKS[upper]} to {BLOCKS[lower]}"
        if (upper, lower) not in lines:
            print(f"{line}: refused, number 5")
        elif any(len(chain) > 1 for chain in chains(upper, lower)):
            print(f"{line}: not needed")
        else:
            print(f"{line}: needed")


print(f"A tariff of {len(BLOCKS)} blocks is opened. Its lines:")
for line in TARIFF:
    enter(*line)
say_all()
print("A line that would close a circle:")
enter(LUGGAGE, AIRPORT_TRIP, 1)
print("Luggage becomes free in the airport extra and in the day fare:")
strike(AIRPORT_EXTRA, LUGGAGE)
strike(DAY_FARE, LUGGAGE)
say_all()
