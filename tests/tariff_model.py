"""The town's tariff and the chains of its lines, for the models of the programs that tell of it.

It shares no code with the crates: chains are listed one by one, and each is the list of its factors.
"""

BLOCKS = ["day fare", "airport trip", "base charge", "luggage", "airport extra", "discount"]
DAY_FARE, AIRPORT_TRIP, BASE_CHARGE, LUGGAGE, AIRPORT_EXTRA, DISCOUNT = range(6)
TARIFF = [
    (DAY_FARE, BASE_CHARGE, 1),
    (DAY_FARE, LUGGAGE, 2),
    (AIRPORT_EXTRA, LUGGAGE, 1),
    (AIRPORT_TRIP, DAY_FARE, 1),
    (AIRPORT_TRIP, AIRPORT_EXTRA, 3),
    (AIRPORT_TRIP, LUGGAGE, 4),
    (AIRPORT_TRIP, DISCOUNT, -2),
]

lines = {}


def chains(upper, lower):
    """Every chain of lines from one block to another, each as the list of its factors."""
    found = [[]] if upper == lower else []
    for (start, end), factor in sorted(lines.items()):
        if start == upper:
            found += [[factor] + rest for rest in chains(end, lower)]
    return found


def product(factors):
    value = 1
    for factor in factors:
        value *= factor
    return value


def signed(value):
    """The remainder of a whole number in signed 32 bits."""
    return (value + 2**31) % 2**32 - 2**31
