"""Families of books whose orders name several assets, each drawn from a number: one batch a file. It goes by the formats alone."""
import struct

from formats import MONEY, UNITS, Terms, order_body, record
from sample_file import Draws, sample_records

ACCOUNTS, BUDGET = 4, 1000


def sign(draws):
    return 1 - 2 * draws.below(2)


def distinct(draws, assets, count):
    """So many assets, in their order."""
    left = list(range(assets))
    return sorted(left.pop(draws.below(len(left))) for _ in range(count))


def of_an_index(draws, assets):
    """A third of the orders name all assets, bought or sold together, and the others one of them."""
    weight = sign(draws)
    if draws.below(3) == 0:
        return [(asset, weight) for asset in range(assets)]
    return [(draws.below(assets), weight)]


def of_switches(draws, assets):
    """Each order buys one asset and sells another, and many share assets."""
    first, second = distinct(draws, assets, 2)
    weight = sign(draws)
    return [(first, weight), (second, -weight)]


def of_baskets(draws, assets):
    """Each order buys, or sells, two to six assets together."""
    weight = sign(draws)
    return [(asset, weight * (1 + draws.below(4))) for asset in distinct(draws, assets, 2 + draws.below(5))]


def of_spreads(draws, assets):
    """Each order buys an asset and sells the next, or the other way round, but for a tenth, which name one asset."""
    weight, first = sign(draws), draws.below(assets - 1)
    return [(first, weight)] if draws.below(10) == 0 else [(first, weight), (first + 1, -weight)]


# What an order names, and the number of assets, by the name of the family.
FAMILIES = {"index": (of_an_index, 16), "switches": (of_switches, 8), "baskets": (of_baskets, 12), "spreads": (of_spreads, 12)}


def order(draws, account, row):
    """An order around what its assets are worth: 500 ticks the first, and 100 more each next one."""
    middle = sum(weight * (500 + 100 * asset) for asset, weight in row) + draws.below(41) - 20
    half, rate = 1 + draws.below(20), 1 + draws.below(1000)
    return record(7, order_body(Terms(account, middle - half, middle + half, rate, rate * 10, row)))


def book_records(family, number, orders):
    """The records of a file with so many orders of a family, drawn from the number on."""
    if family == "sample":
        yield from sample_records(number, orders)
        return
    row_of, assets = FAMILIES[family]
    yield from (record(1, f"A{asset}".ljust(8).encode()) for asset in range(assets))
    yield from [record(2)] * ACCOUNTS
    for account in range(1, ACCOUNTS + 1):
        yield record(3, struct.pack(MONEY, account, 1 << 50))
        yield from (record(4, struct.pack(UNITS, account, asset, 1 << 50)) for asset in range(assets))
    draws = Draws(number)
    for place in range(orders):
        yield order(draws, 1 + place % ACCOUNTS, row_of(draws, assets))
    yield record(9, struct.pack(">I", BUDGET))
