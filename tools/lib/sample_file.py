"""The command file of `flow sample NUMBER ORDERS`, made by the formats alone. The program's file is compared with it."""
import struct

from formats import MONEY, UNITS, Terms, order_body, record


class Draws:
    """Pseudorandom numbers."""

    def __init__(self, number):
        self.state = number

    def below(self, end):
        self.state = (self.state * 6364136223846793005 + 1442695040888963407) % 2**64
        return self.state // 2**33 % end


def order(draws, place):
    entries = 1 + draws.below(3)
    first = draws.below(9 - entries)
    row = []
    for asset in range(first, first + entries):
        weight = 1 + draws.below(4)
        row.append((asset, -weight if draws.below(2) == 1 else weight))
    middle = sum(weight * 1000 * (asset + 1) for asset, weight in row) + draws.below(41) - 20
    half = 1 + draws.below(50)
    rate = 1 + draws.below(1000)
    turns = 1 + draws.below(20)
    return record(7, order_body(Terms(1 + place % 64, middle - half, middle + half, rate, rate * turns, row)))


def sample_records(number, orders):
    """The records of the sample, one after the other."""
    for asset in range(8):
        yield record(1, f"A{asset}".ljust(8).encode())
    for _ in range(64):
        yield record(2)
    for account in range(1, 65):
        yield record(3, struct.pack(MONEY, account, 2**50))
        for asset in range(8):
            yield record(4, struct.pack(UNITS, account, asset, 2**50))
    draws = Draws(number)
    for place in range(orders):
        yield order(draws, place)
    for _ in range(4):
        yield record(9, struct.pack(">I", 1000))


def sample_file(number, orders):
    """The command file of the sample."""
    return b"FLOWCMD1" + b"".join(sample_records(number, orders))
