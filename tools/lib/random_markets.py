"""Markets as checkpoints have them, altered in a part or some. Many are still consistent. All go by the state of `random`."""
import random

from formats import VERSIONS

AMOUNTS = [-(1 << 62), -(1 << 61), -1, 0, 1, 1 << 20, 1 << 59, 1 << 60, (1 << 60) + 1, 1 << 61, 1 << 62]
CREDITS = [0, 1, 1 << 20, 1 << 40, 1 << 40, (1 << 40) + 1, (1 << 64) - 1]
BATCHES = [0, 1, 2, 100, (1 << 24) - 1, 1 << 24, (1 << 24) + 1, (1 << 32) - 1]
NUMBERS = [0, 1, 2, 10, 1 << 32, (1 << 63) - 2, (1 << 63) - 1, 1 << 63, (1 << 64) - 1]
PRICES = [0, 1, -1, 1 << 39, -(1 << 39), 1 << 60, (1 << 60) + 1, -(1 << 62), 1 << 62, (1 << 62) + 1, -(1 << 63)]
LIMITS = [0, 1, -1, 100, -100, 1 << 28, (1 << 28) + 1, -(1 << 28), -(1 << 28) - 1, (1 << 63) - 1]
RATES = [0, 1, 1000, 1 << 24, (1 << 24) + 1, (1 << 32) - 1]
CAPS = [0, 1, 2, 1000, 1 << 40, (1 << 40) + 1, (1 << 64) - 1]
WEIGHTS = [0, 1, -1, 4096, -4096, 4097, -(1 << 31)]
TICKERS = [b"NEW     ", b"AAPL    ", b"new     ", b" A      ", b"        ", b"ABCDEFGH"]


def at(places):
    """A place of a list that isn't empty."""
    return random.randrange(len(places))


def other(items, place, item):
    """A list with another item at a place."""
    return [*items[:place], item, *items[place + 1:]]


def more(amounts, place, by):
    """Amounts that are so much more at a place, and fit their fields."""
    room = 1 << (127 if place == 0 else 63)
    return other(amounts, place, min(max(amounts[place] + by, -room), room - 1))


def amount(place):
    return random.choice(AMOUNTS) << random.choice([0, 32, 40] if place == 0 else [0])


def with_deposit(kept):
    """An amount that an account has, and the total with it, most often."""
    number, place = at(kept.accounts), at(kept.totals)
    by, account = amount(place), kept.accounts[number]
    accounts = other(kept.accounts, number, account._replace(amounts=more(account.amounts, place, by)))
    totals = more(kept.totals, place, by) if random.random() < 0.9 else kept.totals
    return kept._replace(accounts=accounts, totals=totals)


def with_own(kept):
    """An amount of the exchange's, and the total with it, most often."""
    place = at(kept.totals)
    by = random.choice([1, -1, kept.batches << 31, -(kept.batches << 31), kept.batches << 99])
    totals = more(kept.totals, place, by) if random.random() < 0.9 else kept.totals
    return kept._replace(exchange=more(kept.exchange, place, by), totals=totals)


def with_credit(kept):
    number, place = at(kept.accounts), at(kept.totals)
    account = kept.accounts[number]
    made = account._replace(credits=other(account.credits, place, random.choice(CREDITS)))
    return kept._replace(accounts=other(kept.accounts, number, made))


def with_price(kept):
    return kept._replace(prices=other(kept.prices, at(kept.prices), random.choice(PRICES)))


def with_ticker(kept):
    return kept._replace(tickers=other(kept.tickers, at(kept.tickers), random.choice(TICKERS)))


def with_count(kept):
    name, numbers = random.choice([("batches", BATCHES), ("next_number", NUMBERS), ("version", [0, *VERSIONS, VERSIONS[-1] + 1])])
    return kept._replace(**{name: random.choice(numbers)})


def with_account(kept):
    """An account of nothing, or one less."""
    nothing = kept.accounts[0]._replace(amounts=[0] * len(kept.totals), credits=[0] * len(kept.totals))
    return kept._replace(accounts=random.choice([[*kept.accounts, nothing], kept.accounts[:-1]]))


def with_order(kept):
    """An order with another value of a field."""
    place = at(kept.orders)
    order, assets = kept.orders[place], range(len(kept.tickers) + 1)
    values = {
        "number": random.choice(NUMBERS),
        "account": random.choice([0, 1, 2, 3, 1 << 16, (1 << 32) - 1]),
        "low": random.choice(LIMITS),
        "high": random.choice(LIMITS),
        "rate": random.choice(RATES),
        "cap": random.choice(CAPS),
        "filled": random.choice(CAPS),
        "last": random.choice([0, kept.batches & 0xFFFF_FFFF, min(kept.batches + 1, (1 << 32) - 1)]),
        "row": [(asset, random.choice(WEIGHTS)) for asset in random.choices(assets, k=random.choice([0, 1, 1, 2]))],
    }
    name = random.choice(list(values))
    return kept._replace(orders=other(kept.orders, place, order._replace(**{name: values[name]})))


def with_orders(kept):
    """Some orders out, twice or in another order."""
    first, last = sorted(random.choices(range(len(kept.orders) + 1), k=2))
    front, rest = kept.orders[:first], kept.orders[first:]
    return kept._replace(orders=random.choice([front + kept.orders[last:], kept.orders[:last] + rest, rest + front]))


def altered(kept):
    changes = [with_own, with_count, with_orders]
    changes += [with_deposit, with_deposit, with_credit, with_account] * bool(kept.accounts)
    changes += [with_price, with_ticker] * bool(kept.tickers)
    changes += [with_order, with_order, with_order] * bool(kept.orders)
    made = random.choice(changes)(kept)
    return altered(made) if random.random() < 0.3 else made
