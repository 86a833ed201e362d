"""Random command files, files of any bytes, and files that are altered. All go by the state of `random`."""
import random
import struct

from formats import MONEY, UNITS, VERSIONS, Terms, order_body, record

TICKERS = [b"AAPL    ", b"MSFT    ", b"BRK.B   ", b"Z-9     ", b"aapl    ", b"AAPL    ", b"        "]
# The magics of each version, and of the one after the last.
MAGICS = [b"FLOW%s%d" % (kind, version) for kind in (b"CMD", b"JNL") for version in (*VERSIONS, VERSIONS[-1] + 1)] + [b"FLOWSNP1", b"FLOWCMD", b""]
BUDGETS = [0, 1, 1, 2, 3, 10, 100, 1000, 1000, 1000, 10_000, 65_536, 65_537]
EDGES = [0, 1, 2, 4096, 1 << 16, 1 << 24, 1 << 28, (1 << 32) - 1, 1 << 40, 1 << 60, (1 << 63) - 1, (1 << 64) - 1]
# Lengths that a record may state, whatever follows it.
LENGTHS = [0, 1, 4, 12, 14, 33, 39, 1024, 1025, 262_144, 262_145, (1 << 32) - 1]


def likely(number):
    """A number up to this one, now and then one beyond all bounds."""
    return random.choice(EDGES) if random.random() < 0.05 else random.randint(0, number)


def account():
    """One of the accounts 1 to 3, most often."""
    return random.randint(1, 3) if random.random() < 0.95 else likely(4) & 0xFFFF_FFFF


def asset():
    return random.randint(0, 2) if random.random() < 0.95 else likely(3) & 0xFFFF


def row():
    entries = sorted(random.sample(range(3), random.choice([1, 1, 1, 1, 2, 2, 3])))
    weights = [1, 1, 1, -1, -1, -1, 2, -3] if random.random() < 0.9 else [4096, -4096, random.randint(-5000, 5000)]
    return [(named, random.choice(weights)) for named in entries]


def order():
    """The body of an order, most often a valid one for prices around 100 ticks."""
    entries = row()
    middle = sum(weight for _, weight in entries) * 100 + random.randint(-10, 10)
    half = random.choice([1, 5, 5, 20, 20, 300, 0, 1 << 28])
    rate, cap = likely(1000) & 0xFFFF_FFFF, random.choice([1, 10, 1000, 1000, 100_000, likely(1 << 40)])
    return order_body(Terms(account(), middle - half, middle + half, rate, cap, entries))


def command():
    makers = [
        lambda: record(1, random.choice(TICKERS)),
        lambda: record(2),
        lambda: record(3, struct.pack(MONEY, account(), likely(1 << 30))),
        lambda: record(4, struct.pack(UNITS, account(), asset(), likely(1 << 20))),
        lambda: record(5, struct.pack(MONEY, account(), likely(1 << 20))),
        lambda: record(6, struct.pack(UNITS, account(), asset(), likely(1 << 12))),
        *[lambda: record(7, order())] * 8,
        lambda: record(8, struct.pack(MONEY, account(), likely(9))),
        *[lambda: record(9, struct.pack(">I", random.choice(BUDGETS)))] * 2,
        *[lambda: record(10, struct.pack(">I", likely(9) & 0xFFFF_FFFF) + order())] * 2,
        lambda: record(11, struct.pack(MONEY, account(), likely(1 << 30))),
        lambda: record(12, struct.pack(UNITS, account(), asset(), likely(1 << 20))),
        lambda: record(random.randrange(256), random.randbytes(random.choice([0, 1, 12, 39, 1024]))),
    ]
    return random.choice(makers)()


def command_file():
    """A market with accounts, assets and money in it, most often, and random commands after that."""
    made = [b"FLOWCMD%d" % random.choice(VERSIONS)]
    if random.random() < 0.9:
        made += [record(1, ticker) for ticker in TICKERS[:3]] + [record(2)] * 3
        for number in (1, 2, 3):
            made += [record(3, struct.pack(MONEY, number, 1 << 40))]
            made += [record(4, struct.pack(UNITS, number, named, 1 << 40)) for named in range(3)]
    return b"".join(made + [command() for _ in range(random.choice([0, 3, 20, 60, 150]))])


def any_bytes():
    return random.choice(MAGICS) + random.randbytes(random.choice([0, 1, 7, 40, 300]))


def pieces(data):
    """The magic and the records of a file, and what follows the complete ones."""
    parts, at = [data[:8]], 8
    while at + 5 <= len(data):
        end = at + 5 + int.from_bytes(data[at + 1:at + 5], "big")
        parts.append(data[at:end])
        at = end
    return [*parts, data[at:]]


def with_other_records(data):
    """Records, or entries, are left out, doubled or changed for others."""
    whole = pieces(data)
    first, last = sorted(random.choices(range(1, len(whole) + 1), k=2))
    kind = random.randrange(3)
    if kind == 0:
        return b"".join(whole[:first] + whole[last:])
    if kind == 1:
        return b"".join(whole[:last] + whole[first:])
    return b"".join(whole[:first] + whole[last:] + whole[first:last])


def with_other_bytes(data):
    """Bytes are left out, put in, doubled or changed, or a length is another."""
    first, last = sorted(random.choices(range(len(data) + 1), k=2))
    kind = random.randrange(6)
    if kind == 0:
        return data[:first]
    if kind == 1:
        return data[:first] + random.randbytes(random.randrange(1, 9)) + data[first:]
    if kind == 2:
        return data[:first] + data[min(last, first + 9):]
    if kind == 3:
        return data[:last] + data[first:]
    if kind == 4:
        return data[:first] + struct.pack(">I", random.choice(LENGTHS)) + data[first + 4:]
    return data[:first] + random.randbytes(1) + data[first + 1:]


def altered(data):
    """A file with one change or some."""
    for _ in range(random.choice([1, 1, 1, 2, 5])):
        data = random.choice([with_other_records, with_other_bytes, with_other_bytes])(data)
    return data
