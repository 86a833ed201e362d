"""Random lines of JSON: lines that ask for commands in forms that one rarely sees, and such lines with faults."""
import json
import random

TICKERS = ["AAPL", "MSFT", "BRK.B", "Z-9", "ABCDEFGH", "7"]
ASSETS = [{"do": "asset", "ticker": ticker} for ticker in TICKERS]
ODD_TICKERS = ["", "aapl", "A B", " A", "A\0B", '"\\/\b\f\n\r', "\x7f", "AAPL    "]
EDGES = [0, 1, 9, 1 << 31, (1 << 32) - 1]
LARGE_EDGES = EDGES + [1 << 32, (1 << 63) - 1, 1 << 63, (1 << 64) - 1]
SIGNED_EDGES = [-(1 << 63), -(1 << 32), -1, 0, 1, (1 << 63) - 1]
WEIGHT_EDGES = [-(1 << 31), -4096, -1, 0, 1, 4096, (1 << 31) - 1]
FIRST_VALUES = ["null", "true", "-0", "1e3", "-0.5E-7", "1" * 30, '"\\ud83d\\ude00"', '[{"x":[]}]', '{"":{}}', '"x"']
PIECES = b'{}[]:,"\\ \t\r\n\0\x7f\x80\xc3\xff-+.eE0189uaAdot'
VALUES = ["0", "-0", "-1", "1.0", "1e0", "01", "4294967296", "18446744073709551616", "-9223372036854775809", "1e400"]
VALUES += ["null", "NaN", "{}", "[]", '"AAPL"', '"MSFT "', '"\\ud800"', "true", "1" * 400]


def small():
    return random.choice([random.choice(EDGES), random.randrange(1 << 32)])


def large():
    return random.choice([random.choice(LARGE_EDGES), random.randrange(1 << 64)])


def signed():
    return random.choice([random.choice(SIGNED_EDGES), random.randrange(-(1 << 63), 1 << 63)])


def weight():
    return random.choice([random.choice(WEIGHT_EDGES), random.randrange(-(1 << 31), 1 << 31)])


def asset():
    """A ticker with some of the spaces that may follow it."""
    ticker = random.choice(TICKERS)
    return ticker.ljust(random.randint(len(ticker), 8))


def weights():
    named = random.sample(TICKERS, random.randrange(len(TICKERS) + 1))
    return {ticker.ljust(random.randint(len(ticker), 8)): weight() for ticker in named}


def limits():
    return {"account": small(), "low": signed(), "high": signed(), "rate": small(), "cap": large()}


def points():
    """The points of a ladder, with a flat stretch here and there."""
    count = random.choice([2, 3, 5, 33])
    prices = sorted(random.sample(range(-(1 << 28), (1 << 28) + 1), count))
    rates = [random.choice([1, 2, 1 << 24, random.randint(1, 1 << 24)]) for _ in range(count - 1)]
    return [list(point) for point in zip(prices, sorted(rates, reverse=True) + [0])]


def command():
    """The keys and values of a line."""
    word = random.choice(["asset", "account", "deposit", "withdraw", "place", "place", "cancel", "batch", "ladder"])
    if word in ("deposit", "withdraw"):
        told = random.choice([{"ticks": large()}, {"asset": asset(), "units": large()}])
        return {"do": word, "account": small(), **told}
    makers = {
        "asset": lambda: {"ticker": random.choice(TICKERS + ODD_TICKERS)},
        "account": dict,
        "place": lambda: {**limits(), "weights": weights()},
        "cancel": lambda: {"account": small(), "order": large()},
        "batch": lambda: {"budget": small()},
        "ladder": lambda: {"account": small(), "points": points(), "turns": random.choice([1, 9, 65536]), "weights": weights()},
    }
    return {"do": word, **makers[word]()}


def space():
    return random.choice(["", "", "", "", " ", "\t", "\r", "  "])


def text(value):
    """A text with some of its characters escaped."""
    letters = (f"\\u{ord(each):04x}" if random.random() < 0.1 else json.dumps(each)[1:-1] for each in value)
    return '"' + "".join(letters) + '"'


def json_text(value):
    if isinstance(value, dict):
        members = [f"{space()}{text(key)}{space()}:{space()}{json_text(value[key])}{space()}" for key in value]
        random.shuffle(members)
        if members and random.random() < 0.2:
            members.insert(0, f"{text(random.choice(list(value)))}:{random.choice(FIRST_VALUES)}")
        return "{" + ",".join(members) + "}"
    if isinstance(value, list):
        return "[" + ",".join(f"{space()}{json_text(each)}{space()}" for each in value) + "]"
    return text(value) if isinstance(value, str) else str(value)


def line(asked):
    return f"{space()}{json_text(asked)}{space()}".encode("utf-8")


def commands(count):
    """A text of lines that are all commands or blank."""
    lines = [line(asked) for asked in ASSETS]
    for _ in range(count):
        lines.append(line(command()))
        if random.random() < 0.05:
            lines.append(space().encode("ascii"))
    return b"\n".join(lines)


def with_fault(asked):
    """A line in which a byte is lost, one is put in, one is another, a part comes twice, or a value is another."""
    original, kind = line(asked), random.randrange(5)
    first, last = sorted(random.choices(range(len(original)), k=2))
    if kind == 4:
        changed = {**asked, random.choice(list(asked)): "VALUE"}
        return json.dumps(changed).replace('"VALUE"', random.choice(VALUES), 1).encode("utf-8")
    piece = [b"", bytes([random.choice(PIECES)]), bytes([random.choice(PIECES)]), original[first:last]][kind]
    return original[:first] + piece + original[first + (kind in (0, 2)):]


def with_faults(count):
    """So many texts, the last line of which has a fault. It may be a command still."""
    for _ in range(count):
        yield b"\n".join([*map(line, ASSETS), with_fault(command())])
