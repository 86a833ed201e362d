"""Lines of JSON and the records of their commands, by the formats alone: what lines ask for, and the line that asks for
a record. The sample of lines is made with it, and what the program writes is compared."""
import json
import math
import struct

from formats import HEAD, is_ticker, name_of, record, terms_of

DEEPEST = 127
TICKERS = 64

# The word, the further keys and the form of their values, by tag. Each number is any that its width holds.
COMMANDS = {
    1: ("asset", ["ticker"], ["8s"]),
    2: ("account", [], []),
    3: ("deposit", ["account", "ticks"], ["I", "Q"]),
    4: ("deposit", ["account", "asset", "units"], ["I", "H", "Q"]),
    5: ("withdraw", ["account", "ticks"], ["I", "Q"]),
    6: ("withdraw", ["account", "asset", "units"], ["I", "H", "Q"]),
    7: ("place", ["account", "low", "high", "rate", "cap", "weights"], ["I", "q", "q", "I", "Q", "row"]),
    8: ("cancel", ["account", "order"], ["I", "Q"]),
    9: ("batch", ["budget"], ["I"]),
    10: ("place", ["last", "account", "low", "high", "rate", "cap", "weights"], ["I", "I", "q", "q", "I", "Q", "row"]),
    11: ("credit", ["account", "ticks"], ["I", "Q"]),
    12: ("credit", ["account", "asset", "units"], ["I", "H", "Q"]),
}
# The highest tag of each version.
MOST_TAG = {1: 9, 2: 12, 3: 12, 4: 12}
TAGS = {(word, frozenset(keys)): tag for tag, (word, keys, _) in COMMANDS.items()}

# The further keys of a ladder.
LADDER = {"account", "points", "turns", "weights"}


class Object(tuple):
    """The members of an object, each a key and a value, with those of doubled keys."""


def fraction(digits):
    """A number that isn't whole by its form. One that no float of 64 bits reaches is none at all."""
    if math.isinf(float(digits)):
        raise ValueError(f"the number {digits} is too large")
    return float(digits)


def whole(digits):
    """A number without fraction and exponent. If it needs more than 64 bits, or is -0, it isn't whole."""
    if digits != "-0" and len(digits) <= 20 and -(1 << 63) <= int(digits) < 1 << 64:
        return int(digits)
    return fraction(digits)


def constant(digits):
    raise ValueError(f"{digits} is no JSON")


READER = json.JSONDecoder(object_pairs_hook=Object, parse_float=fraction, parse_int=whole, parse_constant=constant)


def see(value, depth=0):
    """Refuses what the decoder lets pass: values that are too deep, and lone surrogates."""
    if isinstance(value, str):
        value.encode("utf-8")
    elif isinstance(value, (list, Object)):
        if depth == DEEPEST:
            raise ValueError("the value is too deep")
        for item in value:
            for part in item if isinstance(value, Object) else [item]:
                see(part, depth + 1)


def members(line):
    """The object that a line is. Of a doubled key the last value counts."""
    value = READER.decode(line.decode("utf-8"))
    see(value)
    if not isinstance(value, Object):
        raise ValueError("the line is no object")
    return dict(value)


def padded(text):
    name = text.encode("utf-8") if isinstance(text, str) else None
    if name is None or len(name) > 8:
        raise ValueError(f"{text} is no text of at most 8 bytes")
    return name.ljust(8)


def number(form, value):
    if type(value) is not int:
        raise ValueError(f"{value} is no whole number")
    return struct.pack(">" + form, value)


def row(weights, tickers):
    """The legs of a weight vector, in ascending order of assets, after their count."""
    if not isinstance(weights, Object):
        raise ValueError(f"{weights} is no object")
    entries = {}
    for name, weight in dict(weights).items():
        asset = tickers.index(padded(name))
        if asset in entries:
            raise ValueError(f"{name} is there twice")
        entries[asset] = number("i", weight)
    legs = (number("H", asset) + entries[asset] for asset in sorted(entries))
    return number("B", len(entries)) + b"".join(legs)


def field(form, value, tickers):
    if form == "8s":
        ticker = padded(value)
        if not ticker.isascii():
            raise ValueError(f"{value} isn't ASCII")
        return ticker
    if form == "H":
        return number("H", tickers.index(padded(value)))
    return row(value, tickers) if form == "row" else number(form, value)


def orders_of(points, turns):
    """The limits, the rate and the cap of each order of a ladder: one for each drop of the rate."""
    if not isinstance(points, list) or not 2 <= len(points) <= 33:
        raise ValueError(f"{points} aren't 2 to 33 points")
    if any(not isinstance(point, list) or len(point) != 2 for point in points):
        raise ValueError("a point isn't a price and a rate")
    prices, rates = [point[0] for point in points], [point[1] for point in points]
    whole_numbers = all(type(value) is int for value in [*prices, *rates, turns])
    if not whole_numbers or any(abs(price) > 1 << 28 for price in prices) or prices != sorted(set(prices)):
        raise ValueError("the prices don't ascend within their range")
    if not 1 <= rates[0] <= 1 << 24 or rates != sorted(rates, reverse=True) or rates[-1] != 0:
        raise ValueError("the rates don't fall to 0 within their range")
    if not 1 <= turns <= 65536:
        raise ValueError(f"{turns} aren't 1 to 65,536 turns")
    drops = zip(prices, prices[1:], rates, rates[1:])
    return [(low, high, rate - next_rate, (rate - next_rate) * turns) for low, high, rate, next_rate in drops if rate != next_rate]


def ladder(asked, tickers):
    """The records of a ladder's orders."""
    account, legs = number("I", asked["account"]), row(asked["weights"], tickers)
    orders = orders_of(asked["points"], asked["turns"])
    return b"".join(record(7, account + struct.pack(">qqIQ", *order) + legs) for order in orders)


def add(ticker, tickers):
    """The market's rule: a ticker is added if it is valid, isn't taken and there is room for it."""
    if is_ticker(ticker) and ticker not in tickers and len(tickers) < TICKERS:
        tickers.append(ticker)


def record_of(line, tickers, version):
    """The record that a line asks for in a version, or the records if it asks for a ladder's orders, after lines that left these
    tickers, to which its own is added. It is empty if the line is blank, and None if it is no command."""
    if not line.strip(b" \t\r"):
        return b""
    try:
        asked = members(line)
        word = asked.pop("do", None)
        if word == "ladder" and set(asked) == LADDER:
            return ladder(asked, tickers)
        tag = TAGS.get((word, frozenset(asked))) if isinstance(word, str) else None
        if tag is None or tag > MOST_TAG[version]:
            return None
        _, keys, forms = COMMANDS[tag]
        body = b"".join(field(form, asked[key], tickers) for key, form in zip(keys, forms))
    except (ValueError, RecursionError, struct.error):
        return None
    if tag == 1:
        add(body, tickers)
    return record(tag, body)


def encoded(text, version=1):
    """The command file, of a version, of the lines before the first that is no command, and the number of that one, or None."""
    made, tickers = [b"FLOWCMD%d" % version], []
    lines = text.split(b"\n")
    for place, line in enumerate(lines if lines[-1] else lines[:-1], 1):
        asked = record_of(line, tickers, version)
        if asked is None:
            return b"".join(made), place
        made.append(asked)
    return b"".join(made), None


def values_of(tag, body, tickers):
    """What a record has for the further keys. Assets are named by these tickers."""
    if tag in (7, 10):
        terms = terms_of(tag, body)
        row = {name_of(tickers[asset]): weight for asset, weight in terms.row}
        return [*([terms.last] if tag == 10 else []), *terms[:5], row]
    values = struct.unpack(">" + "".join(COMMANDS[tag][2]), body)
    if tag == 1:
        return [name_of(*values)]
    return [values[0], name_of(tickers[values[1]]), values[2]] if tag in (4, 6, 12) else values


def line_of(asked, tickers):
    """The line that asks for a record, after lines that left these tickers, to which its own is added."""
    tag, body = asked[0], asked[HEAD:]
    word, keys, _ = COMMANDS[tag]
    values = values_of(tag, body, tickers)
    if tag == 1:
        add(body, tickers)
    return json.dumps({"do": word, **dict(zip(keys, values))}, separators=(",", ":")).encode("ascii")


def lines_of(records):
    tickers = []
    return b"".join(line_of(asked, tickers) + b"\n" for asked in records)
