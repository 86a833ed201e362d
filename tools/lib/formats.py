"""What the tools read and write of files again and again: records and their fields, the terms of orders, tickers and ticks. It goes
by the formats alone and shares nothing with the program."""
import struct
from collections import namedtuple

# The versions of command files and journals.
VERSIONS = (1, 2, 3, 4)

# Grains in a tick.
TICK = 1 << 32

# The letters of a ticker, and the limits of an order's weight vector.
LETTERS = frozenset(b"ABCDEFGHIJKLMNOPQRSTUVWXYZ0123456789.-")
MOST_ENTRIES, MOST_WEIGHT = 16, 1 << 12

# The tags of replies.
DONE, ASSET, ACCOUNT, ORDER, REFUSED, CLEARED, SKIPPED = range(128, 135)

# The names of refusals, by their codes.
REFUSALS = dict(enumerate("UnknownTag BadBody AssetLimit TickerTaken BadTicker AccountLimit NoAccount NoAsset ZeroAmount TotalLimit NotFree "
                          "BadLimits BadRate BadCap BadRow OrderLimit NoOrder BadBudget BatchLimit".split(), 1))
REFUSALS.update({22: "BadLast", 23: "CreditInUse", 24: "CreditLimit"})

# The form of each command's body by its tag, but of orders, whose legs follow their terms.
MONEY, UNITS, TERMS, ENTRY = ">IQ", ">IHQ", ">IqqIQB", ">Hi"
FORMS = {1: ">8s", 2: ">", 3: MONEY, 4: UNITS, 5: MONEY, 6: UNITS, 8: MONEY, 9: ">I", 11: MONEY, 12: UNITS}

# How many bytes there are before a record's body, and before an order's legs.
HEAD, BEFORE_ENTRIES = 5, struct.calcsize(TERMS)

# The key of money beside the numbers of assets.
MONEY_KEY = None


def record(tag, body=b""):
    return struct.pack(">BI", tag, len(body)) + body


def places_of(data, at=8):
    """The place of each record after the magic, and of the end."""
    places = [at]
    while places[-1] < len(data):
        at = places[-1]
        places.append(at + HEAD + int.from_bytes(data[at + 1:at + HEAD], "big"))
    return places


def records_of(data, at=8):
    """The bytes of each record after the magic."""
    places = places_of(data, at)
    return [data[first:last] for first, last in zip(places, places[1:])]


def records(data, at=8):
    """The tag and the body of each record after the magic."""
    return [(each[0], each[HEAD:]) for each in records_of(data, at)]


def pairs_of(journal):
    """The bytes of each entry of a journal."""
    places = places_of(journal)[::2]
    return [journal[first:last] for first, last in zip(places, places[1:])]


def signed(body, at, width, count):
    """This many signed numbers, one after the other."""
    places = range(at, at + width * count, width)
    return [int.from_bytes(body[place:place + width], "big", signed=True) for place in places]


def name_of(ticker):
    """A ticker without the spaces after it."""
    return ticker.decode("ascii").rstrip(" ")


def is_ticker(ticker):
    name = ticker.rstrip(b" ")
    return bool(name) and LETTERS.issuperset(name)


def is_row(row):
    """Whether legs may be an order's, whatever assets there are."""
    named = [asset for asset, _ in row]
    weights = all(1 <= abs(weight) <= MOST_WEIGHT for _, weight in row)
    return 1 <= len(row) <= MOST_ENTRIES and named == sorted(set(named)) and weights


class Terms(namedtuple("Terms", "account low high rate cap row last", defaults=[None])):
    """What an order's command says. Limits are in ticks, amounts in units of the portfolio, and the last batch is none if the
    command can't have one."""

    def cost(self, prices):
        """The price of a unit of its portfolio, in grains."""
        return sum(weight * prices[asset] for asset, weight in self.row)

    def needs(self, left):
        """What so many units may need: grains of money, which they pay at the high limit, and units of each asset that they sell."""
        sold = {asset: -weight * left for asset, weight in self.row if weight < 0}
        return {MONEY_KEY: max(self.high, 0) * TICK * left, **sold}


def order_body(terms):
    """The body of an order's command, without a last batch."""
    body = struct.pack(TERMS, *terms[:5], len(terms.row))
    return body + b"".join(struct.pack(ENTRY, *entry) for entry in terms.row)


def is_order(tag, body):
    """Whether a command's body has the form of an order's."""
    terms = body[4:] if tag == 10 else body
    has_terms = tag in (7, 10) and len(terms) >= BEFORE_ENTRIES
    return has_terms and len(terms) == BEFORE_ENTRIES + struct.calcsize(ENTRY) * terms[BEFORE_ENTRIES - 1]


def terms_of(tag, body):
    """The terms of an order by its command."""
    last, body = (int.from_bytes(body[:4], "big"), body[4:]) if tag == 10 else (None, body)
    *terms, _ = struct.unpack_from(TERMS, body)
    return Terms(*terms, list(struct.iter_unpack(ENTRY, body[BEFORE_ENTRIES:])), last)
