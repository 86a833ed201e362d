"""The text of a valid journal, or of the entries of a day, by the formats alone. The samples are made with it, and compared."""
import re
import struct

from formats import ACCOUNT, ASSET, CLEARED, DONE, MONEY, ORDER, SKIPPED, UNITS, name_of, records, signed, terms_of

WORDS = {3: "deposit", 4: "deposit", 5: "withdraw", 6: "withdraw", 11: "credit", 12: "credit"}


def done(tickers, tag, body):
    if tag in (3, 5, 11):
        account, ticks = struct.unpack(MONEY, body)
        return f"{WORDS[tag]} account {account} ticks {ticks}"
    if tag in (4, 6, 12):
        account, asset, units = struct.unpack(UNITS, body)
        return f"{WORDS[tag]} account {account} {tickers[asset]} units {units}"
    _, order = struct.unpack(MONEY, body)
    return f"cancel order {order}"


def placed(tickers, tag, body, number):
    terms = terms_of(tag, body)
    return f"order {number} account {terms.account} {limits(tickers, terms)}"


def limits(tickers, terms):
    """The terms of an order as its line has them, from its limits on."""
    last = "" if terms.last is None else f" last {terms.last}"
    row = "".join(f" {tickers[asset]}:{weight}" for asset, weight in terms.row)
    return f"low {terms.low} high {terms.high} rate {terms.rate} cap {terms.cap}{last}{row}"


def cleared(tickers, body):
    """The batch, then a line for each asset, then one for each listed order."""
    batch, count = struct.unpack_from(">IH", body)
    behind = 6 + 8 * count
    listed, = struct.unpack_from(">I", body, behind)
    rates = behind + 4
    residuals = rates + 12 * listed
    gap, = signed(body, residuals + 8 * count, 16, 1)
    each = zip(tickers, signed(body, 6, 8, count), signed(body, residuals, 8, count))
    lines = [f"batch {batch} cleared gap {gap}"]
    lines += [f"  {ticker} price {price} residual {residual}" for ticker, price, residual in each]
    lines += [f"  order {order} rate {rate}" for order, rate in struct.iter_unpack(">QI", body[rates:residuals])]
    return "\n".join(lines)


def skipped(body):
    moves, = struct.unpack_from(">I", body, 36)
    start, end = signed(body, 4, 16, 2)
    return f"batch {int.from_bytes(body[:4], 'big')} skipped moves {moves} duals {start} {end}"


def told(tickers, asked, answered):
    """The text of an entry after its number, under the tickers after it."""
    tag, body = answered
    if tag == DONE:
        return done(tickers, *asked)
    if tag == CLEARED:
        return cleared(tickers, body)
    if tag == SKIPPED:
        return skipped(body)
    number = int.from_bytes(body, "big")
    if tag == ORDER:
        return placed(tickers, *asked, number)
    if tag == ASSET:
        return f"asset {number} {tickers[number]}"
    return f"account {number}" if tag == ACCOUNT else f"refused {number}"


def report_of(journal):
    """The text of a valid journal that is complete."""
    every = records(journal)
    tickers, lines = [], []
    for number, (asked, answered) in enumerate(zip(every[::2], every[1::2]), 1):
        if answered[0] == ASSET:
            tickers.append(name_of(asked[1]))
        lines.append(f"{number} {told(tickers, asked, answered)}\n")
    return "".join(lines).encode("ascii")


def report_of_day(day):
    """The text of the entries that a day has taken, from a journal or after a checkpoint."""
    return "".join(f"{pair.number} {pair.text}\n" for pair in day.pairs).encode("ascii")


def legal_line(journal):
    """The line that an audit writes of a valid journal that is complete."""
    replies = [tag for tag, _ in records(journal)[1::2]]
    return b"legal: %d pairs, %d cleared, %d skipped\n" % (len(replies), replies.count(CLEARED), replies.count(SKIPPED))


def texts_in(report):
    """The text of each entry. Its first line begins with the entry's number, and no other line with a digit."""
    texts = re.split(rb"(?m)^(?=\d)", report)
    return [text for text in texts if text]
