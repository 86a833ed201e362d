"""The statement of an account, made from the bytes of a valid journal by the formats and the market's rules alone. The samples are
made with it, and compared."""
import struct

from formats import ACCOUNT, ASSET, CLEARED, FORMS, MONEY, MONEY_KEY, ORDER, REFUSED, SKIPPED, TICK, Terms, name_of, records, signed, terms_of
from report_text import WORDS, limits

# The codes of records that are no command, and so name no account.
NO_COMMAND = (1, 2)


class Order:
    """A live order of the account: its terms, and its remaining quantity."""

    def __init__(self, number, terms):
        self.number, self.terms, self.left = number, terms, terms.cap

    def needed(self, key):
        return self.terms.needs(self.left).get(key, 0)


class Statement:
    """What an account has by the entries so far, and the lines of these."""

    def __init__(self, account):
        self.account, self.is_open, self.lines = account, False, []
        self.tickers, self.money, self.units, self.orders = [], 0, {}, []

    def change(self, tag, body):
        """A deposit, a withdrawal or a credit; the line of it."""
        sign = {3: 1, 4: 1, 5: -1, 6: -1}.get(tag, 0)
        if tag in (3, 5, 11):
            _, ticks = struct.unpack(FORMS[tag], body)
            self.money += sign * ticks * TICK
            return f"{WORDS[tag]} ticks {ticks}"
        _, asset, units = struct.unpack(FORMS[tag], body)
        self.units[asset] = self.units.get(asset, 0) + sign * units
        return f"{WORDS[tag]} {self.tickers[asset]} units {units}"

    def place(self, number, tag, body):
        terms = terms_of(tag, body)
        self.orders.append(Order(number, terms))
        return f"order {number} {limits(self.tickers, terms)}"

    def own(self, asked, answered):
        """A command that names the account."""
        (tag, body), (reply, told) = asked, answered
        number = int.from_bytes(told, "big")
        if reply == REFUSED:
            self.lines.append(f"refused {number}")
        elif reply == ORDER:
            self.lines.append(self.place(number, tag, body))
        elif tag == 8:
            _, order = struct.unpack(MONEY, body)
            self.orders = [o for o in self.orders if o.number != order]
            self.lines.append(f"cancel {order}")
        else:
            self.lines.append(self.change(tag, body))

    def batch(self, reply, told):
        """A batch, which may be the last one of some orders."""
        number = int.from_bytes(told[:4], "big")
        self.lines.append(f"batch {number} {'cleared' if reply == CLEARED else 'skipped'}")
        if reply == CLEARED:
            count, = struct.unpack_from(">H", told, 4)
            prices = signed(told, 6, 8, count)
            at = 6 + 8 * count
            listed, = struct.unpack_from(">I", told, at)
            rates = dict(struct.iter_unpack(">QI", told[at + 4:at + 4 + 12 * listed]))
            for order in self.orders:
                self.trade(order, rates[order.number], prices)
        self.orders = [o for o in self.orders if o.left and o.terms.last != number]

    def trade(self, order, rate, prices):
        cost = rate * order.terms.cost(prices)
        self.money -= cost
        for asset, weight in order.terms.row:
            self.units[asset] = self.units.get(asset, 0) + weight * rate
        order.left -= rate
        self.lines.append(f"  order {order.number} rate {rate} cost {cost}")

    def names(self, asked, answered):
        """Whether the entry's command names the account."""
        (tag, body), (reply, told) = asked, answered
        if reply == REFUSED and told[0] in NO_COMMAND or tag not in (3, 4, 5, 6, 7, 8, 10, 11, 12):
            return False
        return int.from_bytes(body[4:8] if tag == 10 else body[:4], "big") == self.account

    def tell(self, asked, answered):
        reply, told = answered
        if reply == ASSET:
            self.tickers.append(name_of(asked[1]))
        elif reply == ACCOUNT:
            if int.from_bytes(told, "big") == self.account:
                self.is_open = True
                self.lines.append(f"account {self.account}")
        elif self.is_open and reply in (CLEARED, SKIPPED):
            self.batch(reply, told)
        elif self.is_open and self.names(asked, answered):
            self.own(asked, answered)

    def end(self):
        """The last lines."""
        yield f"money {self.money} reserved {sum(o.needed(MONEY_KEY) for o in self.orders)}"
        for asset, ticker in enumerate(self.tickers):
            yield f"{ticker} units {self.units.get(asset, 0)} reserved {sum(o.needed(asset) for o in self.orders)}"


    def begin(self, kept):
        """Takes up what the account has in the market of a checkpoint."""
        self.tickers = [name_of(ticker) for ticker in kept.tickers]
        if not 1 <= self.account <= len(kept.accounts):
            return
        self.is_open = True
        self.money, *units = kept.accounts[self.account - 1].amounts
        self.units = dict(enumerate(units))
        for placed in kept.orders:
            if placed.account == self.account:
                terms = Terms(placed.account, placed.low, placed.high, placed.rate, placed.cap, placed.row, placed.last or None)
                self.orders.append(Order(placed.number, terms))
                self.orders[-1].left -= placed.filled


def text_of(lines):
    return "".join(line + "\n" for line in lines).encode("ascii")


def statement_of(journal, account):
    """The text of what an account sees of a valid journal that is complete, and the last lines, or None if there is no such
    account."""
    every, statement = records(journal), Statement(account)
    for asked, answered in zip(every[::2], every[1::2]):
        statement.tell(asked, answered)
    return text_of(statement.lines), text_of(statement.end()) if statement.is_open else None


def statement_from(kept, entries, account):
    """The same of valid entries after a checkpoint: the text begins with the balances carried forward, if the account is there."""
    every, statement = records(entries, 0), Statement(account)
    statement.begin(kept)
    carried = text_of(statement.end()) if statement.is_open else b""
    for asked, answered in zip(every[::2], every[1::2]):
        statement.tell(asked, answered)
    return carried + text_of(statement.lines), text_of(statement.end()) if statement.is_open else None
