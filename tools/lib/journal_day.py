"""The market that a valid journal makes, entry by entry, by the formats and the market's rules alone: orders with their
fills, balances, the exchange's own account, and the result of each batch. It doesn't ask whether the journal is valid."""
import struct
from collections import Counter, namedtuple
from copy import copy, deepcopy
from decimal import Decimal

from formats import ACCOUNT, ASSET, CLEARED, DONE, FORMS, MONEY, MONEY_KEY, ORDER, REFUSED, SKIPPED, TICK, name_of, records, signed, terms_of
from report_text import told

COMMANDS = {
    1: "AddAsset",
    2: "OpenAccount",
    3: "DepositMoney",
    4: "DepositAsset",
    5: "WithdrawMoney",
    6: "WithdrawAsset",
    7: "PlaceOrder",
    8: "CancelOrder",
    9: "RunBatch",
    10: "PlaceUntil",
    11: "SetMoneyCredit",
    12: "SetUnitCredit",
}
REPLIES = {DONE: "Done", ASSET: "Asset", ACCOUNT: "Account", ORDER: "Order", REFUSED: "Refused"}
REPLIES.update({CLEARED: "Cleared", SKIPPED: "Skipped"})
LIVE, FILLED, CANCELLED, ENDED = "live", "filled", "cancelled", "left after its last batch"

# What is carried forward to a day: how many batches were held, the balances of accounts and of the exchange, and the live orders.
Opening = namedtuple("Opening", "held accounts exchange orders")
# An entry: its number from 1, the tags and bodies of its records, and its text as a report has it, without the number.
Pair = namedtuple("Pair", "number tag body reply answer text")
# What an order had in a batch: its batch maximum, and its rate.
Trade = namedtuple("Trade", "order room rate")


class Order:
    """An order that was placed, by its terms."""

    def __init__(self, number, terms):
        self.number, self.terms = number, terms
        self.account, self.low, self.high, self.rate, self.cap, self.row, self.last = terms
        self.filled, self.state = 0, LIVE

    def room(self):
        return min(self.rate, self.cap - self.filled)

    def weight(self, asset):
        return next((weight for named, weight in self.row if named == asset), 0)

    def cost(self, prices):
        return self.terms.cost(prices)


class Batch:
    """A batch that was held, cleared or skipped. Prices, gap and dual values are in grains, amounts in units. What orders bought and
    sold is by asset."""

    def __init__(self, pair, number, trades):
        self.pair, self.number, self.trades = pair, number, trades
        self.prices, self.residuals, self.gap = None, None, None
        self.start_dual, self.end_dual, self.trace = None, None, None
        self.bought, self.sold = Counter(), Counter()
        # What the batch brought the exchange, and what that holds after it, as balances are.
        self.left, self.exchange = {}, {}
        for order, _, rate in trades:
            for asset, weight in order.row:
                (self.bought if weight > 0 else self.sold)[asset] += abs(weight) * rate

    def cleared(self):
        return self.prices is not None

    def volume(self, asset):
        """What changed hands of an asset, the exchange's part counted in."""
        return max(self.bought[asset], self.sold[asset])


def add(balances, key, amount):
    balances[key] = balances.get(key, 0) + amount


class Day:
    """All that a valid journal says. Balances are by account, from 1, and then by asset, in units, or MONEY_KEY, in
    grains; a balance that is missing is 0. Credits are so too, with money in ticks."""

    def __init__(self, journal):
        self.version = int(journal[7:8])
        self.tickers, self.accounts, self.credits, self.exchange = [], {}, {}, {}
        self.orders, self.batches, self.pairs, self.deposited = {}, [], [], {}
        self.prices, self.next_order, self.held = [], 1, 0
        self.opening = None
        self.go_on(journal[8:])

    def open(self):
        """Notes what is carried forward from a checkpoint, before the first entry."""
        self.opening = Opening(self.held, deepcopy(self.accounts), dict(self.exchange), [copy(order) for order in self.orders.values()])

    def go_on(self, pairs):
        """Takes more entries, which a valid journal may have after those before."""
        every = records(pairs, 0)
        for number, (asked, answered) in enumerate(zip(every[::2], every[1::2]), len(self.pairs) + 1):
            self.take(number, *asked, *answered)

    def take(self, number, tag, body, reply, answer):
        if reply == ASSET:
            self.tickers.append(name_of(body))
            self.prices.append(0)
        text = told(self.tickers, (tag, body), (reply, answer))
        self.pairs.append(Pair(number, tag, body, reply, answer, text))
        if reply == ACCOUNT:
            account = int.from_bytes(answer, "big")
            self.accounts[account], self.credits[account] = {}, {}
        elif reply == ORDER:
            placed = Order(int.from_bytes(answer, "big"), terms_of(tag, body))
            self.orders[placed.number], self.next_order = placed, placed.number + 1
        elif reply == DONE:
            self.do(tag, body)
        elif reply in (CLEARED, SKIPPED):
            self.hold(number, reply, answer)

    def do(self, tag, body):
        if tag == 8:
            self.orders[struct.unpack(MONEY, body)[1]].state = CANCELLED
            return
        account, *asset, amount = struct.unpack(FORMS[tag], body)
        key = asset[0] if asset else MONEY_KEY
        if tag in (11, 12):
            self.credits[account][key] = amount
        else:
            held = (amount if asset else amount * TICK) * (1 if tag in (3, 4) else -1)
            add(self.accounts[account], key, held)
            add(self.deposited, key, held)

    def live(self):
        return [order for order in self.orders.values() if order.state == LIVE]

    def hold(self, pair, reply, answer):
        live = self.live()
        if reply == CLEARED:
            batch = self.cleared(pair, live, answer)
        else:
            moves, = struct.unpack_from(">I", answer, 36)
            batch = Batch(pair, int.from_bytes(answer[:4], "big"), [Trade(order, order.room(), 0) for order in live])
            batch.start_dual, batch.end_dual = signed(answer, 4, 16, 2)
            batch.trace = answer[40:40 + moves]
        batch.exchange = dict(self.exchange)
        self.batches.append(batch)
        self.held = batch.number
        for order in live:
            if order.filled == order.cap:
                order.state = FILLED
            elif order.last is not None and order.last <= batch.number:
                order.state = ENDED

    def cleared(self, pair, live, answer):
        number, count = struct.unpack_from(">IH", answer)
        at = 10 + 8 * count
        behind = at + 12 * len(live)
        rates = [rate for _, rate in struct.iter_unpack(">QI", answer[at:behind])]
        batch = Batch(pair, number, [Trade(order, order.room(), rate) for order, rate in zip(live, rates)])
        batch.prices, batch.residuals = signed(answer, 6, 8, count), signed(answer, behind, 8, count)
        batch.gap, = signed(answer, behind + 8 * count, 16, 1)
        self.prices = list(batch.prices)
        for order, rate in zip(live, rates):
            self.settle(order, rate, batch)
        for key, amount in batch.left.items():
            add(self.exchange, key, amount)
        return batch

    def settle(self, order, rate, batch):
        """The account pays and gets what results from the rate, and the batch leaves the other side of it with the exchange."""
        order.filled += rate
        paid = order.cost(batch.prices) * rate
        for key, amount in [(MONEY_KEY, -paid), *((asset, weight * rate) for asset, weight in order.row)]:
            add(self.accounts[order.account], key, amount)
            add(batch.left, key, -amount)

    def names(self):
        """Money and each asset, by their keys."""
        return [(MONEY_KEY, "money"), *enumerate(self.tickers)]

    def exchange_line(self):
        """What the exchange holds after the last entry: money in grains, and in ticks to four places, and units of each asset."""
        money = self.exchange.get(MONEY_KEY, 0)
        units = "".join(f", {ticker} {self.exchange.get(asset, 0)}" for asset, ticker in enumerate(self.tickers))
        return f"exchange: money {money} grains (about {round(Decimal(money) / TICK, 4) + 0:.4f} ticks){units}"
