"""What `flow host` answers to the lines of many senders, and which entries it keeps, by docs/FORMATS.md and docs/MARKET.md alone."""
from collections import Counter

from checkpoint_file import day_from
from command_lines import COMMANDS, members, record_of, values_of
from envelopes import ALL, BLANKS, MOST_ENVELOPE, MOST_TEXT, OPERATOR, read_envelope, recipient_of
from formats import ACCOUNT, ASSET, CLEARED, HEAD, MONEY_KEY, ORDER, REFUSALS, REFUSED, SKIPPED, records_of
from joint_prices import within
from journal_day import Day

# The tags of commands that an account may ask for of its own, and of those that name an account.
OWN, NAMING = (7, 8, 10), (3, 4, 5, 6, 7, 8, 10, 11, 12)

# Of questions: the members beside `ask`, who may ask, the operator or an account.
MARKET, ACCOUNT_OF, OWN_ACCOUNT, EXCHANGE = "market", "account of", "account", "exchange"


class Differs(Exception):
    """The entry of this number, which the file keeps, isn't of the command that the lines ask for."""


# ---- texts


def quoted(text):
    """A text of ASCII as an answer has it."""
    escaped = {'"': '\\"', "\\": "\\\\", **{chr(code): f"\\u{code:04X}" for code in range(32)}}
    return '"' + "".join(escaped.get(letter, letter) for letter in text) + '"'


def put(value):
    """A value as an answer has it: numbers in full, and no blanks."""
    if isinstance(value, dict):
        return "{" + ",".join(f"{quoted(key)}:{put(each)}" for key, each in value.items()) + "}"
    if isinstance(value, (list, tuple)):
        return "[" + ",".join(map(put, value)) + "]"
    if isinstance(value, str):
        return quoted(value)
    return "true" if value is True else "false" if value is False else str(value)


def by_ticker(tickers, values):
    return dict(zip(tickers, values))


# ---- what a text asks for


def question_of(text):
    """What a text asks to know, and of which account, or None if it is no question."""
    try:
        asked = members(text)
    except (ValueError, RecursionError):
        return None
    about, number = asked.get("ask"), asked.get("account")
    if not isinstance(about, str):
        return None
    if about in (MARKET, EXCHANGE, OWN_ACCOUNT) and set(asked) == {"ask"}:
        return about, None
    if about == OWN_ACCOUNT and set(asked) == {"ask", "account"} and type(number) is int and 0 <= number < 1 << 32:
        return ACCOUNT_OF, number
    return None


def may_know(sender, about):
    return about in ((MARKET, ACCOUNT_OF, EXCHANGE) if sender == 0 else (MARKET, OWN_ACCOUNT))


def account_in(asked):
    """The account that a command's record names, or None."""
    tag, body = asked[0], asked[HEAD:]
    return int.from_bytes(body[4:8] if tag == 10 else body[:4], "big") if tag in NAMING else None


def padded(tickers):
    return [ticker.encode("ascii").ljust(8) for ticker in tickers]


def command_body(asked, tickers):
    """A command as an answer has it."""
    word, keys, _ = COMMANDS[asked[0]]
    return {"do": word, **dict(zip(keys, values_of(asked[0], asked[HEAD:], padded(tickers))))}


# ---- what is there


def order_body(order, tickers):
    """A live order as its account is told of it."""
    last = {} if order.last is None else {"last": order.last}
    weights = {tickers[asset]: weight for asset, weight in order.row}
    terms = {**last, "low": order.low, "high": order.high, "rate": order.rate, "cap": order.cap, "weights": weights}
    return {**terms, "order": order.number, "filled": order.filled}


def market_body(day):
    prices = by_ticker(day.tickers, [str(within(60, price)) for price in day.prices])
    return {"ask": "market", "version": day.version, "batches": day.held, "prices": prices}


def account_body(day, number):
    own, needed = [order for order in day.live() if order.account == number], Counter()
    for order in own:
        needed.update(order.terms.needs(order.cap - order.filled))
    held, credits = day.accounts[number], day.credits[number]
    units = by_ticker(day.tickers, [[held.get(asset, 0), needed[asset], credits.get(asset, 0)] for asset in range(len(day.tickers))])
    money = {"money": str(held.get(MONEY_KEY, 0)), "reserved": str(needed[MONEY_KEY]), "credit": credits.get(MONEY_KEY, 0)}
    return {"ask": "account", "account": number, **money, "units": units, "orders": [order_body(order, day.tickers) for order in own]}


def exchange_body(day):
    units = by_ticker(day.tickers, [day.exchange.get(asset, 0) for asset in range(len(day.tickers))])
    return {"ask": "exchange", "money": str(day.exchange.get(MONEY_KEY, 0)), "units": units}


class Host:
    """A market of many senders. It begins in a version, or with the market of a checkpoint, and has `reply`, which gives the record of the
    reply to a command's record. `kept` are the entries of the file, which come first."""

    def __init__(self, reply, version=None, kept_market=None, kept=()):
        self.day = Day(b"FLOWJNL%d" % version) if kept_market is None else day_from(kept_market)
        self.reply, self.kept, self.pairs = reply, list(kept), []
        self.counted, self.told, self.read = Counter(), Counter(), 0
        self.writes = []

    def line(self, line):
        """The answers to a line, which is without its line feed: what is told of each of its commands by one write, or what it is answered
        else."""
        self.writes, self.read = [], self.read + 1
        if len(line) > MOST_ENVELOPE:
            self.noise()
        elif line.strip(BLANKS):
            self.hear(line)
        return self.writes

    def message(self, to, body, line=None, entry=None):
        """The next message to a recipient."""
        self.told[to] += 1
        numbers = {"number": self.told[to], "line": line, "entry": entry}
        told = {"to": to, **{name: number for name, number in numbers.items() if number is not None}}
        return (put(told)[:-1] + "," + put(body)[1:] + "\n").encode("ascii")

    def tell(self, *message):
        self.writes.append(self.message(*message))

    def noise(self):
        self.tell(OPERATOR, {"at": self.read, "error": "no envelope"})

    def hear(self, line):
        heard = read_envelope(line)
        if heard is None or heard.sender and heard.sender not in self.day.accounts:
            self.noise()
            return
        sender, following = heard.sender, self.counted[heard.sender] + 1
        if heard.id not in (None, following):
            self.tell(recipient_of(sender), {"expected": following})
            return
        self.counted[sender] = following
        self.take(sender, following, heard.text.encode("utf-8"))

    def take(self, sender, number, text):
        """A text that counts."""
        is_read = len(text) <= MOST_TEXT and b"\n" not in text
        asked = record_of(text, padded(self.day.tickers), self.day.version) if is_read else None
        if asked is None:
            self.ask(sender, number, text if is_read else b"")
            return
        commands = records_of(asked, 0)
        if sender and any(command[0] not in OWN or account_in(command) != sender for command in commands):
            self.tell(recipient_of(sender), {"error": "not yours"}, number)
            return
        for command in commands:
            self.do(sender, number, command)

    def ask(self, sender, number, text):
        """A text that is no command."""
        asked, day = question_of(text), self.day
        about, account = asked or (None, None)
        if asked is None:
            body = {"error": "no command"}
        elif not may_know(sender, about):
            body = {"error": "not yours"}
        elif about == ACCOUNT_OF and account not in day.accounts:
            body = {"error": "no account"}
        elif about in (MARKET, EXCHANGE):
            body = {MARKET: market_body, EXCHANGE: exchange_body}[about](day)
        else:
            body = account_body(day, account if about == ACCOUNT_OF else sender)
        self.tell(recipient_of(sender), body, number)

    def do(self, sender, number, asked):
        """A command: its entry, and who is told what of it."""
        place = len(self.pairs)
        if place < len(self.kept):
            if self.kept[place][:len(asked)] != asked:
                raise Differs(place + 1)
            answered = self.kept[place][len(asked):]
        else:
            answered = self.reply(asked)
        body, live = command_body(asked, self.day.tickers), self.day.live()
        self.pairs.append(asked + answered)
        self.day.take(place + 1, asked[0], asked[HEAD:], answered[0], answered[HEAD:])
        own = self.tell_served(sender, number, account_in(asked), {**body, **self.outcome(answered[0], answered[HEAD:])}, answered)
        self.writes.append(b"".join([*own, *self.tell_all(answered[0]), *self.tell_fills(answered[0], live)]))

    def outcome(self, reply, answer):
        """What follows the command in the answer to its sender."""
        number = int.from_bytes(answer, "big")
        if reply == ORDER:
            return {"order": number}
        if reply == ACCOUNT:
            return {"account": number}
        if reply == REFUSED:
            return {"refused": REFUSALS[number]}
        if reply not in (CLEARED, SKIPPED):
            return {}
        batch = self.day.batches[-1]
        if reply == CLEARED:
            residuals = by_ticker(self.day.tickers, batch.residuals)
            return {"batch": batch.number, "cleared": True, "gap": str(batch.gap), "residuals": residuals}
        return {"batch": batch.number, "cleared": False, "moves": len(batch.trace)}

    def tell_served(self, sender, number, account, body, answered):
        """What the sender is told, and if that is the operator, the account that the command names or opens."""
        yield self.message(recipient_of(sender), body, number, len(self.pairs) if sender == 0 else None)
        if answered[0] == ACCOUNT:
            account = int.from_bytes(answered[HEAD:], "big")
        if sender == 0 and account in self.day.accounts:
            yield self.message(str(account), body)

    def tell_all(self, reply):
        if reply == ASSET:
            yield self.message(ALL, {"do": "asset", "ticker": self.day.tickers[-1]})
        if reply in (CLEARED, SKIPPED):
            batch = self.day.batches[-1]
            prices = {"prices": by_ticker(self.day.tickers, map(str, batch.prices))} if batch.cleared() else {}
            yield self.message(ALL, {"do": "batch", "batch": batch.number, "cleared": batch.cleared(), **prices})

    def tell_fills(self, reply, live):
        """What accounts with orders that were live before a batch are told of these, if it cleared."""
        for account in sorted({order.account for order in live} if reply == CLEARED else ()):
            batch = self.day.batches[-1]
            own = [trade for trade in batch.trades if trade.order.account == account]
            fills = [{"order": o.number, "rate": rate, "cost": str(o.cost(batch.prices) * rate)} for o, _, rate in own]
            yield self.message(str(account), {"do": "batch", "batch": batch.number, "fills": fills})
