"""Random inputs of `flow host`: a day of several senders, with lines that ask for what isn't theirs, that are nearly envelopes, and that
come twice or too early."""
import json
import random

from envelopes import MOST_ENVELOPE, MOST_TEXT, envelope

TICKERS, ACCOUNTS = ["A", "BB", "C.C"], 5
BLANK_TEXTS = ["", " ", "\t\r "]
NO_COMMANDS = ["x", "{", "[]", "null", '{"do":"batch"}', '{"do":"buy","account":1}', '{"ask":"time"}', '{"ask":"account","account":-1}', '{"ask":"market","more":1}',
               '{"do":"cancel","account":1,"order":1.0}', '{"do":"account"}\n', '{"from":0,"line":"{}"}', '"', "\\", "\u00e4", "\U0001f600", "\x7f", "\x1f"]
NO_ENVELOPES = [b"{}", b"x", b"[]", b'{"from":0}', b'{"line":"{}"}', b'{"from":0,"line":{}}', b'{"from":"0","line":"{}"}', b'{"from":-1,"line":""}',
                b'{"from":0.0,"line":""}', b'{"from":4294967296,"line":""}', b'{"from":0,"from":0,"line":""}', b'{"from":0,"line":"","id":-1}',
                b'{"from":0,"line":"","id":9223372036854775808}', b'{"from":0,"line":"\xff"}', b'{"from":0,"line":"\\ud800"}', b'{"from":0,"line":"\n"}',
                b'{"from":0,"l\\u0069ne":"","line":""}', b'{"from":0,"line":"","to":"1"}', b'{"from":99,"line":"{\\"do\\":\\"account\\"}"}', b"\0"]


def text(**members):
    return json.dumps(members, separators=random.choice([(",", ":"), (", ", ": ")]))


def weights():
    named = random.sample(TICKERS, random.choice([1, 1, 1, 2, 3]))
    return {ticker: random.choice([-1, 1]) * random.choice([1, 1, 2, 3]) for ticker in named}


def placement(account):
    """A line that places orders."""
    terms, middle = weights(), 100
    price = middle * sum(terms.values()) + random.randint(-30, 20)
    if random.random() < 0.2:
        points = [[price, 9 * random.randint(2, 5)], [price + 10, random.choice([9, 4])], [price + 20, 0]]
        return text(do="ladder", account=account, points=points, turns=random.randint(1, 9), weights=terms)
    last = {"last": random.randrange(9)} if random.random() < 0.2 else {}
    rate = random.choice([0, 5, 30, 100])
    return text(do="place", **last, account=account, low=price, high=price + random.randint(0, 20), rate=rate, cap=rate * random.randint(1, 9), weights=terms)


def operators():
    """A line of the operator."""
    account, ticker = random.randint(0, ACCOUNTS + 1), random.choice(TICKERS)
    return random.choice([
        *[lambda: text(do="batch", budget=random.choice([0, 200, 200, 200]))] * 4,
        lambda: text(do="deposit", account=account, ticks=random.randint(0, 100_000)),
        lambda: text(do="deposit", account=account, asset=ticker, units=random.randint(0, 1_000)),
        lambda: text(do="withdraw", account=account, ticks=random.randint(0, 500_000)),
        lambda: text(do="withdraw", account=account, asset=ticker, units=random.randint(0, 9_000)),
        lambda: text(do="credit", account=account, ticks=random.randint(0, 100_000)),
        lambda: text(do="credit", account=account, asset=ticker, units=random.randint(0, 1_000)),
        lambda: text(do="asset", ticker=random.choice([*TICKERS, '"', "\\", "\x1f", "a"])),
        lambda: placement(account),
        lambda: text(do="cancel", account=account, order=random.randint(1, 60)),
        lambda: text(ask=random.choice(["market", "exchange", "account"])),
        lambda: text(ask="account", account=account),
    ])()


def accounts(account):
    """A line of an account, mostly about itself."""
    other = random.choice([*[account] * 9, random.randint(0, ACCOUNTS)])
    return random.choice([
        *[lambda: placement(other)] * 5,
        *[lambda: text(do="cancel", account=other, order=random.randint(1, 60))] * 2,
        lambda: text(ask=random.choice(["market", "account", "account", "exchange"])),
        lambda: text(ask="account", account=other),
        operators,
    ])()


def morning():
    """The lines with which the operator begins."""
    lines = [text(do="asset", ticker=ticker) for ticker in TICKERS] + [text(do="account")] * ACCOUNTS
    for account in range(1, ACCOUNTS + 1):
        lines.append(text(do="deposit", account=account, ticks=400_000))
        lines += [text(do="deposit", account=account, asset=ticker, units=8_000) for ticker in TICKERS]
    return [envelope(0, line) for line in lines]


def some_line(counted):
    """A line of the day, given how many lines of each sender were counted."""
    kind = random.random()
    if kind < 0.04:
        return random.choice([b"\n", b" \t\r\n"])
    if kind < 0.12:
        return random.choice(NO_ENVELOPES) + b"\n"
    if kind < 0.13:
        return random.choice([b" " * (MOST_ENVELOPE + 1), envelope(0, "x" * MOST_ENVELOPE)[:-1]]) + b"\n"
    sender = random.choice([0, 0, *range(1, ACCOUNTS + 1)])
    asked = operators() if sender == 0 else accounts(sender)
    if kind < 0.2:
        asked = random.choice([*NO_COMMANDS, *BLANK_TEXTS, " " * (MOST_TEXT + 1)])
    following = counted[sender] + 1
    number = random.choice([*[None] * 4, *[following] * 4, following - 1, following + 1, random.randrange(following + 1), (1 << 63) - 1])
    return envelope(sender, asked, number)


def day(host, count):
    """The lines of a day of so many after the morning, which the given market of the rules answers meanwhile; and the answers to each, and
    how many entries there are after it."""
    lines, answers, entries = [], [], []
    for at in range(-len(made := morning()), count):
        line = made[at] if at < 0 else some_line(host.counted)
        for each in line.splitlines(True) if line.count(b"\n") > 1 else [line]:
            lines.append(each)
            answers.append(b"".join(host.line(each[:-1])))
            entries.append(len(host.pairs))
    return lines, answers, entries
