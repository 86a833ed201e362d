"""What tools/second_audit finds of a journal: as a script of its own it can be started, and here it is called."""
import io
import os
import re

from formats import name_of, records, signed
from scripts import script

SECOND_AUDIT = os.path.realpath(f"{__file__}/../../second_audit")

second_audit = script(SECOND_AUDIT)


def second_end(journal):
    """How it ends, with which line on standard error, and what it writes."""
    try:
        line = second_audit.audit(second_audit.Input(io.BytesIO(journal)))
    except second_audit.End as end:
        return (end.status, f"{end.line}\n".encode()), b""
    return (0, b""), f"{line}\n".encode()


def second_sentences(journal):
    """What it says of the first invalid entry: what is wrong, what the entry says, and what is right; and of its command before that."""
    try:
        second_audit.audit(second_audit.Input(io.BytesIO(journal)))
    except second_audit.End as end:
        return re.fullmatch(r"(Entry \d+ asks for this: .*)\.\nWhat is wrong is (.*)\.\nThe entry says: (.*)\.\nRight is: (.*)\.\n", end.sentences)
    return None


def listed(body):
    """What is in a reply Cleared, as its own counts say: its prices, its orders with their rates, its residuals and its gap."""
    n = int.from_bytes(body[4:6], "big")
    behind = 10 + 8 * n
    k = int.from_bytes(body[behind - 4:behind], "big")
    rates = [(int.from_bytes(body[at:at + 8], "big"), int.from_bytes(body[at + 8:at + 12], "big")) for at in range(behind, behind + 12 * k, 12)]
    return signed(body, 6, 8, n), rates, signed(body, behind + 12 * k, 8, n), signed(body, behind + 12 * k + 8 * n, 16, 1)[0]


def expected_sentences(journal, number, found):
    """What of an entry is wrong by `flow explain`, which finds this of it: regular expressions of the three sentences."""
    every = records(journal)
    tickers = [name_of(body) for (_, body), (tag, _) in zip(every[:2 * number - 2:2], every[1:2 * number - 2:2]) if tag == 129]
    (asked, _), (tag, body) = every[2 * number - 2:2 * number]
    words, place = found.split(), int(re.sub(r"\D", "", found) or 0)
    if tag == 133 and words[0] in ("price", "rate", "residual", "gap"):
        prices, rates, residuals, gap = listed(body)
    if found == "no reply":
        return "the reply", f"no reply, but tag {tag} and {len(body)} bytes", ".*"
    if words[0] in ("reply", "batch"):
        right = re.sub("^reply | expected$", "", found)
        return "the reply", ".*", f"{right} cleared or skipped" if words[0] == "batch" else f"{right}(, \\w+)?"
    if words[0] == "price":
        return f"the price of {re.escape(tickers[place])} in grains", prices[place], ".*"
    if words[0] == "rate":
        return f"the rate of order {rates[place][0]}", rates[place][1], ".*"
    if words[0] == "residual":
        return f"the residual of {re.escape(tickers[place])} in units", residuals[place], ".*"
    if words[0] == "gap":
        return "the gap in grains", gap, r"-?\d+"
    if found == "trace length":
        return "the number of moves in the trace", len(body) - 40, int.from_bytes(body_of(journal, number), "big")
    if words[:2] == ["trace", "step"]:
        asset = body[40 + place]
        named = re.escape(tickers[asset]) if asset < len(tickers) else f"asset {asset}, which isn't there"
        return f"move {place} of the trace, counted from 0", named, "an asset that isn't settled then"
    if words[1:] and words[1] == "dual":
        stated, = signed(body, 4 if words[0] == "start" else 20, 16, 1)
        return f"the {words[0]} dual in grains", stated, words[2]
    return {"count": ("(place .* of the list of orders|the number of (prices|orders)).*", ".*", ".*"),
            "one-asset book": ("the outcome", "skipped", "cleared, since no live order names two assets"),
            "all settled": ("the outcome", "skipped", "cleared, since all assets are settled where the trace ends")}[found]


def body_of(journal, number):
    """The body of an entry's command."""
    return records(journal)[2 * number - 2][1]


def says_the_same(journal, found):
    """Whether its sentences on the first invalid entry are of what `flow explain` finds, with the numbers in the entry."""
    number, finding = re.fullmatch(r"pair (\d+): (.*)\n", found.decode()).groups()
    sentences = second_sentences(journal)
    expected = (f"Entry {number} asks for this: .+", *expected_sentences(journal, int(number), finding))
    return sentences is not None and all(re.fullmatch(str(right), said) for right, said in zip(expected, sentences.groups()))
