"""Envelopes, which are the lines of many senders, and the answers of `flow host`, by the formats alone."""
import json
from collections import namedtuple

from command_lines import READER, Object, see

# How the program names the operator and all accounts together as recipients; an account is named by its number.
OPERATOR, ALL = "operator", "all"

# The most bytes of a line before its line feed, and of the text in it.
MOST_ENVELOPE, MOST_TEXT = 262_144, 32_768
MOST_SENDER, MOST_ID = (1 << 32) - 1, (1 << 63) - 1
BLANKS = b" \t\r"

# The sender, 0 for the operator; the text; and the line's number, or None if it says none.
Envelope = namedtuple("Envelope", "sender text id")

# To whom it is, and the how-manieth message to them; the number of the recipient's own line that it answers, and that of the entry, or None;
# and its other members.
Answer = namedtuple("Answer", "to number line entry body")


def beginning(version):
    """The first line of an input that begins with no checkpoint."""
    return b'{"version":%d}\n' % version


def envelope(sender, text, number=None):
    """The line in which a sender sends a text."""
    told = {"from": sender, "line": text, **({} if number is None else {"id": number})}
    return json.dumps(told, ensure_ascii=False, separators=(",", ":")).encode("utf-8") + b"\n"


def is_number(value, most):
    return type(value) is int and 0 <= value <= most


def read_envelope(line):
    """What a line says that isn't blank, without its line feed, or None if it is no envelope."""
    try:
        told = READER.decode(line.decode("utf-8"))
        see(told)
    except (ValueError, RecursionError):
        return None
    if len(line) > MOST_ENVELOPE or not isinstance(told, Object):
        return None
    names, members = [name for name, _ in told], dict(told)
    if sorted(names) not in (["from", "line"], ["from", "id", "line"]):
        return None
    is_formed = is_number(members["from"], MOST_SENDER) and isinstance(members["line"], str) and is_number(members.get("id", 0), MOST_ID)
    return Envelope(members["from"], members["line"], members.get("id")) if is_formed else None


def read_answer(line):
    """An answer by its line."""
    body = json.loads(line)
    to, number = body.pop("to"), body.pop("number")
    return Answer(to, number, body.pop("line", None), body.pop("entry", None), body)


def answers_in(text):
    """The answers in some output, up to its last line feed."""
    return [read_answer(line) for line in text.split(b"\n")[:-1]]


def recipient_of(sender):
    """How answers name a sender."""
    return OPERATOR if sender == 0 else str(sender)


def seen_by(answers, sender):
    """The answers that are for a sender: its own, and those to all."""
    return [answer for answer in answers if answer.to in (recipient_of(sender), ALL)]
