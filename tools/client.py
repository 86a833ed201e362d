#!/usr/bin/env python3
"""A desk of a market that `flow host` serves: sends lines, each of which counts once, and gets each message once.

    tools/client.py NUMBER LOG ANSWERS OWN < LINES

NUMBER is the desk's account, or 0 for the operator. LOG is the file of lines that the market follows, to which the desk appends envelopes;
ANSWERS is what the market writes, of which the messages to this desk and to all are printed; OWN is the desk's own file, in which it notes
what it sends and gets. It ends once its lines have ended and all are answered. Whoever stops, the desk or the market, is started again with
the same files: nothing is lost, and nothing counts or comes twice. A market with a new LOG needs a new OWN.

As a class it needs this one file alone: docs/CLIENT.md shows how."""
import json
import os
import re
import select
import signal
import sys
import time

MOST_UNANSWERED, MOST_BYTES = 50, 32_768


class OutOfStep(Exception):
    """The market and the desk's own file don't belong together, or messages are missing."""


class Desk:
    """`number` is the desk's account, or 0 for the operator; `place` is its own file, which is made if it isn't there; `carry` is called with
    the text and the id of each line, and hands both to what takes lines to the market, which adds who sent them."""

    def __init__(self, number, place, carry):
        self.carry, self.told = carry, {str(number) if number else "operator": 0, "all": 0}
        self.unanswered, self.last, self.missing = {}, 0, False
        self.file = open(place, "a+b")
        self.file.seek(0)
        noted = self.file.read()
        self.file.truncate(noted.rfind(b"\n") + 1)  # (a stop may have left a part of a line)
        for each in map(json.loads, noted.split(b"\n")[:-1]):
            if "to" not in each:
                self.last, self.unanswered[each["id"]] = each["id"], each["line"]
            else:
                self.count(each)
        self.again()

    def note(self, text):
        self.file.write(text + b"\n")
        self.file.flush()
        os.fsync(self.file.fileno())

    def count(self, message):
        self.told[message["to"]] = message["number"]
        for number in [number for number in self.unanswered if number <= message.get("line", 0)]:
            del self.unanswered[number]
            self.missing = False

    def is_full(self):
        """Whether so many lines have no answer that no more should be sent yet."""
        return len(self.unanswered) >= MOST_UNANSWERED

    def send(self, text):
        """Sends a line, noted before, and returns its number. It may not be blank, since a blank one gets no answer."""
        if not text.strip(" \t\r") or len(text.encode()) > MOST_BYTES:
            raise ValueError(f"a line is blank, or has more than {MOST_BYTES} bytes")
        self.note(json.dumps({"id": self.last + 1, "line": text}).encode())
        self.last += 1
        self.unanswered[self.last] = text
        self.carry(text, self.last)
        return self.last

    def again(self):
        """Sends again what has no answer; what comes twice counts once. To be called if `missing` stays set, or if no answer comes for long."""
        self.missing = False
        for number, text in self.unanswered.items():
            self.carry(text, number)

    def take(self, line):
        """Takes a line that the market has written. Returns the message in it, noted before, or None if it is for others or was taken before."""
        message = json.loads(line)
        to, number = message["to"], message["number"]
        if to not in self.told or number <= self.told[to]:
            return None
        expected = message.get("expected", self.last + 1)
        if number > self.told[to] + 1 or expected not in [*self.unanswered, self.last + 1]:
            raise OutOfStep(f"message {self.told[to] + 1} to {to} is missing, or none of the desk's lines is number {expected}")
        self.note(line)
        self.count(message)
        self.missing = self.missing or expected in self.unanswered
        return message


def lines_of(place):
    """The complete lines of a file that others write meanwhile, and None where there are no more yet. If it is begun again, so is this."""
    at, held = 0, b""
    while True:
        size = os.path.getsize(place) if os.path.exists(place) else 0
        at, held = (at, held) if size >= at else (0, b"")
        if size > at:
            with open(place, "rb") as file:
                file.seek(at)
                held += file.read(1 << 20)
                at = file.tell()
        *lines, held = held.split(b"\n")
        yield from [*lines, None]


def follow(desk, place):
    """Sends the lines of standard input, and prints the messages that come."""
    source, held, is_open, heard, patience = lines_of(place), b"", True, time.monotonic(), 5
    while is_open or held or desk.unanswered:
        for line in iter(source.__next__, None):
            if desk.take(line):
                os.write(1, line + b"\n")
                heard, patience = time.monotonic(), 5
        if is_open and b"\n" not in held and select.select([0], [], [], 0.01)[0]:
            read = os.read(0, 65_536)
            is_open, held = bool(read), held + (read or b"\n" * bool(held))
        while b"\n" in held and not desk.is_full():
            text, _, held = held.partition(b"\n")
            heard = heard if desk.unanswered else time.monotonic()
            if text.strip(b" \t\r"):
                desk.send(text.decode())
        if desk.unanswered and time.monotonic() > heard + (1 if desk.missing else patience):
            desk.again()
            heard, patience = time.monotonic(), min(2 * patience, 60)
        if desk.is_full() or not is_open:
            time.sleep(0.01)


def main(words):
    os.fstat(0), os.fstat(1)  # (no file that is opened later gets the place of a closed stream)
    if words == ["--help"]:
        return os.write(1, __doc__.strip().encode() + b"\n") and None
    if len(words) != 4 or not re.fullmatch(r"0|[1-9]\d*", words[0]):
        return "these words are none that it takes; client.py --help shows which it does"
    number, log = int(words[0]), os.open(words[1], os.O_WRONLY | os.O_APPEND | os.O_DSYNC)

    def carry(text, at):
        os.write(log, json.dumps({"from": number, "line": text, "id": at}).encode() + b"\n")
    return follow(Desk(number, words[3], carry), words[2])


if __name__ == "__main__":
    signal.signal(signal.SIGPIPE, signal.SIG_DFL)
    try:
        said = main(sys.argv[1:])
    except (OSError, OutOfStep, ValueError) as fault:
        said = fault
    if said:
        os.write(2, f"client.py: {said}\n".encode())
    os._exit(1 if said else 0)
