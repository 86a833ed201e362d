#!/usr/bin/python3
"""A desk of a venue, which is tools/client.py over the broker: sends lines, each of which counts once, and gets each message once.

    tools/venue/desk.py SETTINGS NUMBER OWN < LINES

SETTINGS is the settings.json of the broker; NUMBER is the desk's account, or 0 for the operator; OWN is the desk's own file, in which it notes
what it sends and gets. It prints each message to it and to all, and ends once its lines have ended and all are answered. After any stop it is
started again with the same OWN, and with the lines that aren't in it yet. A new log needs a new OWN. docs/VENUE.md has the rest."""
import json
import os
import re
import select
import sys
import time

sys.dont_write_bytecode = True
sys.path[:0] = [os.path.realpath(f"{__file__}/{up}") for up in ("..", "../..", "../../lib")]
import client
from carrier import PATIENCE, DeskLink
from tool_run import Usage, run_tool


class Desk(DeskLink, client.Desk):
    """`send(text)` notes a line and gives it a number; it isn't called while `is_full()`. `messages(seconds)` hands lines to the broker, and
    returns the messages that came, once there are some or so many seconds have passed."""

    def __init__(self, settings, number, own):
        DeskLink.__init__(self, settings, number, number, 0)
        self.taken, self.ahead, self.answered = [], {}, -1
        client.Desk.__init__(self, number, own, lambda text, at: self.out.update({at: text}))
        self.at = os.open(f"{own}.at", os.O_RDWR | os.O_CREAT, 0o600)  # a place in its stream, up to which OWN has all
        with open(own, "rb") as file:
            self.is_known = any(line.startswith(b'{"id"') for line in file)
        self.place = int(os.pread(self.at, 20, 0) or 0) if self.is_known else 0

    def is_full(self):
        return not self.is_known or len(self.unanswered) >= (client.MOST_UNANSWERED if self.number else 1)

    def note(self, text):
        self.file.write(text + b"\n")  # (on the disk before a line is handed over; messages can be read again)

    def count(self, message):
        """A clock's batches are lines of the operator too. If one has taken the number of another line of the operator, that gets the next."""
        line = message.get("line", 0)
        if not self.number and message.get("do") == "batch" and "batch" not in self.unanswered.get(line, "batch"):
            self.unanswered[line + 1] = self.out[line + 1] = self.unanswered.pop(line)
            self.last = line + 1
        super().count(message)
        self.last = max(self.last, line)

    def came(self, text, at):
        message = json.loads(text or b'{"to":"all","number":0}')
        to = message["to"]
        if message["number"] > self.told[to]:
            self.ahead[to, message["number"]] = message, text, at  # (when a leader changes, messages may change places or be told anew)
        while (to, self.told[to] + 1) in self.ahead:
            self.accept(*self.ahead.pop((to, self.told[to] + 1)))
        self.place = self.place if self.ahead or self.pieces.held else at + 1

    def accept(self, message, text, at):
        if not self.is_known and "expected" in message:
            self.last, self.answered = max(self.last, message["expected"] - 1), at
        if self.take(text):
            self.taken.append(text)
        if "line" in message or "expected" in message:
            self.moved, self.patience = self.heard, PATIENCE

    def connect(self):
        self.place = 0 if self.ahead else self.place
        super().connect()
        self.again()
        if not self.is_known:
            self.find_end()
            self.out[0] = ""  # (no line has this number, so that the answer is the one that is expected)

    def messages(self, seconds):
        now = time.monotonic()
        self.moved = self.moved if self.unanswered or self.ahead or not self.is_known else now
        self.is_known = self.is_known or self.answered >= self.live
        if self.missing and now > self.moved + 1:
            self.again()
        if self.out:
            self.file.flush()
            os.fsync(self.file.fileno())
            os.pwrite(self.at, b"%020d" % self.place, 0)
        self.turn(seconds)
        taken, self.taken = self.taken, []
        self.file.flush()
        return taken


def follow(desk):
    """Sends the lines of standard input, and prints the messages that come."""
    held, is_open = b"", True
    while is_open or held or desk.unanswered:
        if is_open and b"\n" not in held and select.select([0], [], [], 0)[0]:
            read = os.read(0, 65_536)
            is_open, held = bool(read), held + (read or b"\n" * bool(held))
        while b"\n" in held and not desk.is_full():
            line, _, held = held.partition(b"\n")
            if line.strip(b" \t\r"):
                desk.send(line.decode())
        for message in desk.messages(0.1 if desk.is_full() or not is_open else 0.01):
            os.write(1, message + b"\n")
        if desk.trouble:
            os.write(2, f"desk.py: {desk.trouble!r}\n".encode())
            desk.trouble = None


def main():
    if len(sys.argv) != 4 or not re.fullmatch(r"0|[1-9]\d*", sys.argv[2]):
        raise Usage
    try:
        return follow(Desk(sys.argv[1], int(sys.argv[2]), sys.argv[3]))
    except (client.OutOfStep, ValueError) as fault:
        return f"desk.py: {fault}"


if __name__ == "__main__":
    run_tool(main, __doc__)
