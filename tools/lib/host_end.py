"""How `flow host` ends on any file and any input, what it writes, and what the file holds then, by the documents alone."""
import io
import re

from checkpoint_file import MAGIC, checkpoint_of, consistent_market
from host_rules import Differs, Host
from kept_file import FIRST_COMMIT, MOST_UNKEPT, OPEN, Damaged, Foreign, begin, file_of, is_new, next_pair
from second_opinion import second_end

DONE, NOT_FLOW, REJECTED, BAD_CHECKPOINT, NOT_DISK, DAMAGED, DIFFERS = 0, 2, 7, 10, 13, 14, 15
VERSION = re.compile(rb'\{"version":([1-4])\}\n')


class Stopped(Exception):
    """The status, and the number in its line."""


class KeptFile:
    """The entries that a file keeps, its beginning, and where it is damaged: at its first entry that is told at once, and else once the lines come there."""

    def __init__(self, held):
        self.head, self.pairs, self.damage, self.invalid = None, [], None, None
        if is_new(held):
            return
        file = io.BytesIO(held)
        try:
            self.head = begin(file)
        except Foreign:
            raise Stopped(NOT_DISK, None) from None
        except Damaged as at:
            raise Stopped(DAMAGED, at.args[0]) from None
        self.read(file, len(held))
        if self.damage == FIRST_COMMIT:
            raise Stopped(DAMAGED, FIRST_COMMIT)
        start = self.head.checkpoint or b"FLOWJNL%d" % self.head.version
        (status, line), _ = second_end(start + b"".join(self.pairs))
        self.invalid = int(line.split()[2]) if status == REJECTED else None

    def read(self, file, size):
        while True:
            place, commit = file.tell(), file.read(1)
            if commit and commit != OPEN:
                self.damage = place if size - place - 1 > MOST_UNKEPT else None
                return
            pair = next_pair(file) if commit else b""
            if not pair:
                self.damage = place
                return
            self.pairs.append(pair)


class Replay(Host):
    """The lines of many senders on a file. What isn't in it is served by the market that `market_of` makes of a checkpoint."""

    def __init__(self, kept, version, kept_market, market_of):
        super().__init__(self.serve, version, kept_market, kept.pairs)
        self.file, self.market, self.market_of = kept, None, market_of

    def do(self, sender, number, asked):
        if len(self.pairs) + 1 == self.file.invalid:
            raise Stopped(REJECTED, self.file.invalid)
        super().do(sender, number, asked)

    def serve(self, asked):
        if self.file.damage is not None:
            raise Stopped(DAMAGED, self.file.damage)
        self.market = self.market or self.market_of(checkpoint_of(self.day))
        return self.market.serve(asked)


def beginning_of(given):
    """What an input begins with: a version, or a checkpoint with its bytes, and how many bytes come before the lines."""
    if given.startswith(MAGIC):
        market, size = consistent_market(given)
        if market is None:
            raise Stopped(BAD_CHECKPOINT, None)
        return market.version, market, given[:size], size
    line = VERSION.match(given)
    if line is None:
        raise Stopped(NOT_FLOW, None)
    return int(line[1]), None, b"", line.end()


def host_end(held, given, market_of):
    """The status and the number in its line, the output, and what the file holds then, which held these bytes, or None where there is no
    file."""
    try:
        kept = KeptFile(held or b"")
        version, market, front, size = beginning_of(given)
        if kept.head is not None and kept.head != (version, front):
            raise Stopped(DIFFERS, 0)
    except Stopped as end:
        return end.args, b"", held
    host, out, end = Replay(kept, version, market, market_of), [], (DONE, None)
    for line in given[size:].split(b"\n")[:-1]:
        try:
            host.line(line)
        except Differs as at:
            end = DIFFERS, at.args[0]
        except Stopped as stop:
            end = stop.args
        out += host.writes
        if end[0] != DONE:
            break
    if kept.head is not None and len(host.pairs) <= len(kept.pairs):
        return end, b"".join(out), held
    return end, b"".join(out), file_of(host.pairs, version=version, checkpoint=front)
