"""A reader of the files that `flow keep`, `flow serve` and `flow host` write, and files that they may write, by the formats alone."""
import os
import struct
from collections import namedtuple

import checkpoint_file
from formats import DONE, HEAD, SKIPPED, VERSIONS

# By the version of the journal.
MAGICS = {version: b"FLOWDSK%d" % version for version in VERSIONS}
MAGIC = MAGICS[2]
FIRST_COMMIT = len(MAGIC)
OPEN, CLOSED = b"\x01", b"\0"

# A file of at most this many bytes is a new one, whatever it holds. A longer one is new if its first commit byte isn't set.
MOST_NEW = 9

# A file that isn't new has at most this many bytes after the commit byte that ends its entries.
MOST_UNKEPT = 2 ** 21

# The longest bodies of a command's record and of a reply's.
MOST_ASKED, MOST_ANSWERED = 1_024, 262_144
LONGEST = MOST_ASKED + MOST_ANSWERED + 2 * HEAD

# The most bytes that one write of an entry has: its length, the entry and the next commit byte. A stop leaves no more after the commit byte
# that ends the entries, but where a checkpoint was being written.
MOST_WRITTEN = 4 + LONGEST + 1

# The most bytes that one write of a group of entries has, as `flow host` keeps them: of each entry its length, the entry and the next commit byte.
MOST_GROUP = 2 ** 20

# How a file begins that isn't new: its version, and the checkpoint in its first entry, or no bytes.
Head = namedtuple("Head", "version checkpoint")


class Foreign(Exception):
    """The file holds something else."""


class Damaged(Exception):
    """The file has no complete entry where one should begin, at this byte, or too much follows a commit byte that isn't set."""


class NotCut(Exception):
    """More follows a commit byte that isn't set than a stop leaves, and the next start cuts it off: what follows which byte."""


def is_pair(pair):
    """Whether these bytes are just two records, each within its limit."""
    place = 0
    for most in (MOST_ASKED, MOST_ANSWERED):
        length = int.from_bytes(pair[place + 1:place + HEAD], "big")
        if len(pair) < place + HEAD + length or length > most:
            return False
        place += HEAD + length
    return place == len(pair)


def is_new(front):
    """Whether a file that begins with these bytes, or has just these, is a new one."""
    return len(front) <= MOST_NEW or front[:len(MAGIC)] in MAGICS.values() and front[len(MAGIC):MOST_NEW] != OPEN


def first_checkpoint(file, version):
    """The checkpoint in the first entry of an open file, which follows the magic, or no bytes if no entry of the file has one."""
    commit, length, front = file.read(1), int.from_bytes(file.read(4), "big"), file.read(len(checkpoint_file.MAGIC))
    if commit != OPEN or front != checkpoint_file.MAGIC:
        file.seek(len(MAGIC))
        return b""
    held = front + file.read(max(0, length - len(front)))
    market, size = checkpoint_file.consistent_market(held)
    if market is None or size != length or market.version != version:
        raise Damaged(len(MAGIC))
    return held


def begin(file):
    """How an open file begins, which entries may follow, or None if it is a new one."""
    front = file.read(MOST_NEW + 1)
    file.seek(len(MAGIC))
    if is_new(front):
        return None
    for version, magic in MAGICS.items():
        if front.startswith(magic):
            return Head(version, first_checkpoint(file, version))
    raise Foreign


def next_pair(file):
    """The entry whose length comes next in an open file, or no bytes if there is no complete one."""
    length = int.from_bytes(file.read(4), "big")
    pair = file.read(length) if length <= LONGEST else b""
    return pair if len(pair) == length and is_pair(pair) else b""


def stored(file, commit, place, count):
    """At most this many bytes of an open file from a place on, which comes after a commit byte that wasn't set. None if it is set by now:
    then a writer is at work, and the entries go on there. While it isn't set, no writer has stored more than one entry after it, or one group."""
    held = os.pread(file.fileno(), count, place)
    return b"" if os.pread(file.fileno(), 1, commit) == OPEN else held


def pairs_from(file):
    """The entries of an open file from the next commit byte on, one after the other. Then the file is just after the commit byte that isn't
    set."""
    while True:
        place, commit = file.tell(), file.read(1)
        if commit and commit != OPEN:
            if len(stored(file, place, place + 1, MOST_UNKEPT + 1)) > MOST_UNKEPT:
                raise Damaged(place)
            return
        pair = next_pair(file) if commit else b""
        if not pair:
            raise Damaged(place)
        yield pair


def kept_pairs(file):
    """The entries that an open file keeps after its beginning, one after the other."""
    if begin(file) is not None:
        yield from pairs_from(file)


def is_entry_at(held, at):
    """Whether the length of an entry is there in what is held, and after it just two records of which the second is a reply."""
    pair = held[at + 4:at + 4 + int.from_bytes(held[at:at + 4], "big")]
    if len(pair) != int.from_bytes(held[at:at + 4], "big") or not is_pair(pair):
        return False
    return DONE <= pair[HEAD + int.from_bytes(pair[1:HEAD], "big")] <= SKIPPED


def has_entry(held):
    """Whether a set commit byte and a complete entry after it are anywhere in these bytes."""
    at, view = held.find(OPEN), memoryview(held)
    while at >= 0 and not is_entry_at(view, at + 1):
        at = held.find(OPEN, at + 1)
    return at >= 0


def is_followed(file, place, held):
    """Whether entries follow the commit byte at this place, after which these bytes are: a kept one just after a checkpoint, more than one
    byte after a complete entry, or a kept entry anywhere if no complete one comes first."""
    length = int.from_bytes(held[:4], "big")
    if place == FIRST_COMMIT and held[4:].startswith(checkpoint_file.MAGIC):
        later = stored(file, place, place + 1 + 4 + length, 1 + 4 + LONGEST)
        return later.startswith(OPEN) and is_entry_at(later, 1)
    if is_entry_at(held, 0):
        return len(held) > 4 + length + 1
    return has_entry(held)


def refuse_uncut(file, place, in_groups=False):
    """Refuses an open file of which the entries end at this commit byte, if more follows than a stop leaves, which is one entry with the
    next commit byte, or a part of that. If a commit byte or a block was changed, a start would cut off all that follows it. Where entries
    are kept in groups, it is a group, or a part of that."""
    held = stored(file, place, place + 1, MOST_UNKEPT + 1)
    if in_groups:
        if len(held) > MOST_GROUP and place > FIRST_COMMIT:
            raise NotCut(f"more than {MOST_GROUP} bytes follow byte {place}")
        return
    if is_followed(file, place, held):
        raise NotCut(f"entries follow byte {place}")
    # (at the first one a checkpoint may have been written)
    if len(held) > MOST_WRITTEN and place > FIRST_COMMIT:
        raise NotCut(f"more than {MOST_WRITTEN} bytes follow byte {place}")


# Of a new file, which has no version yet.
NO_VERSION_YET = Head(2, b"")


def put_history(file, out, in_groups=False):
    """Writes the history that an open file keeps: its checkpoint, or the magic of a journal, and its entries, and says how many these are.
    Refuses a file of which a start would cut off entries, after it has written the others. They may be kept in groups."""
    begun, count = begin(file), 0
    head = begun or NO_VERSION_YET
    out.write(head.checkpoint or b"FLOWJNL%d" % head.version)
    for pair in pairs_from(file) if begun else ():
        out.write(pair)
        count += 1
    refuse_uncut(file, file.tell() - 1 if begun else FIRST_COMMIT, in_groups)
    return count


def entry(held):
    """An entry as it is stored, with its commit byte set."""
    return OPEN + struct.pack(">I", len(held)) + held


def file_of(pairs, behind=CLOSED, version=2, checkpoint=b""):
    """The bytes of a file that keeps these entries of a version, after a checkpoint or none, and what follows them."""
    first = entry(checkpoint) if checkpoint else b""
    return MAGICS[version] + first + b"".join(map(entry, pairs)) + behind
