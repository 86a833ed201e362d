"""How a tool begins and ends, whatever it does. It answers --help with its text. What it can't read or write it says in one sentence on
standard error. If nobody reads its output any more, it ends quietly, as any filter does."""
import os
import re
import select
import signal
import sys
from contextlib import suppress


class Usage(Exception):
    """The words on the command line are none of the tool's."""


def open_closed():
    """A standard stream that is closed fails at the first use, and no file that is opened later gets its place."""
    for number, way in ((0, os.O_WRONLY), (1, os.O_RDONLY), (2, os.O_WRONLY)):
        try:
            os.fstat(number)
        except OSError:
            os.open(os.devnull, way)
    sys.stdin = sys.stdin or open(0, closefd=False)
    sys.stdout = sys.stdout or open(1, "w", closefd=False)
    sys.stderr = sys.stderr or open(2, "w", closefd=False)


def reader_has_gone():
    """Whether nobody reads standard output."""
    poll = select.poll()
    poll.register(1, 0)
    return any(events & select.POLLERR for _, events in poll.poll(0))


def end_by(number):
    signal.signal(number, signal.SIG_DFL)
    os.kill(os.getpid(), number)


def sentence(fault):
    """What a failed call of the system is, in a sentence."""
    if isinstance(fault, BrokenPipeError) and reader_has_gone():
        end_by(signal.SIGPIPE)
    if fault.filename is None:
        return f"a read or a write failed: {fault.strerror}"
    return f"{os.fsdecode(fault.filename)}: {fault.strerror}"


def served(main, text, words):
    """What the tool returns or says. None and 0 are success."""
    if sys.argv[1:2] == ["--help"]:
        print(text.strip())
        return 0
    if words is not None and not re.fullmatch(words, " ".join(sys.argv[1:])):
        raise Usage
    return main()


def ended(main, text, words):
    try:
        return served(main, text, words)
    except SystemExit as end:
        return end.code


def run_tool(main, text, words=None):
    """Runs a tool with this text of help, and ends the process. `words` is a regular expression of what may follow its name, if `main`
    doesn't look at that itself."""
    open_closed()
    name = os.path.basename(sys.argv[0])
    try:
        status = ended(main, text, words)
        sys.stdout.flush()
    except Usage:
        status = f"{name}: these words are none that it takes; {name} --help shows which it does"
    except KeyboardInterrupt:
        end_by(signal.SIGINT)
    except OSError as fault:
        status = f"{name}: {sentence(fault)}"
    with suppress(OSError):
        sys.stdout.flush()
    with suppress(OSError):
        if isinstance(status, str):
            print(status, file=sys.stderr)
        sys.stderr.flush()
    status = 1 if isinstance(status, str) else status
    os._exit(status or 0)
