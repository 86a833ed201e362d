"""Programs that are given their input piece by piece, and answer in between."""
import os
import select
import subprocess
import time


def read_within(stream, count, seconds=20):
    """As many bytes of a pipe, or those that have come when its time is over or it has ended."""
    got, last = b"", time.monotonic() + seconds
    while len(got) < count and select.select([stream], [], [], max(0, last - time.monotonic()))[0]:
        more = os.read(stream.fileno(), count - len(got))
        if not more:
            break
        got += more
    return got


def answers_to(command, asked):
    """Gives a program one piece of its input after the other, each once the answer to the piece before has come, and says
    if it answers or ends otherwise. What is asked are pieces with their answers."""
    how = {"stdin": subprocess.PIPE, "stdout": subprocess.PIPE, "stderr": subprocess.PIPE, "bufsize": 0}
    with subprocess.Popen(command, **how) as ran:
        for number, (piece, answer) in enumerate(asked):
            ran.stdin.write(piece)
            got = read_within(ran.stdout, len(answer))
            if got != answer:
                ran.kill()
                return [f"to piece {number} the answer is {got[:40]!r} and not {answer[:40]!r}"]
        ran.stdin.close()
        rest = ran.stdout.read() + ran.stderr.read()
        return [f"it ended with {ran.wait()} and {rest!r}"] if ran.wait() or rest else []
