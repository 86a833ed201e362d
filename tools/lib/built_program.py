"""The built program, for the tools: where it is, journals that it finds valid, and what is put before it."""
import functools
import io
import os
import shutil
import subprocess
import sys
import tempfile

from kept_file import Damaged, Foreign, NotCut, put_history

TOP = os.path.realpath(f"{__file__}/../../..")


@functools.lru_cache(None)
def program():
    """The place of the program that is built from the sources as they are; it is built first if there is none. Ends as
    tools/program does if it can't be built."""
    made = subprocess.run([f"{TOP}/tools/program"], stdin=subprocess.DEVNULL, stdout=subprocess.PIPE)
    if made.returncode:
        sys.exit(made.returncode)
    return os.fsdecode(made.stdout[:-1])


def bytes_of(place):
    """What a file holds."""
    with open(place, "rb") as file:
        return file.read()


def output_of(word, given):
    """What a subcommand writes. If it isn't done, its line is printed, and the tool ends with its status."""
    ran = subprocess.run([program(), word], input=given, stdout=subprocess.PIPE)
    if ran.returncode:
        sys.exit(ran.returncode)
    return ran.stdout


def with_places(front, file):
    """An open file of which this was read, so that any place of it can be read: itself, or what it holds if it is a pipe."""
    if file.seekable():
        file.seek(0)
        return file
    whole = tempfile.TemporaryFile()
    whole.write(front + file.read())
    whole.seek(0)
    return whole


def history_of(place):
    """The history in a file: what it holds, or what it keeps if it is one that `flow keep` writes, also while it does."""
    kept = io.BytesIO()
    try:
        with open(place, "rb") as file:
            front = file.read(7)
            if front != b"FLOWDSK":
                return front + file.read()
            put_history(with_places(front, file), kept)
    except Foreign:
        sys.exit(f"{os.path.basename(sys.argv[0])}: {place} is not a flow disk")
    except Damaged as at:
        sys.exit(f"{os.path.basename(sys.argv[0])}: {place} is damaged at byte {at}")
    except NotCut as why:
        sys.exit(f"{os.path.basename(sys.argv[0])}: {place} is not cut: {why}")
    return kept.getvalue()


def valid_history(place):
    """The bytes of the history in a file, which `flow audit` finds valid."""
    history = history_of(place)
    output_of("audit", history)
    return history


def compiled(source, folder, *options):
    """What a C compiler makes of a source in tools/lib, or nothing if there is none that makes it."""
    made = f"{folder}/{os.path.splitext(source)[0]}"
    for compiler in filter(None, [os.environ.get("CC"), "cc", "gcc", "clang"]):
        if shutil.which(compiler):
            if subprocess.run([compiler, "-O1", *options, "-o", made, f"{TOP}/tools/lib/{source}", "-ldl"]).returncode == 0:
                return made
    return None


def library_of(source, folder):
    """A library of it, for the loader to put before the C library."""
    return compiled(source, folder, "-shared", "-fPIC")
