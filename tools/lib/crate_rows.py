"""What docs/ARCHITECTURE.md says each crate is: the first sentence of the crate's own documentation, so that this has one home. A row begins
with the crate's name, and the sentence is its second cell."""
import os
import re

ROW = re.compile(r"(?m)^\| `(\w+)` \| [^|]+ \|")
LINK = re.compile(r"\[(`[^`]+`)\](?:\([^)]*\))?")


def sentence_of(folder):
    """The first sentence of a crate's documentation, without its full stop and without links."""
    root = next(path for name in ("lib", "main") if os.path.exists(path := f"{folder}/src/{name}.rt"))
    lines = []
    with open(root, encoding="utf-8") as file:
        for line in file:
            if not line.startswith("//! "):
                break
            lines.append(line[4:].strip())
    return LINK.sub(r"\1", re.split(r"(?<=\.)\s", " ".join(lines))[0].removesuffix("."))


def with_sentences(page, crates):
    """The page with these sentences, of the crates in a folder."""
    return ROW.sub(lambda row: f"| `{row[1]}` | {sentence_of(f'{crates}/{row[1]}')} |" if os.path.isdir(f"{crates}/{row[1]}") else row[0], page)
