"""The comments of files of code, and the texts with which files, functions and classes of Python begin.

    of(name, text)     the first line of each and its words; lines of comments that follow each other are one, up to an empty one
"""
import io
import re
import tokenize

BEGINS = {".rt": re.compile(r"(?:^|\s)//[/!]?(?:\s|$)"), ".antt": re.compile(r"(?:^|\s)--(?:\s|$)")}
OF_SHELL = re.compile(r"^\s*#(?:\s|$)")
OF_C = re.compile(r"/\*(.*?)\*/", re.DOTALL)
BEFORE_STATEMENTS = {None, tokenize.NEWLINE, tokenize.INDENT, tokenize.DEDENT}


def by_lines(begins, text):
    """The lines of comments that begin so. In a script of the shell these have nothing before them."""
    for at, line in enumerate(text.split("\n"), 1):
        found = begins.search(line)
        if found:
            yield at, line[found.end():]


def of_c(text):
    for found in OF_C.finditer(text):
        yield from enumerate(found[1].split("\n"), 1 + text.count("\n", 0, found.start()))


def of_python(text):
    """The lines of the comments of a Python file, and of those of its strings that are a statement, without indented blocks."""
    before = None
    for token in tokenize.generate_tokens(io.StringIO(text).readline):
        if token.type == tokenize.COMMENT and not token.string.startswith("#!"):
            yield token.start[0], token.string.lstrip("#")
        if token.type == tokenize.STRING and before in BEFORE_STATEMENTS:
            indented = " " * (token.start[1] + 4)
            for at, line in enumerate(token.string.strip('"').split("\n"), token.start[0]):
                yield at, "" if line.startswith(indented) else line
        if token.type not in (tokenize.COMMENT, tokenize.NL):
            before = token.type


def lines_in(name, text):
    ending = re.search(r"(\.\w+)?$", name)[0]
    if ending == ".py" or re.match("#!.*python", text):
        return of_python(text)
    return of_c(text) if ending == ".c" else by_lines(BEGINS.get(ending, OF_SHELL), text)


def of(name, text):
    first, last, words = 0, 0, []
    for at, line in [*lines_in(name, text), (0, "")]:
        if words and (at != last + 1 or not line.strip()):
            yield first, " ".join(words)
            words = []
        if line.strip():
            first = first if words else at
            words.append(line.strip())
        last = at
