"""The subcommands of the program, a row each, and what README.md, docs/FORMATS.md, docs/flow.1, the launcher and the completions have of
them. Anyone who adds a subcommand or a form adds a row or a form here, and has `tools/words --write` put it there;
`tools/check/check_documents` sees that it was done."""
import re
import shlex
import textwrap
from collections import namedtuple

# The statuses, by their numbers, and the line that each but Done writes to standard error.
STATUSES = ("Done Usage NotFlow Torn ReadFault WriteFault NoMemory Rejected TooLong BadText BadCheckpoint NoAccount DiskFault NotDisk "
            "Damaged Differs").split()
SAID = ["", *(f"flow: {line}" for line in (
    "usage", "not a flow file", "torn at byte N", "read failed", "write failed", "no memory", "pair N is not legal",
    "more than 1099511627776 bytes", "line N is no command", "checkpoint is not sound", "no account N", "disk failed", "not a flow disk",
    "disk damaged at byte N", "entry N is not what the lines ask for"))]

# A subcommand: what may follow it on the command line, with the names of values in capitals; what it reads and writes, each the
# name of a file in capitals, if there is one, and words on it, with links within docs/FORMATS.md; how it ends but for Done,
# Usage, ReadFault, WriteFault and NoMemory; and a line on it.
Word = namedtuple("Word", "name forms source reads out writes ends line")

WORDS = [
    Word("encode", ["", "2", "3", "4"],
         "LINES", "[lines of JSON](#json-lines), perhaps after a checkpoint",
         "COMMANDS", "the [command file](#command-files) of version 1, 2, 3 or 4 that they ask for",
         "BadText TooLong BadCheckpoint",
         "lines of JSON: write a command file"),
    Word("run", [""],
         "COMMANDS", "a command file",
         "JOURNAL", "its [journal](#journals), each entry before the next record is read",
         "NotFlow Torn TooLong",
         "a command file: write its journal"),
    Word("audit", [""],
         "HISTORY", "a [history](#histories): a journal, or a checkpoint and entries",
         "", "one line, if it is complete and [valid](#audits)",
         "NotFlow Torn Rejected TooLong BadCheckpoint",
         "a journal, or a checkpoint and entries: is it valid?"),
    Word("explain", [""],
         "HISTORY", "a history",
         "", "that line, or what is [found](#what-is-found-of-an-entry) of the first invalid entry",
         "NotFlow Torn Rejected TooLong BadCheckpoint",
         "a journal, or a checkpoint and entries: what is wrong with it?"),
    Word("report", [""],
         "HISTORY", "a history",
         "", "the [text](#reports) of its valid entries",
         "NotFlow Torn Rejected TooLong BadCheckpoint",
         "a journal, or a checkpoint and entries: show it as text"),
    Word("statement", ["NUMBER"],
         "HISTORY", "a history",
         "", "the [statement](#statements) of the account of this number",
         "NotFlow Torn Rejected TooLong BadCheckpoint NoAccount",
         "a journal, or a checkpoint and entries: the statement of an account"),
    Word("checkpoint", [""],
         "HISTORY", "a history",
         "CHECKPOINT", "the [checkpoint](#checkpoints) of its market, if it is complete and valid",
         "NotFlow Torn Rejected TooLong BadCheckpoint",
         "a journal, or a checkpoint and entries: write its market"),
    Word("resume", [""],
         "JOURNAL_OR_CHECKPOINT_AND_COMMANDS", "a journal or a checkpoint, followed by commands",
         "PAIRS", "the [entries of these commands](#resuming)",
         "NotFlow Torn Rejected TooLong BadCheckpoint",
         "a journal or a checkpoint, and commands: write their entries"),
    Word("keep", ["FILE"],
         "COMMANDS", "a command file of FILE's version; if FILE is new, one of any version, perhaps after a checkpoint",
         "PAIRS", "the entry of each record, once [FILE](#kept-files), made if it isn't there, keeps it",
         "NotFlow Torn Rejected TooLong BadCheckpoint DiskFault NotDisk Damaged",
         "a command file: keep its journal in a file"),
    Word("serve", ["FILE"],
         "LINES", "[lines of JSON](#json-lines); if FILE is new, perhaps after a checkpoint",
         "TEXT", "the [answer to each line](#answers-to-lines), once [FILE](#kept-files), made if it isn't there, keeps its entries",
         "NotFlow Rejected TooLong BadCheckpoint DiskFault NotDisk Damaged",
         "lines of JSON: keep their journal in a file, and answer in text"),
    Word("host", ["FILE"],
         "ENVELOPES", "the [lines of many senders](#lines-of-many-senders), from the beginning of FILE on",
         "ANSWERS", "[answers](#answers-to-many-senders) in JSON, each for one recipient, once [FILE](#kept-files), made if it isn't there, keeps their entries",
         "NotFlow Rejected TooLong BadCheckpoint DiskFault NotDisk Damaged Differs",
         "lines of many senders: keep their journal in a file, and answer each"),
    Word("sample", ["NUMBER ORDERS"],
         "", "nothing",
         "LINE", "[one line](#samples-of-large-markets) on a large market, drawn, run and audited",
         "",
         "a number, and how many orders: try a large market"),
]


def numbers_of(word):
    """The statuses that a subcommand may end with, but for Usage, by their numbers."""
    names = {"Done", "WriteFault", "NoMemory", *word.ends.split(), *(["ReadFault"] if word.source else [])}
    return sorted(map(STATUSES.index, names))


def called(word):
    """The forms of a subcommand as they are typed."""
    return [f"{word.name} {form}".rstrip() for form in word.forms]


# ---- README.md and docs/FORMATS.md


def ends_of(word):
    """How a subcommand ends: by its statuses, or by an earlier one's and those that it has beside."""
    ends, before = word.ends.split(), WORDS[:WORDS.index(word)]
    within = [(len(each.ends), each) for each in before if each.ends and set(each.ends.split()) <= set(ends)]
    if not within:
        return ", ".join(ends)
    _, nearest = max(within, key=lambda pair: pair[0])
    more = [name for name in ends if name not in nearest.ends.split()]
    return f"as `{nearest.name}`" + (f", and {', '.join(more)}" if more else "")


def row(*cells):
    return f"| {' | '.join(cells)} |"


def readme_table():
    """Each subcommand in a line, without links."""
    yield row("subcommand", "reads", "writes", "other exit statuses")
    yield "|---|---|---|---|"
    for word in WORDS:
        reads, writes = (re.sub(r"\[([^]]+)\]\([^)]+\)", r"\1", cell) for cell in (word.reads, word.writes))
        yield row(", ".join(f"`{form}`" for form in called(word)), reads, writes, ends_of(word))


def formats_table():
    yield row("subcommand", "reads", "writes")
    yield "|---|---|---|"
    for word in WORDS:
        yield row(", ".join(f"`{form}`" for form in called(word)), word.reads, word.writes)


def files_of(word):
    return [f"{sign} {file}" for sign, file in (("<", word.source), (">", word.out)) if file]


def command_lines():
    """Each form of each subcommand, with its files."""
    for word in WORDS:
        for form in called(word):
            yield " ".join(["    ./flow", form, *files_of(word)])


# ---- docs/flow.1


def in_manual(name):
    return name.lower().replace("_", "-")


def synopsis():
    for word in WORDS:
        yield from [".Nm", f".Cm {word.name}"]
        choices = [form for form in word.forms if form.isdigit()]
        if choices:
            yield f".Op Cm {' | '.join(choices)}"
        elif word.forms != [""]:
            yield f".Ar {in_manual(*word.forms)}"
        yield from (f".No {sign} Ar {in_manual(file)}" for sign, file in (("<", word.source), (">", word.out)) if file)


def in_words(items, last):
    *before, item = items
    return f"{', '.join(before)} {last} {item}" if before else item


def ranges(numbers):
    """Numbers as a text has them: three and more that follow one another by the first and the last."""
    spans = []
    for number in numbers:
        if spans and number == spans[-1][-1] + 1:
            spans[-1].append(number)
        else:
            spans.append([number])
    for span in spans:
        yield from [f"{span[0]} to {span[-1]}"] if len(span) > 2 else map(str, span)


def exit_statuses():
    """Which statuses each subcommand ends with, those of the same together."""
    groups = {}
    for word in WORDS:
        groups.setdefault(tuple(numbers_of(word)), []).append(word.name)
    for place, (numbers, names) in enumerate(groups.items(), 1):
        for at, name in enumerate(names, 1):
            yield f".Cm {name}" + (" ," if at < len(names) - 1 else "")
            yield from ["and"] if at == len(names) - 1 else []
        said = in_words(list(ranges(numbers)), "or")
        yield f"{'end' if len(names) > 1 else 'ends'} with {said}{'.' if place == len(groups) else ';'}"


# ---- what the launcher says itself


# Its own words, each with a line on it. The last is there in the repository alone.
LAUNCHER = [
    ("help [SUBCOMMAND]", "this text, or what a subcommand reads and writes and how it ends"),
    ("--help, --version", "this text; the version, and the checksum of the sources"),
    ("prove", "in the repository: make the proofs of the program on this machine"),
]


def short(word):
    """A subcommand with all that may follow it."""
    digits = "|".join(form for form in word.forms if form.isdigit())
    return f"{word.name} [{digits}]" if digits else called(word)[0]


def help_text():
    yield "./flow SUBCOMMAND < INPUT > OUTPUT: the core of a flow trading exchange"
    yield ""
    yield from (f"  {short(word):22}{word.line}" for word in WORDS)
    yield ""
    yield from (f"  {word:22}{line}" for word, line in LAUNCHER)
    yield ""
    yield "It reads standard input and writes standard output. A market that one can type,"
    yield "line by line, each answered once market.flow keeps it:"
    yield ""
    yield "    ./flow serve market.flow"
    yield ""
    yield "The manual: man docs/flow.1"


def help_of(word):
    """What a subcommand reads and writes, and how it ends."""
    yield " ".join(["./flow", short(word), *files_of(word)])
    yield ""
    yield word.line
    yield ""
    for head, cell in (("reads", word.reads), ("writes", word.writes)):
        said = re.sub(r"\[([^]]+)\]\([^)]+\)", r"\1", cell)
        yield from textwrap.wrap(said, 79, initial_indent=f"{head:8}", subsequent_indent=" " * 8)
    for head, number in zip(["ends", *[""] * len(STATUSES)], sorted([STATUSES.index("Usage"), *numbers_of(word)])):
        yield f"{head:8}{number:2}  {STATUSES[number]:15}{SAID[number]}".rstrip()
    yield ""
    yield "The manual says more: man docs/flow.1"


def calls(word):
    """How a subcommand may be called, as bash matches it: how many words there are, the first, and the second where it is said."""
    return [f"{1 + len(form.split())}:{word.name}:{form if form.isdigit() else '*'}" for form in word.forms]


def launcher():
    yield "# What the launcher says of the subcommands, for bash. Made by tools/words."
    yield ""
    yield "# Whether these words are for the program, a subcommand and as many words after it as one of its forms has, or are `prove`."
    yield "is_form() {"
    yield "    case $#:${1-}:${2-} in"
    yield "    2:*:--help) false ;;"
    yield from (f"    {' | '.join(calls(word))}) true ;;" for word in WORDS)
    yield "    1:prove:*) true ;;"
    yield "    *) false ;;"
    yield "    esac"
    yield "}"
    yield ""
    yield "# The help on a subcommand, or on all."
    yield "help_on() {"
    yield "    case ${1-} in"
    for name, lines in [("''", help_text()), *((word.name, help_of(word)) for word in WORDS)]:
        text = shlex.quote("\n".join(lines))
        yield from f"    {name}) printf '%s\\n' {text} ;;".split("\n")
    yield "    *) false ;;"
    yield "    esac"
    yield "}"


# ---- the completions


REDIRECTIONS = ["'<'", "'>'", "'>>'"]


def choices():
    """The subcommands of which a digit may follow, and these digits; and those that a file follows."""
    digits = {word.name: [form for form in word.forms if form.isdigit()] for word in WORDS if word.forms[1:]}
    return digits, [word.name for word in WORDS if word.forms == ["FILE"]]


def zsh():
    digits, files = choices()
    yield "#compdef flow"
    yield "# Completes the subcommands of flow in zsh. zsh itself completes files after a redirection. Made by tools/words."
    yield "#"
    yield "#     fpath=(tools/completions $fpath); autoload -Uz compinit; compinit"
    yield ""
    yield "local -a words_of_flow=("
    for word in WORDS:
        said = word.line.replace(":", "\\:")
        yield f"    '{word.name}:{said}'"
    yield ")"
    yield "if (( CURRENT == 2 )) && [[ $words[2] == -* ]]; then"
    yield "    compadd -- --help --version"
    yield "elif (( CURRENT == 2 )); then"
    yield "    words_of_flow+=('help:what the subcommands are')"
    yield "    _describe subcommand words_of_flow"
    yield "elif (( CURRENT == 3 )) && [[ $words[2] == help ]]; then"
    yield "    _describe subcommand words_of_flow"
    for name, versions in digits.items():
        yield f"elif (( CURRENT == 3 )) && [[ $words[2] == {name} ]]; then"
        said = " ".join(f"{version}:of\\ version\\ {version}" for version in versions)
        yield f"    _describe version '({said})'"
    for name in files:
        yield f"elif (( CURRENT == 3 )) && [[ $words[2] == {name} ]]; then"
        yield "    _files"
    yield "fi"


def bash():
    digits, files = choices()
    yield "# Completes the subcommands of flow in bash, and files after a redirection or a subcommand that takes one. Made by tools/words."
    yield "#"
    yield "#     source tools/completions/flow.bash"
    yield ""
    yield "_flow() {"
    yield "    local word=${COMP_WORDS[COMP_CWORD]} before=${COMP_WORDS[COMP_CWORD - 1]} words="
    yield "    COMPREPLY=()"
    yield "    case $word in '<' | '>' | '>>') word= before='<' ;; esac"
    yield "    case $before in"
    yield f"    {' | '.join([*REDIRECTIONS, *files])})"
    yield "        compopt -o filenames 2>/dev/null"
    yield '        mapfile -t COMPREPLY < <(compgen -f -- "$word")'
    yield "        return"
    yield "        ;;"
    yield "    esac"
    names = " ".join(word.name for word in WORDS)
    yield f'    [ "$COMP_CWORD" -ne 1 ] || words="{names} help"'
    yield '    [ "$COMP_CWORD" -ne 1 ] || [[ $word != -* ]] || words="--help --version"'
    yield f'    [ "$COMP_CWORD" -ne 2 ] || [ "$before" != help ] || words="{names}"'
    for name, versions in digits.items():
        yield f'    [ "$COMP_CWORD" -ne 2 ] || [ "$before" != {name} ] || words="{" ".join(versions)}"'
    yield '    mapfile -t COMPREPLY < <(compgen -W "$words" -- "$word")'
    yield "}"
    yield "complete -F _flow flow ./flow"


def fish():
    digits, files = choices()
    words = "complete -c flow -n 'test (count (commandline -opc)) -eq "
    second = f"{words}2; and test (commandline -opc)[2] = "
    yield "# Completes the subcommands of flow in fish. fish itself completes files after a redirection. Made by tools/words."
    yield "#"
    yield "#     source tools/completions/flow.fish"
    yield ""
    yield "complete -c flow -f"
    for word in WORDS:
        yield f"{words}1' -a {word.name} -d '{word.line}'"
    yield f"{words}1' -a help -d 'what the subcommands are'"
    yield f"{words}1' -l help -d 'what the subcommands are'"
    yield f"{words}1' -l version -d 'the version'"
    yield f"{second}help' -a '{' '.join(word.name for word in WORDS)}'"
    for name in files:
        yield f"{second}{name}' -F"
    for name, versions in digits.items():
        yield from (f"{second}{name}' -a {version} -d 'of version {version}'" for version in versions)


# ---- where these are


def marked(text, begin, lines, ends):
    """A text with these lines after the one that begins them, up to the next that ends them. Blank ones after the first stay."""
    whole = text.split("\n")
    first = whole.index(begin) + 1
    while not whole[first]:
        first += 1
    last = next(at for at in range(first, len(whole)) if ends(whole[at]))
    return "\n".join([*whole[:first], *lines, *whole[last:]])


def with_words(name, text):
    """A document or a completion as the table has it: the text that it should have in place of this one."""
    for begin, make in MARKS.get(name, {}).items():
        is_manual = begin.startswith(".")
        text = marked(text, begin, make(), (lambda line: line == END) if is_manual else (lambda line: not line))
    return "".join(line + "\n" for line in WHOLE[name]()) if name in WHOLE else text


END = r".\" (what tools/words wrote ends here)"
MARKS = {
    "README.md": {"<!-- words: readme -->": readme_table},
    "docs/FORMATS.md": {"<!-- words: formats -->": formats_table},
    "docs/flow.1": {r".\" (tools/words writes what follows: synopsis)": synopsis,
                    r".\" (tools/words writes what follows: statuses)": exit_statuses},
}
WHOLE = {"tools/lib/help.bash": launcher, "tools/completions/_flow": zsh, "tools/completions/flow.bash": bash,
         "tools/completions/flow.fish": fish}
PLACES = [*MARKS, *WHOLE]
