# What the launcher says of the subcommands, for bash. Made by tools/words.

# Whether these words are for the program, a subcommand and as many words after it as one of its forms has, or are `prove`.
is_form() {
    case $#:${1-}:${2-} in
    2:*:--help) false ;;
    1:encode:* | 2:encode:2 | 2:encode:3 | 2:encode:4) true ;;
    1:run:*) true ;;
    1:audit:*) true ;;
    1:explain:*) true ;;
    1:report:*) true ;;
    2:statement:*) true ;;
    1:checkpoint:*) true ;;
    1:resume:*) true ;;
    2:keep:*) true ;;
    2:serve:*) true ;;
    2:host:*) true ;;
    3:sample:*) true ;;
    1:prove:*) true ;;
    *) false ;;
    esac
}

# The help on a subcommand, or on all.
help_on() {
    case ${1-} in
    '') printf '%s\n' './flow SUBCOMMAND < INPUT > OUTPUT: the core of a flow trading exchange

  encode [2|3|4]        lines of JSON: write a command file
  run                   a command file: write its journal
  audit                 a journal, or a checkpoint and entries: is it valid?
  explain               a journal, or a checkpoint and entries: what is wrong with it?
  report                a journal, or a checkpoint and entries: show it as text
  statement NUMBER      a journal, or a checkpoint and entries: the statement of an account
  checkpoint            a journal, or a checkpoint and entries: write its market
  resume                a journal or a checkpoint, and commands: write their entries
  keep FILE             a command file: keep its journal in a file
  serve FILE            lines of JSON: keep their journal in a file, and answer in text
  host FILE             lines of many senders: keep their journal in a file, and answer each
  sample NUMBER ORDERS  a number, and how many orders: try a large market

  help [SUBCOMMAND]     this text, or what a subcommand reads and writes and how it ends
  --help, --version     this text; the version, and the checksum of the sources
  prove                 in the repository: make the proofs of the program on this machine

It reads standard input and writes standard output. A market that one can type,
line by line, each answered once market.flow keeps it:

    ./flow serve market.flow

The manual: man docs/flow.1' ;;
    encode) printf '%s\n' './flow encode [2|3|4] < LINES > COMMANDS

lines of JSON: write a command file

reads   lines of JSON, perhaps after a checkpoint
writes  the command file of version 1, 2, 3 or 4 that they ask for
ends     0  Done
         1  Usage          flow: usage
         4  ReadFault      flow: read failed
         5  WriteFault     flow: write failed
         6  NoMemory       flow: no memory
         8  TooLong        flow: more than 1099511627776 bytes
         9  BadText        flow: line N is no command
        10  BadCheckpoint  flow: checkpoint is not sound

The manual says more: man docs/flow.1' ;;
    run) printf '%s\n' './flow run < COMMANDS > JOURNAL

a command file: write its journal

reads   a command file
writes  its journal, each entry before the next record is read
ends     0  Done
         1  Usage          flow: usage
         2  NotFlow        flow: not a flow file
         3  Torn           flow: torn at byte N
         4  ReadFault      flow: read failed
         5  WriteFault     flow: write failed
         6  NoMemory       flow: no memory
         8  TooLong        flow: more than 1099511627776 bytes

The manual says more: man docs/flow.1' ;;
    audit) printf '%s\n' './flow audit < HISTORY

a journal, or a checkpoint and entries: is it valid?

reads   a history: a journal, or a checkpoint and entries
writes  one line, if it is complete and valid
ends     0  Done
         1  Usage          flow: usage
         2  NotFlow        flow: not a flow file
         3  Torn           flow: torn at byte N
         4  ReadFault      flow: read failed
         5  WriteFault     flow: write failed
         6  NoMemory       flow: no memory
         7  Rejected       flow: pair N is not legal
         8  TooLong        flow: more than 1099511627776 bytes
        10  BadCheckpoint  flow: checkpoint is not sound

The manual says more: man docs/flow.1' ;;
    explain) printf '%s\n' './flow explain < HISTORY

a journal, or a checkpoint and entries: what is wrong with it?

reads   a history
writes  that line, or what is found of the first invalid entry
ends     0  Done
         1  Usage          flow: usage
         2  NotFlow        flow: not a flow file
         3  Torn           flow: torn at byte N
         4  ReadFault      flow: read failed
         5  WriteFault     flow: write failed
         6  NoMemory       flow: no memory
         7  Rejected       flow: pair N is not legal
         8  TooLong        flow: more than 1099511627776 bytes
        10  BadCheckpoint  flow: checkpoint is not sound

The manual says more: man docs/flow.1' ;;
    report) printf '%s\n' './flow report < HISTORY

a journal, or a checkpoint and entries: show it as text

reads   a history
writes  the text of its valid entries
ends     0  Done
         1  Usage          flow: usage
         2  NotFlow        flow: not a flow file
         3  Torn           flow: torn at byte N
         4  ReadFault      flow: read failed
         5  WriteFault     flow: write failed
         6  NoMemory       flow: no memory
         7  Rejected       flow: pair N is not legal
         8  TooLong        flow: more than 1099511627776 bytes
        10  BadCheckpoint  flow: checkpoint is not sound

The manual says more: man docs/flow.1' ;;
    statement) printf '%s\n' './flow statement NUMBER < HISTORY

a journal, or a checkpoint and entries: the statement of an account

reads   a history
writes  the statement of the account of this number
ends     0  Done
         1  Usage          flow: usage
         2  NotFlow        flow: not a flow file
         3  Torn           flow: torn at byte N
         4  ReadFault      flow: read failed
         5  WriteFault     flow: write failed
         6  NoMemory       flow: no memory
         7  Rejected       flow: pair N is not legal
         8  TooLong        flow: more than 1099511627776 bytes
        10  BadCheckpoint  flow: checkpoint is not sound
        11  NoAccount      flow: no account N

The manual says more: man docs/flow.1' ;;
    checkpoint) printf '%s\n' './flow checkpoint < HISTORY > CHECKPOINT

a journal, or a checkpoint and entries: write its market

reads   a history
writes  the checkpoint of its market, if it is complete and valid
ends     0  Done
         1  Usage          flow: usage
         2  NotFlow        flow: not a flow file
         3  Torn           flow: torn at byte N
         4  ReadFault      flow: read failed
         5  WriteFault     flow: write failed
         6  NoMemory       flow: no memory
         7  Rejected       flow: pair N is not legal
         8  TooLong        flow: more than 1099511627776 bytes
        10  BadCheckpoint  flow: checkpoint is not sound

The manual says more: man docs/flow.1' ;;
    resume) printf '%s\n' './flow resume < JOURNAL_OR_CHECKPOINT_AND_COMMANDS > PAIRS

a journal or a checkpoint, and commands: write their entries

reads   a journal or a checkpoint, followed by commands
writes  the entries of these commands
ends     0  Done
         1  Usage          flow: usage
         2  NotFlow        flow: not a flow file
         3  Torn           flow: torn at byte N
         4  ReadFault      flow: read failed
         5  WriteFault     flow: write failed
         6  NoMemory       flow: no memory
         7  Rejected       flow: pair N is not legal
         8  TooLong        flow: more than 1099511627776 bytes
        10  BadCheckpoint  flow: checkpoint is not sound

The manual says more: man docs/flow.1' ;;
    keep) printf '%s\n' './flow keep FILE < COMMANDS > PAIRS

a command file: keep its journal in a file

reads   a command file of FILE'"'"'s version; if FILE is new, one of any version,
        perhaps after a checkpoint
writes  the entry of each record, once FILE, made if it isn'"'"'t there, keeps it
ends     0  Done
         1  Usage          flow: usage
         2  NotFlow        flow: not a flow file
         3  Torn           flow: torn at byte N
         4  ReadFault      flow: read failed
         5  WriteFault     flow: write failed
         6  NoMemory       flow: no memory
         7  Rejected       flow: pair N is not legal
         8  TooLong        flow: more than 1099511627776 bytes
        10  BadCheckpoint  flow: checkpoint is not sound
        12  DiskFault      flow: disk failed
        13  NotDisk        flow: not a flow disk
        14  Damaged        flow: disk damaged at byte N

The manual says more: man docs/flow.1' ;;
    serve) printf '%s\n' './flow serve FILE < LINES > TEXT

lines of JSON: keep their journal in a file, and answer in text

reads   lines of JSON; if FILE is new, perhaps after a checkpoint
writes  the answer to each line, once FILE, made if it isn'"'"'t there, keeps its
        entries
ends     0  Done
         1  Usage          flow: usage
         2  NotFlow        flow: not a flow file
         4  ReadFault      flow: read failed
         5  WriteFault     flow: write failed
         6  NoMemory       flow: no memory
         7  Rejected       flow: pair N is not legal
         8  TooLong        flow: more than 1099511627776 bytes
        10  BadCheckpoint  flow: checkpoint is not sound
        12  DiskFault      flow: disk failed
        13  NotDisk        flow: not a flow disk
        14  Damaged        flow: disk damaged at byte N

The manual says more: man docs/flow.1' ;;
    host) printf '%s\n' './flow host FILE < ENVELOPES > ANSWERS

lines of many senders: keep their journal in a file, and answer each

reads   the lines of many senders, from the beginning of FILE on
writes  answers in JSON, each for one recipient, once FILE, made if it isn'"'"'t
        there, keeps their entries
ends     0  Done
         1  Usage          flow: usage
         2  NotFlow        flow: not a flow file
         4  ReadFault      flow: read failed
         5  WriteFault     flow: write failed
         6  NoMemory       flow: no memory
         7  Rejected       flow: pair N is not legal
         8  TooLong        flow: more than 1099511627776 bytes
        10  BadCheckpoint  flow: checkpoint is not sound
        12  DiskFault      flow: disk failed
        13  NotDisk        flow: not a flow disk
        14  Damaged        flow: disk damaged at byte N
        15  Differs        flow: entry N is not what the lines ask for

The manual says more: man docs/flow.1' ;;
    sample) printf '%s\n' './flow sample NUMBER ORDERS > LINE

a number, and how many orders: try a large market

reads   nothing
writes  one line on a large market, drawn, run and audited
ends     0  Done
         1  Usage          flow: usage
         5  WriteFault     flow: write failed
         6  NoMemory       flow: no memory

The manual says more: man docs/flow.1' ;;
    *) false ;;
    esac
}
