# Completes the subcommands of flow in fish. fish itself completes files after a redirection. Made by tools/words.
#
#     source tools/completions/flow.fish

complete -c flow -f
complete -c flow -n 'test (count (commandline -opc)) -eq 1' -a encode -d 'lines of JSON: write a command file'
complete -c flow -n 'test (count (commandline -opc)) -eq 1' -a run -d 'a command file: write its journal'
complete -c flow -n 'test (count (commandline -opc)) -eq 1' -a audit -d 'a journal, or a checkpoint and entries: is it valid?'
complete -c flow -n 'test (count (commandline -opc)) -eq 1' -a explain -d 'a journal, or a checkpoint and entries: what is wrong with it?'
complete -c flow -n 'test (count (commandline -opc)) -eq 1' -a report -d 'a journal, or a checkpoint and entries: show it as text'
complete -c flow -n 'test (count (commandline -opc)) -eq 1' -a statement -d 'a journal, or a checkpoint and entries: the statement of an account'
complete -c flow -n 'test (count (commandline -opc)) -eq 1' -a checkpoint -d 'a journal, or a checkpoint and entries: write its market'
complete -c flow -n 'test (count (commandline -opc)) -eq 1' -a resume -d 'a journal or a checkpoint, and commands: write their entries'
complete -c flow -n 'test (count (commandline -opc)) -eq 1' -a keep -d 'a command file: keep its journal in a file'
complete -c flow -n 'test (count (commandline -opc)) -eq 1' -a serve -d 'lines of JSON: keep their journal in a file, and answer in text'
complete -c flow -n 'test (count (commandline -opc)) -eq 1' -a host -d 'lines of many senders: keep their journal in a file, and answer each'
complete -c flow -n 'test (count (commandline -opc)) -eq 1' -a sample -d 'a number, and how many orders: try a large market'
complete -c flow -n 'test (count (commandline -opc)) -eq 1' -a help -d 'what the subcommands are'
complete -c flow -n 'test (count (commandline -opc)) -eq 1' -l help -d 'what the subcommands are'
complete -c flow -n 'test (count (commandline -opc)) -eq 1' -l version -d 'the version'
complete -c flow -n 'test (count (commandline -opc)) -eq 2; and test (commandline -opc)[2] = help' -a 'encode run audit explain report statement checkpoint resume keep serve host sample'
complete -c flow -n 'test (count (commandline -opc)) -eq 2; and test (commandline -opc)[2] = keep' -F
complete -c flow -n 'test (count (commandline -opc)) -eq 2; and test (commandline -opc)[2] = serve' -F
complete -c flow -n 'test (count (commandline -opc)) -eq 2; and test (commandline -opc)[2] = host' -F
complete -c flow -n 'test (count (commandline -opc)) -eq 2; and test (commandline -opc)[2] = encode' -a 2 -d 'of version 2'
complete -c flow -n 'test (count (commandline -opc)) -eq 2; and test (commandline -opc)[2] = encode' -a 3 -d 'of version 3'
complete -c flow -n 'test (count (commandline -opc)) -eq 2; and test (commandline -opc)[2] = encode' -a 4 -d 'of version 4'
