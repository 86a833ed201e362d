# Completes the subcommands of flow in bash, and files after a redirection or a subcommand that takes one. Made by tools/words.
#
#     source tools/completions/flow.bash

_flow() {
    local word=${COMP_WORDS[COMP_CWORD]} before=${COMP_WORDS[COMP_CWORD - 1]} words=
    COMPREPLY=()
    case $word in '<' | '>' | '>>') word= before='<' ;; esac
    case $before in
    '<' | '>' | '>>' | keep | serve | host)
        compopt -o filenames 2>/dev/null
        mapfile -t COMPREPLY < <(compgen -f -- "$word")
        return
        ;;
    esac
    [ "$COMP_CWORD" -ne 1 ] || words="encode run audit explain report statement checkpoint resume keep serve host sample help"
    [ "$COMP_CWORD" -ne 1 ] || [[ $word != -* ]] || words="--help --version"
    [ "$COMP_CWORD" -ne 2 ] || [ "$before" != help ] || words="encode run audit explain report statement checkpoint resume keep serve host sample"
    [ "$COMP_CWORD" -ne 2 ] || [ "$before" != encode ] || words="2 3 4"
    mapfile -t COMPREPLY < <(compgen -W "$words" -- "$word")
}
complete -F _flow flow ./flow
