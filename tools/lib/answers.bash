# What the launcher ./flow answers itself, at once and without the program: help, the version, and words that are none of the program's.
# The launcher reads this file; $self is its own place.

# (a closed standard error, which what is read here could otherwise come on)
[ -e /dev/fd/2 ] || exec 2>/dev/null
# shellcheck source=tools/lib/help.bash
. "${self%/*}/tools/lib/help.bash" || exit 70

say() {
    printf 'flow: %s\n' "$1" >&2
}

# A bad command line, as the program says it, and where help is; the first word may be a subcommand.
bad_command_line() {
    say usage
    if [ $# -gt 0 ] && help_on "$1" >/dev/null; then
        say "./flow help $1 says how it is called"
    else
        say "./flow help lists the subcommands"
    fi
    exit 1
}

# The newest version in CHANGELOG.md, whether more has come since, and the checksum of the program's sources.
version() {
    local line more='' sources
    while read -r line; do
        case $line in
        '## Unreleased') more=", and what CHANGELOG.md has as unreleased" ;;
        '## '[0-9]*) break ;;
        esac
    done <"${self%/*}/CHANGELOG.md"
    line=${line#'## '}
    sources=$("${self%/*}/tools/program" --sources) || sources=unknown
    printf 'flow (Sidrobaj) %s%s\nsources %s\n' "${line%% *}" "$more" "$sources"
}

answer() {
    local text
    case $#:${1-}:${2-} in
    1:help:* | 1:--help:* | 2:help:help | 2:help:prove) text=$(help_on) ;;
    1:--version:*) text=$(version) ;;
    2:help:?*) text=$(help_on "$2") || bad_command_line ;;
    2:?*:--help) text=$(help_on "$1") || bad_command_line ;;
    *) bad_command_line "$@" ;;
    esac
    printf '%s\n' "$text" 2>/dev/null && exit
    say "write failed"
    exit 5
}

is_form "$@" || answer "$@"
