#compdef fio2070
# Completions of zsh for fio2070: the subcommands and options, and after a subcommand its option. Behind `<`
# zsh itself completes file names.

_fio2070() {
    local -a subcommands help
    subcommands=(
        'show:report what captured frames say'
        'simulate:run a script of events on both ends of the link'
        'check:report whether a transcript keeps the rules'
        'record:report what the CPU of a transcript recorded'
    )
    help=('(-)'{-h,--help}'[print help]')
    if (( CURRENT == 2 )); then
        _describe -t subcommands subcommand subcommands
        _arguments "$help[@]" '(-)'{-V,--version}'[print the version]'
    elif (( CURRENT == 3 )) && [[ $words[2] == (show|simulate|check|record) ]]; then
        _arguments "$help[@]"
    fi
}

_fio2070 "$@"
