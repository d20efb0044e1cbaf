# Completions of bash for fio2070: the subcommands and options, and after a subcommand its option. Elsewhere,
# as behind `<`, file names are completed.

_fio2070() {
    local word=${COMP_WORDS[COMP_CWORD]} words=
    case $COMP_CWORD:${COMP_WORDS[1]} in
    1:*) words='show simulate check record -h --help -V --version' ;;
    2:show | 2:simulate | 2:check | 2:record) words='-h --help' ;;
    esac
    COMPREPLY=($(compgen -W "$words" -- "$word"))
}

complete -o default -F _fio2070 fio2070
