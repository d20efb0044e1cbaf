# Completions of bash for fio2070-test: its options. Behind one that takes a file, file names are completed.

_fio2070_test() {
    local word=${COMP_WORDS[COMP_CWORD]} words='--command --serial --socket --self --id --per-block --deadline
        --own-clock --cpu --except --coverage --junit --first --replay --rules --help --version'
    case ${COMP_WORDS[COMP_CWORD - 1]} in
    --self) words='module cpu' ;;
    --command | --serial | --socket | --junit | --id | --per-block | --deadline | --except) words= ;;
    esac
    COMPREPLY=($(compgen -W "$words" -- "$word"))
}

complete -o default -F _fio2070_test fio2070-test
