# Completions of bash for fiolog: its commands and their options. Written by tools/generate-completions.

_fiolog() {
    local word=${COMP_WORDS[COMP_CWORD]} command=${COMP_WORDS[1]} words=
    case "$command ${COMP_WORDS[COMP_CWORD - 1]}" in
    'decode --format' | 'check --format' | 'stats --format' | 'convert --format' | 'record --format') words='auto frames transcript' ;;
    'decode --line' | 'check --line' | 'stats --line' | 'convert --line' | 'record --line') words='octets bits bits-high-first' ;;
    'decode --color') words='auto always never' ;;
    'check --at' | 'record --at' | 'live --at') words='auto cpu module bus' ;;
    'check --rules') words='all transcript' ;;
    'check --except' | 'live --except') words='readable pair number advance same sequence limits rest refusal order fresh alternate apart ignored state clock done accepted cleared watchdog' ;;
    'check --explain') words='readable pair number advance same sequence limits rest refusal order fresh alternate apart ignored state clock done accepted cleared watchdog' ;;
    'plan --limits') words='standard largest' ;;
    'convert --to') words='transcript frames pcapng vcd' ;;
    'record --on') words='0 1' ;;
    *)
        case $COMP_CWORD:$word in
        1:*) words='decode check stats plan convert record live -h --help -V --version' ;;
        *:-*)
            case $command in
            decode) words='-h --help --format --pattern --line --address --like --merge -v --verbose -q --quiet --json --csv --input --color' ;;
            check) words='-h --help --format --pattern --line --address --like --merge -v --verbose -q --quiet --at --start-at-poll --whole --limits --rules --except --tees --explain --late-answers --no-loads -r --recursive --jobs --json --csv' ;;
            stats) words='-h --help --format --pattern --line --address --like --merge -v --verbose -q --quiet -r --recursive --jobs --json' ;;
            plan) words='-h --help --inputs --filter --limits --block --waiting --rate --sync --async --answer-time --drift --jitter -v --verbose --json' ;;
            convert) words='-h --help --format --pattern --line --address --like --merge -v --verbose -q --quiet --to -o --output --times' ;;
            record) words='-h --help --format --pattern --line --address --like --merge -v --verbose -q --quiet --at --start-at-poll --whole --limits -r --recursive --text --json --csv --vcd --hires --start --signal --on --channels' ;;
            live) words='-h --help --exec --serial --udp --fifo --address --like --rate --host --transcript --pcapng --force --at --whole --limits --except --late-answers --no-loads --seconds -v --verbose -q --quiet' ;;
            esac ;;
        esac ;;
    esac
    COMPREPLY=($(compgen -W "$words" -- "$word"))
}

complete -o default -F _fiolog fiolog
