# Completions of fish for fio2070-test: its options.

complete -c fio2070-test -l command -x -d 'a program that reads and writes the lines'
complete -c fio2070-test -l serial -r -d 'a serial adapter'
complete -c fio2070-test -l socket -x -d 'a stream'
complete -c fio2070-test -l self -x -a 'module cpu' -d 'the proved end against itself'
complete -c fio2070-test -l id -x -d 'the octet that the module answers to command 60'
complete -c fio2070-test -l per-block -x -d 'the most entries of its blocks'
complete -c fio2070-test -l deadline -x -d 'milliseconds for each line that it writes'
complete -c fio2070-test -l own-clock -d 'it samples by a clock of its own'
complete -c fio2070-test -l cpu -d "it is a CPU's end"
complete -c fio2070-test -l except -x -d 'does not ask this rule'
complete -c fio2070-test -l coverage -d 'how many events exercised each rule'
complete -c fio2070-test -l junit -r -d 'writes JUnit XML'
complete -c fio2070-test -l first -d 'stops at the first difference'
complete -c fio2070-test -l replay -d 'runs the scripts on standard input'
complete -c fio2070-test -l rules -d 'the rules, with their sources'
complete -c fio2070-test -l help -d 'print help'
complete -c fio2070-test -l version -d 'print the versions'
