#compdef fio2070-test
# Completions of zsh for fio2070-test: its options.

_arguments \
    '--command[a program that reads and writes the lines]:command' \
    '--serial[a serial adapter]:device:_files' \
    '--socket[a stream]:host and port' \
    '--self[the proved end against itself]:end:(module cpu)' \
    '--id[the octet that the module answers to command 60]:number' \
    '--per-block[the most entries of its blocks]:number' \
    '--deadline[for each line that it writes]:milliseconds' \
    '--own-clock[it samples by a clock of its own]' \
    "--cpu[it is a CPU's end]" \
    '*--except[does not ask this rule]:rule' \
    '--coverage[how many events exercised each rule]' \
    '--junit[writes JUnit XML]:file:_files' \
    '--first[stops at the first difference]' \
    '--replay[runs the scripts on standard input]' \
    '--rules[the rules, with their sources]' \
    '--help[print help]' \
    '--version[print the versions]'
