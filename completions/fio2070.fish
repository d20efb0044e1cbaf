# Completions of fish for fio2070: the subcommands and options, and after a subcommand its option. Behind `<`
# fish itself completes file names.

complete -c fio2070 -f
complete -c fio2070 -n __fish_use_subcommand -a show -d 'report what captured frames say'
complete -c fio2070 -n __fish_use_subcommand -a simulate -d 'run a script of events on both ends of the link'
complete -c fio2070 -n __fish_use_subcommand -a check -d 'report whether a transcript keeps the rules'
complete -c fio2070 -n __fish_use_subcommand -a record -d 'report what the CPU of a transcript recorded'
complete -c fio2070 -s h -l help -d 'print help'
complete -c fio2070 -n __fish_use_subcommand -s V -l version -d 'print the version'
