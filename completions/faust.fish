# Completions of faust for fish: put this file into ~/.config/fish/completions.
complete -c faust -f
complete -c faust -n __fish_use_subcommand -a script -d 'play a script and print its report'
complete -c faust -n __fish_use_subcommand -a record -d 'play a script and print the record of its run'
complete -c faust -n __fish_use_subcommand -a audit -d 'read a record and print its report'
complete -c faust -n __fish_use_subcommand -a json -d 'play a script and print its report as JSON'
complete -c faust -n __fish_use_subcommand -a migrate -d 'read a record and print it in format 2'
complete -c faust -n __fish_use_subcommand -a sample -d 'play a script made from a number and print a summary'
complete -c faust -n __fish_use_subcommand -a live -d 'run clients and a server over sockets and print what came of it'
complete -c faust -n '__fish_seen_subcommand_from live' -a 'short full'
