# Completion of fibs and fibs-play for fish.

complete -c fibs -f
complete -c fibs -s h -l help -d 'Print help'
complete -c fibs -n __fish_use_subcommand -s V -l version -d 'Print the version'
complete -c fibs -n __fish_use_subcommand -a show -d 'Print what each line of the server says'
complete -c fibs -n __fish_use_subcommand -a plays -d 'List the plays of a board'
complete -c fibs -n __fish_use_subcommand -a replay -d 'Run a script of events, and print what happened'
complete -c fibs -n __fish_use_subcommand -a connect -d 'Log in at a server, and play'
complete -c fibs -n __fish_use_subcommand -a loop -d 'Play a script over sockets of this machine'
complete -c fibs -n __fish_use_subcommand -a help -d 'Print the help of a subcommand'
complete -c fibs -n '__fish_seen_subcommand_from help' -a 'show plays replay connect loop help'
complete -c fibs -n '__fish_seen_subcommand_from show plays replay connect' -l json -d 'Print a JSON object for each line'
complete -c fibs -n '__fish_seen_subcommand_from show' -l events -d 'Print these objects, and one for each event'
complete -c fibs -n '__fish_seen_subcommand_from show' -F
complete -c fibs -n '__fish_seen_subcommand_from connect' -l password-file -r -F -d 'A file whose first line is the password'
complete -c fibs -n '__fish_seen_subcommand_from connect' -l log -r -F -d 'A file to which the conversation is appended'
complete -c fibs -n '__fish_seen_subcommand_from connect' -a 'fibs.com localhost (__fish_print_hostnames)'

complete -c fibs-play -f
complete -c fibs-play -s h -l help -d 'Print help'
complete -c fibs-play -l log -r -F -d 'A file to which the game is appended'
complete -c fibs-play -a 'fibs.com localhost (__fish_print_hostnames)'
