# Completes the questions of ccan-lab and the options of each; all else is a file.
complete -c ccan-lab -s h -l help -d 'Print help'
complete -c ccan-lab -n __fish_use_subcommand -s V -l version -d 'Print the version'

complete -c ccan-lab -n __fish_use_subcommand -f -a outcomes -d 'What can come of a script whose two hosts and bus run at once'
complete -c ccan-lab -n __fish_use_subcommand -f -a count -d 'How many outcomes scripts have, counted and not listed'
complete -c ccan-lab -n __fish_use_subcommand -f -a check -d 'The faults of scripts, each with its file, line and column'
complete -c ccan-lab -n __fish_use_subcommand -f -a explain -d 'A run in order, told line by line'
complete -c ccan-lab -n __fish_use_subcommand -f -a draw -d 'A picture of a run in order, as SVG'
complete -c ccan-lab -n __fish_use_subcommand -f -a page -d 'A page to step through each outcome, or through a run'
complete -c ccan-lab -n __fish_use_subcommand -f -a from-candump -d 'A script of a log that candump wrote'

complete -c ccan-lab -n '__fish_seen_subcommand_from outcomes' -l all -d 'Show each outcome, with a history'
complete -c ccan-lab -n '__fish_seen_subcommand_from outcomes' -l json -d 'Show each outcome, with a history, as JSON'
complete -c ccan-lab -n '__fish_seen_subcommand_from outcomes' -l observe -x -d 'Tell apart only what these lines and objects are'
complete -c ccan-lab -n '__fish_seen_subcommand_from outcomes' -l can -x -d 'Ask whether an outcome has all lines that begin so'
complete -c ccan-lab -n '__fish_seen_subcommand_from outcomes' -l never -x -d 'Ask whether no outcome has all lines that begin so'
complete -c ccan-lab -n '__fish_seen_subcommand_from outcomes' -l brief -d 'Write each history in few lines'
complete -c ccan-lab -n '__fish_seen_subcommand_from outcomes' -l frames -d 'Tell outcomes apart by the frames that won the bus'
complete -c ccan-lab -n '__fish_seen_subcommand_from outcomes' -l most -x -d 'How many states and nodes to keep at most'

complete -c ccan-lab -n '__fish_seen_subcommand_from count' -l frames -d 'Tell outcomes apart by the frames that won the bus'
complete -c ccan-lab -n '__fish_seen_subcommand_from count' -l most -x -d 'How many states and nodes to keep at most'

complete -c ccan-lab -n '__fish_seen_subcommand_from check' -l strict -d 'Status 7 where there are warnings and no faults'
complete -c ccan-lab -n '__fish_seen_subcommand_from check' -l expect -r -F -d 'Compare what ccan prints of the one script with this text'

complete -c ccan-lab -n '__fish_seen_subcommand_from explain' -l json -d 'A JSON object a line'
complete -c ccan-lab -n '__fish_seen_subcommand_from explain' -l candump -d 'The received frames, as candump -L writes them'

complete -c ccan-lab -n '__fish_seen_subcommand_from draw' -l outcome -x -d 'Draw a history of this outcome of outcomes --all'
complete -c ccan-lab -n '__fish_seen_subcommand_from draw' -l frames -d 'Number the outcomes as outcomes --all --frames does'
complete -c ccan-lab -n '__fish_seen_subcommand_from draw' -l most -x -d 'How many states and nodes to keep at most'

complete -c ccan-lab -n '__fish_seen_subcommand_from page' -l run -d 'Show the run in order'
complete -c ccan-lab -n '__fish_seen_subcommand_from page' -l outcomes -d 'Show the outcomes, also of a script with an order'
complete -c ccan-lab -n '__fish_seen_subcommand_from page' -l limit -x -d 'How many outcomes to show at most'
complete -c ccan-lab -n '__fish_seen_subcommand_from page' -l frames -d 'Tell outcomes apart by the frames that won the bus'
complete -c ccan-lab -n '__fish_seen_subcommand_from page' -l most -x -d 'How many states and nodes to keep at most'
