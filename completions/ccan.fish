# Completes the words of ccan: it takes one of these, or none, and reads a script from standard input.
complete -c ccan -f
complete -c ccan -n __fish_use_subcommand -a run -d 'Run the lines one after another'
complete -c ccan -n __fish_use_subcommand -a threads -d 'Run the lists if1, if2 and bus at once, each in a thread of its own'
