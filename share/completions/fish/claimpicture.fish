# Completions of claimpicture for fish; written by tools/words.
complete -c claimpicture -f
complete -c claimpicture -s h -l help -d 'Print help'
complete -c claimpicture -s V -l version -d 'Print version'
complete -c claimpicture -f -n 'test (count (commandline -opc)) -eq 1' -a 'all'
