# Completions of claimswitch for fish; written by tools/words.
complete -c claimswitch -f
complete -c claimswitch -f -n 'test (count (commandline -opc)) -eq 1' -a 'read replay run'
