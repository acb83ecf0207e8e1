# Completions of claimdump for fish; written by tools/words.
complete -c claimdump -s h -l help -d 'Print help'
complete -c claimdump -s V -l version -d 'Print version'
