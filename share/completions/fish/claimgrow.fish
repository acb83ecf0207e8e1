# Completions of claimgrow for fish; written by tools/words.
complete -c claimgrow -l check -d 'tells of each log whether it goes over, and writes none'
complete -c claimgrow -l reject -d 'writes the rows of NEW by which requests that switches rejected, and that have a route now, stay rejected; and no log'
complete -c claimgrow -s h -l help -d 'Print help'
complete -c claimgrow -s V -l version -d 'Print version'
