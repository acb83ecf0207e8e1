# Completions of claimdecode for fish; written by tools/words.
complete -c claimdecode -f
complete -c claimdecode -l json -d 'Writes an object of JSON for each message, on one line'
complete -c claimdecode -l hex -d 'Reads a message a line as hexadecimal digits'
complete -c claimdecode -l raw -d 'Reads the whole input as one message, without 0x02 before it and 0x03 behind it'
complete -c claimdecode -l encode -d 'Makes messages of what --json has written: one a line, with --hex in hexadecimal digits, with --raw one as its bytes'
complete -c claimdecode -s h -l help -d 'Print help'
complete -c claimdecode -s V -l version -d 'Print version'
complete -c claimdecode -f -n 'test (count (commandline -opc)) -eq 1' -a 'request answer packet record'
