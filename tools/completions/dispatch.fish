# Completions of dispatch for fish.
complete -c dispatch -l help -d 'print help'
complete -c dispatch -l version -d 'print the version'
