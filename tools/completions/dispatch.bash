# Completions of dispatch for bash.
_dispatch() {
  local word=${COMP_WORDS[COMP_CWORD]}
  [ "$COMP_CWORD" -eq 1 ] && COMPREPLY=($(compgen -W "--help --version" -f -- "$word"))
}
complete -F _dispatch dispatch
