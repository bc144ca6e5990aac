# Completions of ats for bash.
_ats() {
  local word=${COMP_WORDS[COMP_CWORD]} options
  if [ "$COMP_CWORD" -eq 1 ]; then
    COMPREPLY=($(compgen -W "run check make derive repair migrate sim weave gen drill verify resume" -- "$word"))
    return
  fi
  case ${COMP_WORDS[1]} in
    run | resume) options="--workers --rounds --block" ;;
    make) options="--budget" ;;
    derive) options="--budget --most" ;;
    repair) options="--budget --rounds" ;;
    weave) options="--seed --steps" ;;
    gen) options="--seed --trains" ;;
    drill) options="--seed --trains --workers" ;;
  esac
  COMPREPLY=($(compgen -W "$options" -- "$word"))
}
complete -F _ats ats
