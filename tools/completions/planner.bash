# Completions of planner for bash.
_planner() {
  local word=${COMP_WORDS[COMP_CWORD]} options
  if [ "$COMP_CWORD" -eq 1 ]; then
    COMPREPLY=($(compgen -W "plan explain lint certify protect order timetable graph report compare layout --help --version" -- "$word"))
    return
  fi
  case ${COMP_WORDS[COMP_CWORD-1]} in
    --before|--journal|--plan|--with)
      COMPREPLY=($(compgen -f -- "$word"))
      return ;;
  esac
  if [ "${COMP_WORDS[COMP_CWORD-1]}" = --effort ]; then
    COMPREPLY=($(compgen -W "small usual great" -- "$word"))
    return
  fi
  case ${COMP_WORDS[1]} in
    explain) options="--at --table --run --line --plan" ;;
    lint) options="--before --plan" ;;
    certify) options="--budget --effort" ;;
    protect) options="--budget --effort --rounds --into --entries" ;;
    order) options="--of-run --journal --into --entries" ;;
    timetable) options="--csv --journal --delay" ;;
    graph) options="--train --blocks --journal --delay" ;;
    report) options="--title --journal --delay" ;;
    compare) options="--csv --with --delay" ;;
    layout) options="--at --table --plan" ;;
  esac
  COMPREPLY=($(compgen -W "$options --help" -- "$word"))
}
complete -F _planner planner
