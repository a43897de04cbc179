# bash completion for tank
_tank() {
  local word=${COMP_WORDS[COMP_CWORD]} command=${COMP_WORDS[1]:-}
  if [ "$COMP_CWORD" -eq 1 ]; then
    mapfile -t COMPREPLY < <(compgen -W "replay generate work node journal move snap shared" -- "$word")
  elif [ "$command" = node ] && [ "$COMP_CWORD" -eq 2 ]; then
    mapfile -t COMPREPLY < <(compgen -W "server client" -- "$word")
  elif [ "$command" = node ] && [ "$COMP_CWORD" -eq 4 ]; then
    mapfile -t COMPREPLY < <(compgen -f -- "$word")
  fi
}
complete -F _tank tank
complete -o default -W "--from --to --only --fold --used --help" tank-picture
complete -o default -W "--strip --json --help" tank-explain
