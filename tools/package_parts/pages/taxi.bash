# Completion of taxi for bash: a verb, then files.
_taxi() {
  local word=${COMP_WORDS[COMP_CWORD]}
  if [ "$COMP_CWORD" = 1 ]; then
    mapfile -t COMPREPLY < <(compgen -W "route check import migrate generate --help --version" -- "$word")
  elif [ "${COMP_WORDS[1]}" != generate ]; then
    compopt -o filenames 2>/dev/null
    mapfile -t COMPREPLY < <(compgen -f -- "$word")
  fi
}
complete -F _taxi taxi
