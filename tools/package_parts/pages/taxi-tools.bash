# Completion of taxi-tools for bash: a verb, then files.
_taxi_tools() {
  local word=${COMP_WORDS[COMP_CWORD]}
  if [ "$COMP_CWORD" = 1 ]; then
    mapfile -t COMPREPLY < <(compgen -W "plan figures explain checkpoint lint graph json --help --version" -- "$word")
  elif [ "$COMP_CWORD" -le 3 ]; then
    compopt -o filenames 2>/dev/null
    mapfile -t COMPREPLY < <(compgen -f -- "$word")
  fi
}
complete -F _taxi_tools taxi-tools
