#compdef taxi
# Completion of taxi for zsh: a verb, then files.

local -a verbs=(
  'route:answer each command of a file in turn'
  'check:confirm what route wrote, with no search'
  'import:turn a schedule into a command file'
  'migrate:write an airport file in its canonical form'
  'generate:route made traffic'
)

if (( CURRENT == 2 )); then
  _describe verb verbs
  _arguments '--help[tell the verbs]' '--version[tell the version]'
elif [[ $words[2] != generate ]]; then
  _files
fi
