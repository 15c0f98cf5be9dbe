#compdef taxi-tools
# Completion of taxi-tools for zsh: a verb, then files.

local -a verbs=(
  'plan:the steps in force, as a table'
  'figures:counts of replies, and sums'
  'explain:why a command was answered as it was'
  'checkpoint:what is in force, as a command file'
  'lint:what is odd about an airport'
  'graph:the airport for graphviz'
  'json:each reply as a JSON object'
)

if (( CURRENT == 2 )); then
  _describe verb verbs
  _arguments '--help[tell the verbs]' '--version[tell the version]'
elif (( CURRENT <= 4 )); then
  _files
fi
