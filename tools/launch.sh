# What the launchers `taxi` and `taxi-tools` share. Each sets `here`, `name`, `crate` and `words`, tells its help and its forms, and
# sources this.
# Statuses of the launcher's own: 70 there is no program to run, 71 a run with --unproved was stopped.

# A package has the program and no sources, a checkout has the sources and what was built of them.
if [ -d "$here/crates" ]; then
  program=$here/crates/$crate/out/$crate
else
  program=$here/libexec/$name
  packaged=1
fi

say() { echo "$name: $*" >&2; }

# The usage line, which the program has too.
usage() {
  if [ -n "${packaged-}" ]; then
    "$program"
  else
    sed -n 's/^ *b"\(usage: .*\)\\n"$/\1/p' "$here/crates/$words/src/usage.rt"
  fi
}

# What the help says of the launcher's own words, of which a package has no use.
own_help() {
  [ -n "${packaged-}" ] || cat <<TEXT
  $name --build [WORDS]    proves and builds the program if need be, once, and runs it; by estimate up to 37 minutes
  $name --unproved WORDS   runs it with nothing proved. It compiles anew at each call, for a minute or two. It can't be driven
                           line by line. After 60 seconds or 1 MiB of output it ends with status 71, and nothing is written.
                           Status 70: there is no program yet
TEXT
  echo "  $name --help, $name --version"
}

version() { sed -n 's/^## \([0-9.]*\).*/\1/p' "$here/CHANGELOG.md" | head -n 1; }

# Why a file of that name can't be read, or has more bytes than its limit; nothing where neither is so. The program says it
# without the name.
trouble_of() {
  local file=$1 limit=$2 size
  [ "$file" = - ] && return
  if [ -z "$file" ]; then echo "a file's name is empty"
  elif [ ! -e "$file" ]; then echo "$file: there is no such file"
  elif [ -d "$file" ]; then echo "$file: is a folder, not a file"
  elif [ ! -r "$file" ]; then echo "$file: may not be read"
  elif [ -f "$file" ] && size=$(stat -Lc %s "$file") && [ "$size" -gt "$limit" ]; then
    echo "$file: has $size bytes, at most $limit are read"
  fi
}

# Says which file will stop the run, and returns whether one will. The words after the verb name files as far as `limits` tells limits.
tell_trouble() {
  local limit told
  local -a most
  mapfile -t most < <(limits "$1")
  shift
  for limit in "${most[@]}"; do
    [ $# -eq 0 ] && break
    told=$(trouble_of "$1" "$limit")
    [ -n "$told" ] && say "$told" && return
    shift
  done
  return 1
}

# The words with each file's name made absolute, one a line, ended by a zero byte.
absolute_words() {
  local word files
  files=$(limits "$1" | wc -l)
  printf '%s\0' "$1"
  shift
  for word; do
    if [ "$files" -gt 0 ] && [ "$word" != - ] && [ "${word#/}" = "$word" ]; then
      printf '%s\0' "$PWD/$word"
    else
      printf '%s\0' "$word"
    fi
    files=$((files - 1))
  done
}

# Whether one of the words is -, so the run reads standard input.
reads_input() {
  local word
  for word; do [ "$word" = - ] && return; done
  return 1
}

# Tells how the toolchain ended a run, by the file of its words, and gives the status: the program's own if it ended by itself.
tell_end() {
  local file=$1 own
  if grep -q '^rt: standard input did not end' "$file"; then
    say "standard input paused for 2 seconds, and the run read nothing behind that; give the input as a file"
  fi
  own=$(sed -n 's/^run=ended status=\([0-9]*\) .*/\1/p' "$file" | tail -n 1)
  [ -n "$own" ] && return "$own"
  if grep -q '^checked: no-answer: the program did not end' "$file"; then
    say "stopped after 60 seconds, and nothing is written; a built program has no such limit (--build)"
  elif grep -q '^checked: no-answer: the program wrote more' "$file"; then
    say "stopped after 1 MiB of output, and nothing is written; a built program has no such limit (--build)"
  else
    cp "$file" "$here/out/unproved.log" 2>/dev/null && file=$here/out/unproved.log || trap - EXIT
    say "the toolchain stopped the run; its own words are in $file"
  fi
  return 71
}

# Runs the words with checks and without proofs. The toolchain keeps no file of such a run, so each call compiles anew.
run_unproved() {
  local all input=/dev/null
  if reads_input "$@"; then
    [ -t 0 ] && say "this run can't be driven line by line; give the input as a file" && exit 71
    input=/dev/stdin
  fi
  say "nothing is proved in this run. Each call compiles anew, for a minute or two."
  say "It can't be driven line by line, and ends after 60 seconds or 1 MiB of output."
  mapfile -d '' all < <(absolute_words "$@")
  mkdir -p "$here/out" 2>/dev/null
  told=$(mktemp) || exit 71
  trap 'rm -f "$told"' EXIT
  (cd "$here/crates/$crate" && exec rt try -- "${all[@]}") <"$input" 2>"$told"
  tell_end "$told"
  exit
}

need_toolchain() {
  command -v rt >/dev/null && return
  say "the toolchain's command rt is not on the PATH; README.md says what is needed"
  exit 70
}

# A source that is newer than the program, or the program where it isn't there; nothing where it is built.
stale_by() {
  if [ ! -x "$program" ]; then
    echo "$program"
  elif [ -z "${packaged-}" ]; then
    find "$here/crates.txt" "$here"/crates/*/src "$here"/crates/*/specs -newer "$program" -print -quit
  fi
}

# Builds what is stale if `--build` asked for it, and else says what that would do.
build_or_tell() {
  local cause=$1
  if [ -n "${packaged-}" ]; then
    say "$program is missing, so this package is not whole"
    exit 70
  fi
  if [ -z "${build-}" ]; then
    if [ "$cause" = "$program" ]; then
      say "the program is not built yet"
    else
      say "the program is older than ${cause#"$here/"}"
    fi
    "$here/tools/build_program" $crate
    say "add --build before the words to do so, or --unproved to run with nothing proved"
    exit 70
  fi
  need_toolchain
  "$here/tools/build_program" --build $crate || exit 70
}

case "${1-}" in
  --help | -h) help; exit 0 ;;
  --version) echo "rusboqan $(version)"; exit 0 ;;
  --unproved) unproved=1; shift ;;
  --build) build=1; shift ;;
esac
if [ -n "${packaged-}" ] && [ -n "${unproved-}${build-}" ]; then
  say "this package has its program built; --unproved and --build are for a checkout of the sources"
  exit 1
fi

if [ -n "${build-}" ] && [ $# -eq 0 ]; then
  cause=$(stale_by)
  [ -z "$cause" ] || build_or_tell "$cause"
  exit 0
fi
if ! are_words "$@"; then
  . "$here/tools/launch_checks.sh"
  case "${2-}" in
    --help | -h) help; exit 0 ;;
  esac
  usage
  say "these words are of no form; try: $name --help"
  exit 1
fi
tell_trouble "$@" && stops=1
. "$here/tools/launch_checks.sh"
check_words "$@"
if [ -n "${unproved-}" ]; then
  need_toolchain
  run_unproved "$@"
fi
cause=$(stale_by)
if [ -n "$cause" ]; then
  if [ -n "${stops-}" ]; then
    say "so the program, which isn't built yet, is not built for it"
    exit 70
  fi
  build_or_tell "$cause"
fi
run_program "$@"
