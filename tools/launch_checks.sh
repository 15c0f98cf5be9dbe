# What the launchers say of a file that can't be what a verb takes, and of a run whose output can't be written. All of it is on standard
# error. Streams are never looked at, so a run that is driven line by line answers as soon as without.

# What is wrong with a command file or a schedule at its head, and what to do; nothing where it may be one. `marked` is for its caller.
head_of() {
  case $(head -c 4 -- "$1" | od -An -tx1 | tr -d ' \n') in
    fffe* | feff*) echo "is text in UTF-16; save it as UTF-8 without a byte order mark" ;;
    504b0304) echo "is a workbook of a spreadsheet (.xlsx); save it as CSV in UTF-8" ;;
    efbbbf*) echo "begins with a byte order mark; take it off: sed -i '1s/^\xEF\xBB\xBF//' $1" ;;
  esac
}

# Says what a command file seems to be. Status 1: it begins with bytes that make its first line, or all of it, worth nothing.
check_commands() {
  local file=$1 told bad all
  [ -f "$file" ] && [ -r "$file" ] || return 0
  told=$(head_of "$file")
  [ -n "$told" ] && say "$file: $told" && return 1
  [ -r "$here/tools/refused/forms.ere" ] || return 0
  case $(head -c 14 -- "$file") in
    taxi-schedule*) say "$file: is a schedule; make commands of it: taxi import AIRPORT SCHEDULE" ;;
    taxi-airport,*) say "$file: is an airport file; the command file is the word behind it" ;;
    *)
      all=$(LC_ALL=C grep -acvE -e '^[[:blank:]]*'$'\r''?$' -e '^#' -- "$file")
      bad=$(LC_ALL=C tr -d '\r' <"$file" | LC_ALL=C grep -anvE -e '^[[:blank:]]*$' -e '^#' -f "$here/tools/refused/forms.ere")
      [ -z "$bad" ] && return 0
      say "$file: $(printf '%s\n' "$bad" | grep -c '') of $all commands are of no form and will be refused"
      printf '%s\n' "$bad" | head -n 3 | cut -c 1-200 | while IFS= read -r line; do say "line ${line%%:*} is of no form: ${line#*:}"; done
      say "tools/read_commands $file says what is wrong with which word"
      ;;
  esac
  return 0
}

# Says what a schedule seems to be that isn't one.
check_schedule() {
  local told first
  [ -f "$1" ] && [ -r "$1" ] || return 0
  told=$(head_of "$1")
  case $told in
    *mark*) ;;
    ?*) say "$1: $told"; return ;;
  esac
  first=$(head -n 1 -- "$1" | tr -d '\r' | sed '1s/^\xEF\xBB\xBF//')
  case $first in
    taxi-schedule,1) ;;
    *\;*) say "$1: has semicolons; save it with commas between the fields" ;;
    *) say "$1: its first record is to be taxi-schedule,1 and its second start,WHEN; see docs/FORMATS.md#the-schedule" ;;
  esac
}

# Looks at the files that the words name, and at words that can't be meant. Ends the launcher where a command file can't be one.
check_words() {
  case $1 in
    route | check | plan | figures | explain | checkpoint | json) check_commands "$3" || exit 1 ;;
    import) check_schedule "$3" ;;
  esac
  case $1:${4-} in
    plan:?*) [[ $4 =~ (Z|[+-][0-9][0-9]:[0-9][0-9])$ ]] || say "START is $4; it needs its offset from UTC, as 2026-03-02T00:00:00+01:00" ;;
    explain:?*) [[ $4 =~ ^[0-9]+$ ]] || say "K is $4; it is the number of a command, counted from 1 without comments and blank lines" ;;
  esac
}

# Says how many rows of a schedule were refused, with the text of the first three.
tell_rows() {
  local refused
  refused=$("$program" import "$1" "$2" | grep '^# row ')
  [ -z "$refused" ] && return
  say "$(printf '%s\n' "$refused" | grep -c .) rows of $2 were refused"
  printf '%s\n' "$refused" | head -n 3 | while read -r _ _ row word; do
    say "row $row, $word: $(tr -d '\r' <"$2" | grep -v '^$' | sed -n "${row}p")"
  done
}

# Runs the program in place of the launcher; where the output is no pipe, stays to say that it can't be written.
run_program() {
  local status
  if [ -p /dev/stdout ] || [ -t 1 ] && [ "$1" != import ]; then
    exec "$program" "$@"
  fi
  "$program" "$@"
  status=$?
  [ $status = 4 ] && [ ! -p /dev/stdout ] && say "the output can't be written; the disk may be full"
  if [ "$1" = import ] && [ $status = 0 ] && [ -f "$2" ] && [ -f "$3" ]; then
    tell_rows "$2" "$3"
  fi
  exit $status
}
