# shellcheck shell=bash
# What the tests have in common. A test sources this file first, and calls `finish` last:
#
#     set -euo pipefail
#     # shellcheck source=tests/lib.sh
#     . "$(dirname "$0")/lib.sh"
#     needs program
#     ..
#     finish
#
# It counts each thing that it tries by `passes` or `fails`, and what it can't try by `skips`. Its last line on standard output is
# then `tests/NAME: N passed, M failed, K skipped`, and its status is 1 where M isn't 0. To break off counts as a failure, and so
# does to try nothing. With J1939_TESTS=must what is skipped counts as a failure too.
#
# It has the repository's top in `top`, its own name in `test`, a folder in `work`, and in `began` what it starts and has to end.
top=$(cd "$(dirname "${BASH_SOURCE[0]}")/.." && pwd)
test=tests/$(basename "$0")
# The terminal that a test runs in is none of what it tries.
unset LINES COLUMNS NO_COLOR
# shellcheck disable=SC2034 # Who sources this file uses them; what has these names in the environment is none of them.
program='' library='' page='' demo=''
. "$top/tools/built.sh"

# A file with a line for each count, and no variable: so what a subshell counts counts too.
count() {
  echo "$1 $2" >>"$tally"
}

passes() {
  count passed 1
}

fails() {
  echo "$test: $*" >&2
  count failed 1
}

skips() {
  if [ "${J1939_TESTS-}" = must ]; then
    fails "not skipped, by J1939_TESTS: $*"
  else
    echo "$test: skipped: $*"
    count skipped 1
  fi
}

finish() {
  is_finished=yes
  exit
}

# Ends the test where one of these can't be had: program, library, page, or demo, which nobody has to have. What the test calls
# finds the same.
needs() {
  local product
  for product in "$@"; do
    if "find_$product"; then
      export "J1939_${product^^}=${!product}"
      continue
    elif [ "$product" = demo ]; then
      skips 'bus_demo is not built (tools/bus_demo --help builds it)'
    else
      fails "it wants the $product"
    fi
    finish
  done
}

# Whether a tool is installed. Its name and Debian's package, and what wants it, where that isn't the whole test.
wants() {
  command -v "$1" >/dev/null || {
    skips "$1 is not installed (of Debian: apt install $2)${3:+: $3}"
    return 1
  }
}

# Sets `cc` to the C compiler, with its words where CC has some.
find_compiler() {
  local name names=(cc gcc clang)
  [ -z "${CC-}" ] || names=("$CC")
  for name in "${names[@]}"; do
    read -r -a cc <<<"$name"
    ! command -v "${cc[0]}" >/dev/null || return 0
  done
  skips "no C compiler is installed: ${names[*]} (of Debian: apt install gcc)"
  return 1
}

# Runs a command: what it writes goes to the files out and err of `work`, and its status to `status`.
runs() {
  status=0
  "$@" >"$work/out" 2>"$work/err" || status=$?
}

# What a file has to hold: what is tried, the file that is wanted, and the one that came.
same() {
  local difference
  if difference=$(diff -a -- "$2" "$3" 2>&1 | head -n 20); then
    passes
  else
    fails "$1 (< wanted, > came):"$'\n'"$difference"
  fi
}

# Makes of each row of tests/rows a folder in `work` of its name, with the files words, log, writes, says and status. A row is
#
#   row NAME: the words of the command
#   the log on standard input
#   writes
#   the lines on standard output
#   says STATUS         (no number: 0)
#   the lines on standard error, up to an empty one
#
# A line `$ COMMAND` stands for the lines that the command prints in the row's folder; ../NAME is that of a row above it.
unpack_rows() {
  awk -v work="$work" '
    function begins(file) { out = folder "/" file; printf "" >out; close(out) }
    function stops(why) { print FILENAME ": " why >"/dev/stderr"; exit 1 }
    FNR == 1 { part = "" }
    /^row / {
      close(out)
      folder = work "/" substr($2, 1, length($2) - 1)
      if (system("mkdir " folder)) stops($2 " can not have a folder")
      sub(/^row [^:]*: /, ""); begins("words"); print >>out; close(out); begins("log"); part = "log"; next
    }
    part == "log" && $0 == "writes" { close(out); part = $0; begins(part); next }
    part == "writes" && $1 == "says" { close(out); begins("status"); print $2 + 0 >>out; close(out); part = $1; begins(part); next }
    part == "says" && $0 == "" { part = "" }
    part != "" && sub(/^[$] /, "") { close(out); if (system("cd " folder " && " $0 " >>" part)) stops($0); next }
    part != "" { print >>out }
  ' "$top"/tests/rows/*.rows
}

# A reader of logs, which has to make the report of each sample.
reads_samples() {
  local log what
  for log in "$top"/samples/*.log; do
    runs "$@" <"$log"
    what="${*/#"$work/"}, of $(basename "$log")"
    if [ "$status" -eq 0 ]; then
      same "$what" "${log%.log}.report" "$work/out"
    else
      fails "$what: status $status, and says '$(tail -n 5 "$work/err")'"
    fi
  done
}

# Runs a test in another language and takes its counts over: its last line is `.. N passed, M failed`, or with the status 77 why it
# is skipped.
joins() {
  local status=0 last
  "$@" >"$work/joined" || status=$?
  last=$(tail -n 1 "$work/joined")
  if [ "$status" -eq 77 ]; then
    skips "$last"
  elif [[ $last =~ \ ([0-9]+)\ passed,\ ([0-9]+)\ failed$ ]]; then
    sed '$d' "$work/joined"
    count passed "${BASH_REMATCH[1]}"
    count failed "${BASH_REMATCH[2]}"
    [ $((BASH_REMATCH[2] > 0)) -eq $((status > 0)) ] || fails "$1 ends with $status"
  else
    cat "$work/joined"
    fails "$1 breaks off, with status $status"
  fi
}

# Whether the folder for temporary files takes what is written there.
has_room() {
  { head -c 65536 /dev/zero >"$folder/room" && rm "$folder/room"; } 2>/dev/null
}

no_room() {
  echo "$test: the folder for temporary files (${TMPDIR:-/tmp}) is full, or can't be written" >&2
}

# How many were counted of a kind.
sum() {
  awk -v kind="$1" '$1 == kind { n += $2 } END { print n + 0 }' "$tally"
}

# However the test ends.
end() {
  local status=$? process passed failed skipped
  set +e
  for process in "${began[@]}"; do
    kill "$process" 2>/dev/null
    wait "$process" 2>/dev/null
  done
  passed=$(sum passed) failed=$(sum failed) skipped=$(sum skipped)
  if [ -z "$is_finished" ]; then
    echo "$test: breaks off, with status $status" >&2
    has_room || no_room
    failed=$((failed + 1))
  elif [ $((passed + failed + skipped)) -eq 0 ]; then
    echo "$test: tries nothing" >&2
    failed=1
  fi
  echo "$test: $passed passed, $failed failed, $skipped skipped"
  rm -rf "$folder"
  exit $((failed > 0))
}

began=() is_finished=''
folder=$(mktemp -d 2>/dev/null) || {
  no_room
  exit 1
}
work=$folder/work tally=$folder/tally
if ! { mkdir "$work" && has_room && : >"$tally"; } 2>/dev/null; then
  rm -rf "$folder"
  no_room
  exit 1
fi
trap end EXIT
