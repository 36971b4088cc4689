# shellcheck shell=bash
# Completion of j1939 for bash.

# The CAN interfaces that are there: their type is 280.
_j1939_buses() {
  grep -lx 280 /dev/null /sys/class/net/*/type 2>/dev/null | cut -d / -f 5
}

# The options of a command.
_j1939_options() {
  case $1 in
    '') echo --help -h --version -V ;;
    report) echo --bus --table --spn --from --to --pgn --since --until --head --csv --json --utc --help -h ;;
    faults) echo --bus --table --names --conversion --spn --from --to --pgn --since --until --all --changes --now --head --csv --json --utc --help -h ;;
    summary) echo --bus --table --spn --from --to --pgn --since --until --head --csv --json --utc --help -h ;;
    grid) echo --every --bus --table --spn --from --to --pgn --since --until --head --csv --json --utc --help -h ;;
    watch) echo --bus --table --names --spn --from --to --pgn --since --until --rows --width --colour --utc --help -h ;;
    nodes) echo --bus --names --from --seen --silent --head --csv --json --utc --help -h ;;
    survey) echo --bus --table --names --csv --json --utc --help -h ;;
    answer) echo --name --address --bus --help -h ;;
    groups) echo --table --help -h ;;
    cut) echo --source --pgn --at --bus --help -h ;;
    id | name) echo --help -h ;;
  esac
}

_j1939() {
  local commands='report faults summary grid watch nodes survey answer groups id name cut help'
  local word=${COMP_WORDS[COMP_CWORD]} before=${COMP_WORDS[COMP_CWORD - 1]} command='' offered=''
  if [ "$COMP_CWORD" -gt 1 ]; then
    command=${COMP_WORDS[1]}
  fi
  # Of --bus=can0 the sign is a word of its own.
  if [ "$word" = = ]; then
    word=''
  elif [ "$before" = = ]; then
    before=${COMP_WORDS[COMP_CWORD - 2]}
  fi
  case $command:$before:$word in
    *:--bus:*) offered=$(_j1939_buses) ;;
    *:--table:* | *:--names:*) compopt -o default 2>/dev/null ;;
    *:--name:* | *:--address:* | *:--source:* | *:--pgn:* | *:--at:* | *:--spn:* | *:--conversion:* | \
      *:--from:* | *:--to:* | *:--since:* | *:--until:* | *:--rows:* | *:--width:* | *:--every:*) ;;
    *:-*) offered=$(_j1939_options "$command") ;;
    :* | help:*) offered=$commands ;;
    report:* | faults:* | summary:* | grid:* | nodes:* | answer:* | survey:* | watch:*) compopt -o default 2>/dev/null ;;
  esac
  mapfile -t COMPREPLY < <(compgen -W "$offered" -- "$word")
}

complete -F _j1939 j1939
