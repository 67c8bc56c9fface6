# Completion of ecmbx for bash: forms, files by form, families of codes, and the slaves of a scenario.

_ecmbx_files() {
  compopt -o filenames 2>/dev/null
  mapfile -t COMPREPLY < <(compgen -f -X "!*.$1" -- "$2"; compgen -d -- "$2")
}

_ecmbx_words() { mapfile -t COMPREPLY < <(compgen -W "$1" -- "$2"); }

# The names of a scenario's slaves: the first key `name` behind each header [[slave]].
_ecmbx_slaves() {
  awk '/^\[\[slave\]\]/ { wanted = 1; next } /^\[/ { wanted = 0 } wanted && /^name *=/ { gsub(/^name *= *"|".*$/, ""); print; wanted = 0 }' "$1" 2>/dev/null
}

_ecmbx() {
  local forms="run explain decode audit serve stream get put ask make help version"
  local word=${COMP_WORDS[COMP_CWORD]}
  COMPREPLY=()
  case "$COMP_CWORD ${COMP_WORDS[1]-}" in
    "1 "*) _ecmbx_words "$forms" "$word" ;;
    "2 help") _ecmbx_words "$forms" "$word" ;;
    "2 explain") _ecmbx_words "rule fault audit status abort foe soe eoe mailbox refused" "$word" ;;
    "2 run" | "2 serve" | "2 stream" | "2 get" | "2 put") _ecmbx_files toml "$word" ;;
    "3 run" | "2 decode" | "2 audit") _ecmbx_files pcap "$word" ;;
    "3 get" | "3 put") _ecmbx_words "$(_ecmbx_slaves "${COMP_WORDS[2]}")" "$word" ;;
    "5 get" | "5 put")
      compopt -o filenames 2>/dev/null
      mapfile -t COMPREPLY < <(compgen -f -- "$word")
      ;;
  esac
}

complete -F _ecmbx ecmbx
