# Completion for bash of iptsim and its commands. tools/completions writes this file of share/commands.tsv.
#
# bash-completion reads it from where it is installed. Without that package `source` loads it: it needs bash alone.

# Sets what may stand after a command, or after a command and its subcommand: `subcommands`; `options`, of which one that takes a value
# has the value's name after `=`; and `places`, the names of other words in turn. `..` stands after what may come more than once.
_iptsim_form() {
  subcommands='' options='' places=''
  case "$1" in
FORMS
  esac
}

# Puts what may stand for a value into COMPREPLY: value NAME BEGUN.
_iptsim_value() {
  case "$1" in
VALUES
  esac
}

# Puts the files that begin with a text into COMPREPLY.
_iptsim_files() {
  local file
  while IFS= read -r file; do COMPREPLY+=("$file"); done < <(compgen -f -- "$1")
  compopt -o filenames 2>/dev/null || true
}

# Puts the words that begin with a text, and aren't on the line yet, into COMPREPLY.
_iptsim_words() {
  local begun="$1" word
  shift
  for word in "$@"; do
    case " ${COMP_WORDS[*]:1:COMP_CWORD-1} " in *" $word "*) continue ;; esac
    if [[ $word = "$begun"* ]]; then COMPREPLY+=("$word"); fi
  done
  case "${COMPREPLY[*]-}" in *=) compopt -o nospace 2>/dev/null || true ;; esac
}

# Puts the options that begin with a text into COMPREPLY, but those that stand on the line and come once.
_iptsim_options() {
  local option name
  for option in $options; do
    name="${option%%=*}"
    if [[ $option = *.. ]] && [[ $name = "$1"* ]]; then
      COMPREPLY+=("$name")
    elif [[ $option != *.. ]]; then
      _iptsim_words "$1" "$name"
    fi
  done
}

# Sets `awaited` to the name of the value that an option takes, or to nothing.
_iptsim_await() {
  local option
  awaited=''
  for option in $options; do
    if [ "${option%%=*}" = "$1" ] && [ "${option%%=*}" != "$option" ]; then awaited="${option#*=}"; fi
  done
  awaited="${awaited%..}"
}

# Goes through the words from the place `at` to the present one. It sets `awaited` to the name of the value that the present word is to
# be, and `passed` to how many words before it stand in places. In `--load=FILE` the `=` is a word of its own to bash.
_iptsim_pass() {
  passed=0 awaited=''
  while [ "$at" -lt "$COMP_CWORD" ]; do
    if [ "${COMP_WORDS[at]}" = = ]; then
      [ -n "$awaited" ] || awaited='?'
    elif [ -n "$awaited" ]; then
      awaited=''
    elif [[ ${COMP_WORDS[at]} = -* ]]; then
      _iptsim_await "${COMP_WORDS[at]}"
    else
      passed=$((passed + 1))
    fi
    at=$((at + 1))
  done
}

# Sets `place` to the name of the place in which the present word stands, or to nothing.
_iptsim_place() {
  local name left="$passed"
  place=''
  for name in $places; do
    if [ "$left" -eq 0 ] || [[ $name = *.. ]]; then
      place="${name%..}"
      return
    fi
    left=$((left - 1))
  done
}

_iptsim() {
  local command="${COMP_WORDS[0]##*/}" present="${COMP_WORDS[COMP_CWORD]}" at=1 subcommands options places awaited passed place
  COMPREPLY=()
  _iptsim_form "$command"
  if [ -n "$subcommands" ] && [ "$COMP_CWORD" -eq 1 ]; then
    _iptsim_words "$present" $subcommands
    _iptsim_options "$present"
    return
  elif [ -n "$subcommands" ]; then
    _iptsim_form "$command ${COMP_WORDS[1]}"
    at=2
  fi
  _iptsim_pass
  _iptsim_place
  if [ -n "$awaited" ]; then
    _iptsim_value "$awaited" "${present#=}"
  elif [[ $present = -* ]] || [ -z "$place" ]; then
    _iptsim_options "$present"
  elif [ "$present" != = ]; then
    _iptsim_value "$place" "$present"
  fi
}

complete -F _iptsim COMMANDS
