# Completion of the command mesosev for bash. ./install installs it; or source this file in ~/.bashrc,
# or copy it as mesosev to ~/.local/share/bash-completion/completions.

# The subcommands.
_mesosev_commands() {
  echo check show convert replay relog serve master subscribe loopback help
}

# _mesosev_options COMMAND: prints its options, or without a command those of mesosev itself
_mesosev_options() {
  case $1 in
    check) echo --chunked --lines --calls --limit ;;
    show) echo --chunked --lines --calls --limit --json ;;
    convert) echo --chunked --lines --calls --limit --most --json ;;
    replay) echo --limit --json ;;
    relog) echo --limit ;;
    serve) echo --port --count --stream ;;
    master) echo --port --heartbeat --resend --finish-after --seconds --most --fault --faults --seed --once ;;
    subscribe) echo --to --user --name --reads --json ;;
    loopback) echo --most ;;
  esac
  [ "$1" = help ] || echo -h --help -V --version
}

# Prints the first argument, unless it is the word that is being completed.
_mesosev_command() {
  [ "$COMP_CWORD" -eq 1 ] || echo "${COMP_WORDS[1]}"
}

# _mesosev_files START: completes the file after <
_mesosev_files() {
  compopt -o filenames 2>/dev/null
  mapfile -t COMPREPLY < <(compgen -f -- "$1")
}

_mesosev() {
  local word=${COMP_WORDS[COMP_CWORD]} before=${COMP_WORDS[COMP_CWORD - 1]}
  local command words
  COMPREPLY=()
  # No option has a list of known values.
  case $before,$word in
    *,'<') _mesosev_files '' && return ;;
    '<,'*) _mesosev_files "$word" && return ;;
    --limit,* | --most,* | --port,* | --count,* | --stream,*) return ;;
    --heartbeat,* | --resend,* | --finish-after,* | --seconds,*) return ;;
    --fault,* | --faults,* | --seed,*) return ;;
    --to,* | --user,* | --name,* | --reads,* | =,* | *,=) return ;;
  esac
  command=$(_mesosev_command)
  words=$(_mesosev_options "$command")
  if [ -z "$command" ] || [ "$command,$COMP_CWORD" = help,2 ]; then
    words+=" $(_mesosev_commands)"
  fi
  mapfile -t COMPREPLY < <(compgen -W "$words" -- "$word")
}

complete -F _mesosev mesosev
