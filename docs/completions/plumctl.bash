# Completion of plumctl for bash. Source it, or put it into ~/.local/share/bash-completion/completions as plumctl:
#
#   source docs/completions/plumctl.bash

_plumctl_files() {
  local file
  compopt -o filenames 2>/dev/null
  while IFS= read -r file; do COMPREPLY+=("$file"); done < <(compgen -f -- "$1")
}

_plumctl() {
  local current=${COMP_WORDS[COMP_CWORD]} before=${COMP_WORDS[COMP_CWORD - 1]}
  local words='' index command='' files=0 unproved=''
  COMPREPLY=()
  # --unproved, before the command, is an option of the script ./plumctl alone: it is offered where the command is a path
  [[ ${COMP_WORDS[0]} = */* ]] && unproved=--unproved
  for ((index = 1; index < COMP_CWORD; index++)); do
    [ "${COMP_WORDS[index]}" = --unproved ] && unproved='' && continue
    command=${COMP_WORDS[index]}
    break
  done
  case $command in
    '') words="frame run draw file live help $unproved -h --help -V --version" ;;
    help) [ "$before" = help ] && words='frame run draw file live help' ;;
    frame) words='--key -h --help' files=1 ;;
    run) words='--explain -h --help' files=1 ;;
    draw) words='--from --to --fold -h --help' files=1 ;;
    file) words='--rewrite --compact -h --help' files=1 ;;
    live)
      words='--record --files --mixed -h --help'
      [ "$before" = --record ] || [ "$before" = --files ] && files=1
      ;;
  esac
  case $before in
    --key | --rewrite | --record) words='' ;;
    --from | --to) return ;;
    --files)
      compopt -o filenames 2>/dev/null
      mapfile -t COMPREPLY < <(compgen -d -- "$current")
      return
      ;;
  esac
  if [[ $current = -* || $files = 0 ]]; then
    mapfile -t COMPREPLY < <(compgen -W "$words" -- "$current")
  else
    _plumctl_files "$current"
  fi
}

complete -F _plumctl plumctl ./plumctl
