# Completion of hemakuliwi for bash.

_hemakuliwi() {
  local current=${COMP_WORDS[COMP_CWORD]} previous=${COMP_WORDS[COMP_CWORD - 1]} command='' word words=''
  # bash cuts words at =, so that --from=cs comes as three.
  if [[ $current == = ]]; then
    current=''
  elif [[ $previous == = ]]; then
    previous=${COMP_WORDS[COMP_CWORD - 2]}
  fi
  for word in "${COMP_WORDS[@]:1:COMP_CWORD-1}"; do
    case $word in
      convert | check | show | explain | help)
        command=$word
        break
        ;;
    esac
  done
  case $previous in
    --from | --to | --in) words='csvj tdif csv+' ;;
    --color) words='auto always never' ;;
    --width) return ;;
    -o | --output)
      compopt -o filenames 2>/dev/null
      mapfile -t COMPREPLY < <(compgen -f -- "$current")
      return
      ;;
  esac
  if [[ -z $words ]]; then
    case $command:$current in
      :-*) words='--help --version --color' ;;
      :*) words='convert check show explain help' ;;
      convert:-*) words='--from --to --output --json --color --help' ;;
      check:-*) words='--in --quiet --json --color --help' ;;
      show:-*) words='--in --width --json --color --help' ;;
      explain:-*) words='--help' ;;
      explain:*) words='1 2 3 4 5 6 7 8 9 10 11 12' ;;
      help:*) words='convert check show explain' ;;
      *)
        compopt -o filenames 2>/dev/null
        mapfile -t COMPREPLY < <(compgen -f -- "$current")
        return
        ;;
    esac
  fi
  mapfile -t COMPREPLY < <(compgen -W "$words" -- "$current")
}

complete -F _hemakuliwi hemakuliwi
