# Completions for ./run, ./look and their programs in bash: source this file, from ~/.bashrc for instance.

_joinactors_scripts() {
  mapfile -t COMPREPLY < <(compgen -f -X '!*.join' -- "$1"; compgen -d -- "$1")
}

_joinactors() {
  local word=${COMP_WORDS[COMP_CWORD]} before=${COMP_WORDS[COMP_CWORD - 1]} command=${COMP_WORDS[1]}
  COMPREPLY=()
  if ((COMP_CWORD == 1)); then
    mapfile -t COMPREPLY < <(compgen -W "run ask watch check lint replay load" -- "$word")
    return
  fi
  case $before in
    --arrivals | --partials | --workers | --ring | --monitors) return ;;
    --pool) mapfile -t COMPREPLY < <(compgen -W "queue steal" -- "$word"); return ;;
  esac
  if [[ $word == -* ]]; then
    local options="--arrivals --partials --workers --ring"
    [[ $command == run ]] && options+=" --pool"
    [[ $command == watch ]] && options+=" --monitors"
    case $command in
      run | ask | watch) mapfile -t COMPREPLY < <(compgen -W "$options" -- "$word") ;;
    esac
    return
  fi
  case $command:$COMP_CWORD in
    run:2 | ask:2 | watch:2 | check:2 | lint:2 | replay:2) _joinactors_scripts "$word" ;;
    run:* | ask:* | watch:*) mapfile -t COMPREPLY < <(compgen -f -- "$word") ;;
    replay:3) mapfile -t COMPREPLY < <(compgen -f -- "$word") ;;
  esac
}

complete -o filenames -F _joinactors ./run join_tool

_joinactors_look() {
  local word=${COMP_WORDS[COMP_CWORD]}
  COMPREPLY=()
  case ${COMP_WORDS[1]}:$COMP_CWORD in
    *:1) mapfile -t COMPREPLY < <(compgen -W "audit reactions why" -- "$word") ;;
    *:2) _joinactors_scripts "$word" ;;
    *:3 | audit:*) mapfile -t COMPREPLY < <(compgen -f -- "$word") ;;
  esac
}

complete -o filenames -F _joinactors_look ./look look_tool
