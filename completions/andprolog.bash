# Completion of andprolog's command line for bash: source this file, or put it into bash-completion's folder.
_andprolog() {
  local word=${COMP_WORDS[COMP_CWORD]} before=${COMP_WORDS[COMP_CWORD - 1]} known options=() option seen
  COMPREPLY=()
  if [ "$COMP_CWORD" -eq 1 ]; then
    mapfile -t COMPREPLY < <(compgen -W 'run show code load --help --version' -- "$word")
    return
  fi
  case ${COMP_WORDS[1]} in
    run) known=(--workers --budget --answers --annotator) ;;
    show) known=(--entry --annotator) ;;
    code) known=() ;;
    load) known=(--workers) ;;
    *) return ;;
  esac
  case $before in
    --workers) mapfile -t COMPREPLY < <(compgen -W '1 2 4 8 16 32' -- "$word"); return ;;
    --budget) mapfile -t COMPREPLY < <(compgen -W '10000000' -- "$word"); return ;;
    --answers) mapfile -t COMPREPLY < <(compgen -W '1000000' -- "$word"); return ;;
    --annotator) mapfile -t COMPREPLY < <(compgen -W 'mel udg none' -- "$word"); return ;;
    --entry) return ;;
  esac
  if [[ $word == -* ]]; then
    for option in "${known[@]}"; do
      seen=0
      for before in "${COMP_WORDS[@]}"; do [ "$before" = "$option" ] && seen=1; done
      [ "$seen" = 1 ] || options+=("$option")
    done
    mapfile -t COMPREPLY < <(compgen -W "${options[*]}" -- "$word")
    return
  fi
  [ "${COMP_WORDS[1]}" = load ] && return
  mapfile -t COMPREPLY < <(compgen -f -X '!*.pl' -- "$word"; compgen -d -- "$word")
}
complete -o filenames -F _andprolog andprolog
