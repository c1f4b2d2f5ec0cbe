# Completion of `tapa` for bash: commands, options with their values, files, and for TOP the tasks of the source.
# Source it, or put it as `tapa` into a folder of completions: ~/.local/share/bash-completion/completions/ (tools/install does).

# The tasks of a source that begin with some letters.
_tapa_tasks() {
  [ -r "$1" ] && compgen -W "$(sed -n 's/^[[:space:]]*void[[:space:]][[:space:]]*\([A-Za-z_][A-Za-z_0-9]*\)[[:space:]]*(.*/\1/p' "$1")" -- "$2"
}

_tapa_files() {
  compgen -o plusdirs -f -X "!*.$1" -- "$2"
}

_tapa() {
  local word=${COMP_WORDS[COMP_CWORD]} before=${COMP_WORDS[COMP_CWORD - 1]} first=1 options=""
  local -a given=()
  COMPREPLY=()
  [ "${COMP_WORDS[1]}" = --explain ] && [ "$COMP_CWORD" -gt 1 ] && first=2
  local command=${COMP_WORDS[first]} at=$((first + 1))
  if [ "$COMP_CWORD" -eq "$first" ]; then
    mapfile -t COMPREPLY < <(compgen -W "run build plan cosim vcd gen $([ "$first" -eq 1 ] && [[ $word == -* ]] && echo --explain)" -- "$word")
    return
  fi
  case $before in
    --plan) mapfile -t COMPREPLY < <(compgen -W "fit exact split" -- "$word"); return ;;
    --device) mapfile -t COMPREPLY < <(_tapa_files json "$word"); return ;;
    --workers | --steps | --cycles) return ;;
  esac
  case $command in
    run) options="--workers --steps" ;;
    build) options="--device --plan --no-balance" ;;
    plan) options="--plan" ;;
    cosim) options="--cycles --vcd" ;;
    gen) options="--workers" ;;
  esac
  if [[ $word == -* ]]; then
    mapfile -t COMPREPLY < <(compgen -W "$options" -- "$word")
    return
  fi
  # the words before this one that are no options and no values of options
  while [ "$at" -lt "$COMP_CWORD" ]; do
    case ${COMP_WORDS[at]} in
      --plan | --device | --workers | --steps | --cycles) at=$((at + 1)) ;;
      -?*) ;;
      *) given+=("${COMP_WORDS[at]}") ;;
    esac
    at=$((at + 1))
  done
  case $command:${#given[@]} in
    run:0 | build:0 | plan:0) mapfile -t COMPREPLY < <(_tapa_files cpp "$word") ;;
    run:1 | build:1 | plan:1) mapfile -t COMPREPLY < <(_tapa_tasks "${given[0]}" "$word") ;;
    run:2 | plan:2 | cosim:1) mapfile -t COMPREPLY < <(_tapa_files json "$word") ;;
    cosim:0) mapfile -t COMPREPLY < <(_tapa_files v "$word") ;;
    vcd:0) mapfile -t COMPREPLY < <(_tapa_files vcd "$word") ;;
    vcd:1) [ -r "${given[0]}" ] && mapfile -t COMPREPLY < <(compgen -W "$(sed -n 's/^\$var [a-z]* [0-9]* [^ ]* \([^ ]*\) \$end$/\1/p' "${given[0]}")" -- "$word") ;;
  esac
}

complete -o filenames -F _tapa tapa
