# Completes the words of higwadel in bash: commands, options, built-in calculi and classes, and files. Source this file, or
# let ./higwadel --install put it where bash looks for it.

# Adds what begins with the word: of a list of words, and of the files with an ending.
_higwadel_add() {
  local found
  mapfile -t found < <(
    compgen -W "$1" -- "$2"
    if [ -n "${3-}" ]; then compgen -f -X "!*$3" -- "$2"; compgen -d -S / -- "$2"; fi
  )
  COMPREPLY+=("${found[@]}")
}

# How many words stand between the command and the word, the options and their values aside.
_higwadel_places() {
  local at places=0
  for ((at = 2; at < COMP_CWORD; at++)); do
    case "${COMP_WORDS[at]}" in
      --cert) ;;
      --*) at=$((at + 1)) ;;
      *) places=$((places + 1)) ;;
    esac
  done
  echo "$places"
}

_higwadel() {
  local word=${COMP_WORDS[COMP_CWORD]} before=${COMP_WORDS[COMP_CWORD - 1]} command=${COMP_WORDS[1]} options=""
  local commands="close solve intervals minimal check trace relate scene serve demo"
  COMPREPLY=()
  if [ "$COMP_CWORD" -eq 1 ]; then
    _higwadel_add "$commands help --help --version --build --test --install" "$word"
    return
  fi
  case "$command" in
    close | serve) options="--workers" ;;
    solve) options="--class --polygons --budget --workers --cert" ;;
    intervals | minimal) options="--class --budget --workers" ;;
    check | trace) options="--polygons" ;;
    relate) options="--pattern" ;;
    help) _higwadel_add "$commands" "$word"; return ;;
    --install) _higwadel_add "" "$word" /; return ;;
  esac
  case "$before,$word,$command,$(_higwadel_places)" in
    --class,*) _higwadel_add "h8 c8 q8 none" "$word" .class ;;
    --polygons,*) _higwadel_add "" "$word" .polygons ;;
    --workers,* | --budget,* | --pattern,*) ;;
    *,-*) _higwadel_add "$options --help" "$word" ;;
    *,close,0 | *,solve,0 | *,minimal,0 | *,check,0 | *,trace,0 | *,serve,0) _higwadel_add "rcc8 allen point" "$word" .table ;;
    *,relate,0 | *,scene,0) _higwadel_add "" "$word" .polygons ;;
    *,check,1 | *,trace,1) _higwadel_add "" "$word" .cert ;;
    *,close,1 | *,solve,1 | *,intervals,0 | *,minimal,1 | *,check,2 | *,trace,2) _higwadel_add "" "$word" .net ;;
    *,serve,2) _higwadel_add "" "$word" .script ;;
  esac
  # where nothing has the usual ending, any file will do
  case "$before" in --workers | --budget | --pattern) return ;; esac
  [ ${#COMPREPLY[@]} -gt 0 ] || mapfile -t COMPREPLY < <(compgen -f -- "$word")
}
complete -o filenames -F _higwadel higwadel ./higwadel
