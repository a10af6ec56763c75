# Completion of gvr's words for bash: . tools/completion/gvr.bash
_gvr() {
  local word=${COMP_WORDS[COMP_CWORD]} before=${COMP_WORDS[COMP_CWORD - 1]} options=
  case $before in
    --order) [ "${COMP_WORDS[1]}" = fmt ] || { COMPREPLY=($(compgen -W "free held" -- "$word")); return; } ;;
    --check) [ "${COMP_WORDS[1]}" = fmt ] || { COMPREPLY=($(compgen -W "run laws" -- "$word")); return; } ;;
    --gateway) [ "${COMP_WORDS[1]}" = fmt ] || { COMPREPLY=($(compgen -W "http scgi" -- "$word")); return; } ;;
  esac
  if [ "$COMP_CWORD" -eq 1 ]; then
    COMPREPLY=($(compgen -W "run fmt verify try watch explain diff stats json storm wsgi serve live beside app --help --version" -- "$word"))
    return
  fi
  case ${COMP_WORDS[1]} in
    run) options="--turns --moves --tick --native --order --sources" ;;
    fmt) options="--check" ;;
    verify) options="--check --turns --moves" ;;
    try) options="--sources" ;;
    watch) options="--turns --moves --tick --native --order" ;;
    stats) options="--turns --moves --tick --native --order" ;;
    json) options="--turns --moves --tick --native --order" ;;
    storm) options="--size" ;;
    wsgi) options="--gateway" ;;
    serve) options="--port --conns --pool --idle --jobs --pass --patience --gateway" ;;
  esac
  case $word in
    -*) COMPREPLY=($(compgen -W "$options --help" -- "$word")) ;;
    *) case ${COMP_WORDS[1]} in
      run|fmt|verify|try|watch|explain|diff|stats|json|live|beside|app) COMPREPLY=($(compgen -f -- "$word")) ;;
      *) COMPREPLY=($(compgen -W "$options --help" -- "$word")) ;;
    esac ;;
  esac
}
complete -F _gvr gvr ./gvr
