# Completions of faust for bash: source this file, or put it where bash-completion looks.
_faust() {
  if ((COMP_CWORD == 1)); then
    mapfile -t COMPREPLY < <(compgen -W "script record audit json migrate sample live" -- "${COMP_WORDS[1]}")
  elif ((COMP_CWORD == 5)) && [[ ${COMP_WORDS[1]} == live ]]; then
    mapfile -t COMPREPLY < <(compgen -W 'short full' -- "${COMP_WORDS[5]}")
  else
    COMPREPLY=()
  fi
}
complete -F _faust faust
