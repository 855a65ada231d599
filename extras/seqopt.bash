# Completion for bash: `source extras/seqopt.bash`.
_seqopt() {
  local word=${COMP_WORDS[COMP_CWORD]} options=
  if ((COMP_CWORD == 1)); then
    options='check opt tidy validate seq walk run replay graph litmus outcomes refute gen'
  elif [[ ${COMP_WORDS[COMP_CWORD - 1]} == --form ]]; then
    options='text summary'
  elif [[ $word == -* ]]; then
    case ${COMP_WORDS[1]} in
      seq) options='--function' ;;
      tidy | walk) options='--order --picks --seed --steps' ;;
      run) options='--seed --steps' ;;
      litmus) options='--seed --seeds --steps' ;;
      outcomes | refute) options='--steps --states' ;;
      gen) options='--number --functions --form' ;;
    esac
  fi
  mapfile -t COMPREPLY < <(compgen -W "$options" -- "$word")
}
complete -o default -F _seqopt seqopt ./seqopt
