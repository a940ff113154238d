# Completions of dvgcheck for bash: `source` this file, or put it into the folder of bash-completion under the name dvgcheck.
# tests/completions holds it to what the program's --help says.

_dvgcheck() {
  local word=${COMP_WORDS[COMP_CWORD]} before=${COMP_WORDS[COMP_CWORD - 1]} command=${COMP_WORDS[1]} options=
  COMPREPLY=()
  if ((COMP_CWORD == 1)); then
    command=
  elif [ "$command" = explain ] && ((COMP_CWORD > 2)); then
    command="explain ${COMP_WORDS[2]}"
  fi
  case $before in
    # a file, or a word that nobody can guess
    --cert | --list | --labels | --frame | -o | --output | --print | --budget | --window | --rom | --start | --within | --records) return ;;
  esac
  case $command in
    '') options='frames check make places diff recipe belongs explain rules help -h --help -V --version' ;;
    frames) options='--board --rom --cert --budget --window --clip --start --labels --clocks --within --remarks --records --list --null --only-refused --summary -h --help' ;;
    check) options='--board --budget --window --clip --exact -h --help' ;;
    make) options='--board --frame --rom --labels -o --output -h --help' ;;
    places) options='--board --frame --rom --labels --window --clip -h --help' ;;
    diff) options='--board --frame --rom --labels -h --help' ;;
    recipe) options='--board --rom --budget --window --clip --labels --clocks --within -o --output --print -h --help' ;;
    belongs) options='--board --rom --labels --records --list --null --only-outside --summary -h --help' ;;
    explain) options='frames check make diff belongs recipe help -h --help' ;;
    'explain frames') options='--board --rom --cert --budget --window --clip --start --labels --clocks --within --records --list --null --only-refused --summary -h --help' ;;
    'explain check') options='--board --budget --window --clip --exact --labels -h --help' ;;
    'explain make') options='--board --frame --rom --labels -h --help' ;;
    'explain diff') options='--rom --labels -h --help' ;;
    'explain belongs') options='--board --rom --labels --records -h --help' ;;
    'explain recipe') options='--board --rom --budget --window --clip --labels -h --help' ;;
    rules) options='-h --help' ;;
    help | 'explain help') options='frames check make places diff recipe belongs explain rules' ;;
  esac
  case $command,$word in
    frames,[!-]* | check,[!-]* | make,[!-]* | places,[!-]* | diff,[!-]* | recipe,[!-]* | belongs,[!-]* | explain\ *,[!-]*) return ;;
  esac
  # shellcheck disable=SC2207
  COMPREPLY=($(compgen -W "$options" -- "$word"))
}
complete -o default -F _dvgcheck dvgcheck
