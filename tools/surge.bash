# Completes the words of surge in bash. In a shell, or in ~/.bashrc:  . tools/surge.bash
_surge() {
  local word=${COMP_WORDS[COMP_CWORD]} before=${COMP_WORDS[COMP_CWORD - 1]}
  case $before in
    --script) mapfile -t COMPREPLY < <(compgen -f -X '!*.gv' -- "$word"; compgen -d -S / -- "$word") ;;
    --replay) mapfile -t COMPREPLY < <(compgen -f -- "$word") ;;
    --mode) mapfile -t COMPREPLY < <(compgen -W 'run check summary changes' -- "$word") ;;
    --sample | --turns) COMPREPLY=() ;;
    *) mapfile -t COMPREPLY < <(compgen -W '--script --sample --replay --mode --turns --help --version' -- "$word") ;;
  esac
}
complete -o nospace -F _surge surge ./surge
