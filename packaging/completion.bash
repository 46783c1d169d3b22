# Completion in bash for shipgate and the tools beside it.

_shipgate() {
  local word=${COMP_WORDS[COMP_CWORD]}
  COMPREPLY=()
  if [ "$COMP_CWORD" = 1 ]; then
    mapfile -t COMPREPLY < <(compgen -W "convert show check replay serve demo" -- "$word")
  elif [ "$COMP_CWORD" = 2 ]; then
    case ${COMP_WORDS[1]} in
      check | replay | serve) mapfile -t COMPREPLY < <(compgen -f -X '!*.toml' -- "$word" && compgen -d -S / -- "$word") ;;
    esac
  fi
}

# A tool's options are those that its help lists: each begins a line there. Its text also names options of other tools. Any other word may be a file.
_shipgate_tool() {
  local word=${COMP_WORDS[COMP_CWORD]}
  case $word in
    -*) mapfile -t COMPREPLY < <(compgen -W "$("$1" --help 2>/dev/null | sed -n 's/^  \(-h, \)\?\(--[a-z-]*\).*/\2/p')" -- "$word") ;;
    *) mapfile -t COMPREPLY < <(compgen -f -- "$word") ;;
  esac
}

complete -F _shipgate shipgate
complete -o filenames -F _shipgate_tool buslink tolog buslook configlook netlink keep livelook sentencelink
