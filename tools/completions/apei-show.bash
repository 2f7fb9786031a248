# Completion of `apei-show` in bash: its options that aren't given yet, and their values. Source this file, or put it as `apei-show` where bash-completion
# looks, as in ~/.local/share/bash-completion/completions. tools/run option_texts writes it.

# The options, by the job where the program has jobs; of any job while none is given.
_apei_show_options() {
  case $1 in
    '') echo '--here --keep= --since-last --pci-ids= --brief --json --bytes --strict --color= --smbios=' ;;
  esac
}

# The values of an option that begin with some text.
_apei_show_values() {
  local values=() value
  case $1 in
    --keep) _apei_show_paths -d "$2" ;;
    --pci-ids) _apei_show_paths -f "$2" ;;
    --color) values=(auto always never) ;;
    --smbios) _apei_show_paths -f "$2" ;;
  esac
  for value in "${values[@]}"; do [[ $value != "$2"* ]] || COMPREPLY+=("$value"); done
}

# Files (-f) or folders (-d) whose names begin with some text.
_apei_show_paths() {
  compopt -o filenames 2>/dev/null
  mapfile -t COMPREPLY < <(compgen "$1" -- "$2")
}

_apei_show() {
  COMPREPLY=()
  # Bash cuts a word at its `=`, so `--slots=3` may come in three.
  local words=() word at
  for ((at = 1; at <= COMP_CWORD; at++)); do
    word=${COMP_WORDS[at]}
    if [[ ${#words[@]} -gt 0 && ( $word == = || ${words[-1]} == --*= ) ]]; then words[-1]+=$word; else words+=("$word"); fi
  done
  local current=${words[-1]} option='' job='' given=' ' ended='' file=''
  unset 'words[-1]'
  for word in "${words[@]}"; do
    if [[ $word == [\<\>]* ]]; then file=yes
    elif [[ -n $file ]]; then file=''
    elif [[ -n $option ]]; then option=''
    elif [[ -n $ended || $word != -* ]]; then :
    elif [[ $word == -- ]]; then ended=yes
    elif [[ $word == *=* || ' --here --since-last --brief --json --bytes --strict ' == *" $word "* ]]; then given+="${word%%=*} "
    else option=$word given+="$word "
    fi
  done
  # One of the two is taken.
  case $given in *' --json '* | *' --brief '*) given+='--json --brief ' ;; esac
  if [[ -n $file ]]; then
    _apei_show_paths -f "$current"
  elif [[ -n $option ]]; then
    _apei_show_values "$option" "$current"
  elif [[ -z $ended && $current == --*=* ]]; then
    _apei_show_values "${current%%=*}" "${current#*=}"
    # Where bash has not cut the word, the option is a part of what is completed.
    [[ $COMP_WORDBREAKS == *=* ]] || COMPREPLY=("${COMPREPLY[@]/#/${current%%=*}=}")
  elif [[ -z $ended && ( $current == -* || ( -n $job && -z $current ) ) ]]; then
    compopt -o nospace 2>/dev/null
    for option in $(_apei_show_options "$job"); do
      [[ $given == *" ${option%=} "* || $option != "$current"* ]] || COMPREPLY+=("$option")
    done
  else
    _apei_show_paths -f "$current"
  fi
}

complete -F _apei_show apei-show
