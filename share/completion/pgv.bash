# Completion of pgv and its side programs for bash: source it, or install it as share/bash-completion/completions/pgv, with a link to it
# of each side program's name. It needs bash 4.

# The files of one ending that begin with a word, and folders; any file where there is none of that ending.
_pgv_files() {
  local word="$1" ending="$2" found
  compopt -o filenames 2>/dev/null
  mapfile -t COMPREPLY < <(compgen -f -X "!*$ending" -- "$word")
  [ ${#COMPREPLY[@]} -gt 0 ] || mapfile -t COMPREPLY < <(compgen -f -- "$word")
  while IFS= read -r found; do
    [[ " ${COMPREPLY[*]} " == *" $found "* ]] || COMPREPLY+=("$found")
  done < <(compgen -d -- "$word")
}

_pgv() {
  local commands="bare check verify replay run print gen migrate hcheck hybrid nest asm disasm save resume"
  local word="${COMP_WORDS[COMP_CWORD]}" command="${COMP_WORDS[1]}" files="" options="" used=" " value="" at=0 past=no i name
  COMPREPLY=()
  if [ "$COMP_CWORD" = 1 ]; then
    mapfile -t COMPREPLY < <(compgen -W "$commands" -- "$word")
    return
  fi
  case $command in
    bare) files=".isa .img" options="--grant --steps" ;;
    check | hcheck) files=".isa" options="--cert --budget" ;;
    verify | replay) files=".isa .cert" ;;
    run | hybrid) files=".isa .cert .img .img .img .img .img .img .img .img" options="--grant --steps --slice" ;;
    print) files=".isa" ;;
    gen) files="- -" options="--cert" ;;
    migrate) files=".isa .cert .cert" ;;
    nest) files=".isa .cert .img" options="--grant --steps --depth" ;;
    asm) files=".isa .s" options="--grant" ;;
    disasm) files=".isa .img" options="--grant" ;;
    save) files=".isa .cert .img .saved" options="--grant --steps" ;;
    resume) files=".isa .cert .saved" options="--steps --skip" ;;
    *) return ;;
  esac

  # What stands before the word: options with their values, and files. bash makes three words of --grant=8.
  for ((i = 2; i < COMP_CWORD; i++)); do
    name="${COMP_WORDS[i]}"
    if [ $past = no ] && [ "$name" = -- ]; then
      past=yes
    elif [ $past = no ] && [[ $name == --* ]]; then
      used+="${name%%=*} "
      [[ $name == *=* ]] && continue
      [ "${COMP_WORDS[i + 1]}" = "=" ] && ((i++))
      ((i++))
      [ "$i" -ge "$COMP_CWORD" ] && value="$name"
    else
      ((at++))
    fi
  done

  [ "$word" = "=" ] && word=""
  case $value in
    --cert) _pgv_files "$word" .cert; return ;;
    --depth) mapfile -t COMPREPLY < <(compgen -W "1 2 3 4" -- "$word"); return ;;
    --*) return ;;
  esac
  if [ $past = no ] && [[ $word == -* ]]; then
    for name in $options; do
      [[ $used == *" $name "* ]] || COMPREPLY+=("$name")
    done
    mapfile -t COMPREPLY < <(compgen -W "${COMPREPLY[*]}" -- "$word")
    return
  fi
  set -f
  # shellcheck disable=SC2086
  set -- $files
  set +f
  shift "$((at < $# ? at : $#))"
  if [ $# -gt 0 ] && [ "$1" != - ]; then
    _pgv_files "$word" "$1"
  elif [ $# = 0 ] && [ $past = no ] && [ -z "$word" ]; then
    for name in $options; do
      [[ $used == *" $name "* ]] || COMPREPLY+=("$name")
    done
  fi
}

# The instructions of a description that begin with a word.
_pgv_instrs() {
  local word="$1" names
  names="$(sed -n 's/^[[:space:]]*instr[[:space:]]\{1,\}\([A-Za-z_][A-Za-z0-9_]*\).*/\1/p' "${2/#\~\//$HOME/}" 2>/dev/null)"
  mapfile -t COMPREPLY < <(compgen -W "$names" -- "$word")
}

_pgv_side() {
  local kinds="privileged control mode location bound ucontrol ulocation ubound"
  local word="${COMP_WORDS[COMP_CWORD]}" files="" options="" least=0 order=yes used=" " value="" desc="" at=0 i name
  COMPREPLY=()
  # Its files, its options, how many files stand before an option at least, and whether none stands behind one.
  case ${1##*/} in
    pg_explain) files=".isa .cert instr kind" options="--budget --mend --readable --json" least=2 ;;
    pg_trace) files=".isa .img" options="--grant --steps --until --cert --only-traps --counts --json --vcd" order=no ;;
    pg_go) files=".isa .cert .img .img .img .img .img .img .img .img" options="--bare --grant --steps --slice --show --text" order=no ;;
    pg_dimacs) files=".isa instr kind" ;;
    pg_import) files=".isa .cert instr kind - .cert" ;;
    pg_export) files=".isa .cert instr kind" options="--cnf" least=4 ;;
    pg_solve) files=".cnf -" options="--check" least=1 ;;
    *) return ;;
  esac

  for ((i = 1; i < COMP_CWORD; i++)); do
    name="${COMP_WORDS[i]}"
    case $name in
      --only-traps | --counts | --check | --readable | --json | --vcd | --bare) used+="$name " ;;
      --*)
        # These two may be given again.
        [[ $name == --show || $name == --text ]] || used+="$name "
        ((i++))
        [ "$i" -ge "$COMP_CWORD" ] && value="$name"
        ;;
      *)
        [ "$at" = 0 ] && desc="$name"
        ((at++))
        ;;
    esac
  done
  [[ ${1##*/} == pg_go && $used == *" --bare "* ]] && files=".isa .img"
  case $value in
    --mend) _pgv_files "$word" .isa; return ;;
    --cert) _pgv_files "$word" .cert; return ;;
    --cnf) _pgv_files "$word" .cnf; return ;;
    --until) mapfile -t COMPREPLY < <(compgen -W "still trap P=" -- "$word"); return ;;
    --*) return ;;
  esac

  set -f
  # shellcheck disable=SC2086
  set -- $files
  set +f
  shift "$((at < $# ? at : $#))"
  [ $order = yes ] && [ "$used" != " " ] && set --
  if [[ $word != -* ]] && [ $# -gt 0 ] && [ "$1" != - ]; then
    case $1 in
      instr) _pgv_instrs "$word" "$desc" ;;
      kind) mapfile -t COMPREPLY < <(compgen -W "$kinds" -- "$word") ;;
      *) _pgv_files "$word" "$1" ;;
    esac
  elif [ "$at" -ge "$least" ] && [[ $used != *" --check "* ]]; then
    for name in $options; do
      [[ $used == *" $name "* ]] || COMPREPLY+=("$name")
    done
    mapfile -t COMPREPLY < <(compgen -W "${COMPREPLY[*]}" -- "$word")
  fi
}

complete -F _pgv pgv
complete -F _pgv_side pg_explain pg_trace pg_go pg_dimacs pg_solve pg_import pg_export
