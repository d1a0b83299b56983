# Completions of f77run for bash: options, their words, and files that may be
# FORTRAN programs.

# Prints what may stand for the word $2 after the word $1, a line for each.
_f77run_candidates() {
  case $1 in
    --workers | --block | --window | --turns) ;;
    --speculate) compgen -W 'adaptive always never' -- "$2" ;;
    --rule)
      compgen -W 'C1 C2 C3 C4 C5 C6 C7 G1 G2 G3 N1 N2 N3 N4 N5
        K1 K2 K3 K4 K5 K6 K7 K8 K9 K10 K11 K12 K13
        F1 F2 F3 F4 F5 F6 F7 F8' -- "$2"
      ;;
    *)
      if [[ $2 == -* ]]; then
        compgen -W '--workers --block --window --turns --speculate --check
          --count --explain --stages --rule -h --help -V --version' -- "$2"
      else
        shopt -s extglob
        compgen -d -- "$2"
        compgen -f -X '!*.@(f|F|for|FOR|f77|F77)' -- "$2"
      fi
      ;;
  esac
}

_f77run() {
  local before=$3 candidate
  # bash takes --rule=K3 for three words.
  [[ $before != = ]] || before=${COMP_WORDS[COMP_CWORD - 2]}
  COMPREPLY=()
  while IFS= read -r candidate; do
    COMPREPLY+=("$candidate")
  done < <(_f77run_candidates "$before" "$2")
}

complete -o filenames -F _f77run f77run
