# Completion of `pops` and its companions for bash.

# Lists the long options of a program.
_pops_options() {
  local own
  case $1 in
    pops) echo --check --no-board; return ;;
    pops-part) echo --list --depth --item --phase --part --faults; return ;;
    pops-tries) echo --check --no-board --refutations; return ;;
    fen2pop)
      own='--file --stipulation --title --author --condition --set-play --variation --no-board --max-solutions
        --keep-colours --output'
      ;;
    pops-compare) own='--output --encoding' ;;
    pops-import) own='--output --index --json --encoding' ;;
    pops-many)
      own='--output --each --index --jobs --check --no-board --seconds --unfinished --split --split-after --split-depth
        --pops-part --resume --journal --pops --sshlogin --remote-pops --remote-pops-part --ssh'
      ;;
    pops-sheet)
      own='--report --tries --tries-text --refutations --to --language --figures --heading --apart --first-number --per-row
        --seconds --jobs --output --pops --pops-tries --encoding'
      ;;
    pops-page) own='--output --heading --input --unfinished --apart --encoding' ;;
    pops-diagram) own='--svg --png --latex --output --width --input --apart --encoding' ;;
    pops2json) own='--output --array --events --tries --unfinished --schema --input --encoding' ;;
    pops-test)
      own='--input --solutions --pose --short --tries --unfinished --csv --page --heading --apart --all --output --encoding'
      ;;
    pops-judge)
      own='--output --heading --seconds --jobs --solutions --resume --apart --all --pops --pops-tries --encoding'
      ;;
    popeye-py) own='-maxtime -maxmem -maxpos --pops --pops-tries' ;;
    pops-export) own='--to --report --apart --output --encoding' ;;
    pops-find)
      own='--add --near --play --report --author --title --source --date --keyword --stipulation --condition --fragment
        --men --count --most --output --encoding'
      ;;
    pops-explain) own='--output --all --fix --force --json --pops' ;;
  esac
  # shellcheck disable=SC2086
  echo --help --version $own
}
_pops() {
  local program=${COMP_WORDS[0]##*/} word=${COMP_WORDS[COMP_CWORD]} before=${COMP_WORDS[COMP_CWORD - 1]}
  case $word in
    -*) mapfile -t COMPREPLY < <(compgen -W "$(_pops_options "$program")" -- "$word"); return ;;
  esac
  case $program,$before in
    fen2pop,--condition | fen2pop,-c) mapfile -t COMPREPLY < <(compgen -W 'Circe Madrasi' -- "$word") ;;
    pops-export,--to) mapfile -t COMPREPLY < <(compgen -W 'popeye yaml' -- "$word") ;;
    pops-sheet,--to) mapfile -t COMPREPLY < <(compgen -W 'html latex pdf text' -- "$word") ;;
    pops-sheet,--tries) mapfile -t COMPREPLY < <(compgen -W 'all variations none' -- "$word") ;;
    pops-sheet,--language) mapfile -t COMPREPLY < <(compgen -W 'en de fr' -- "$word") ;;
    pops-part,--phase) mapfile -t COMPREPLY < <(compgen -W 'set play' -- "$word") ;;
    pops-part,--depth) mapfile -t COMPREPLY < <(compgen -W '1 2 3 4' -- "$word") ;;
    pops-part,--item | pops-part,--part | pops-tries,--refutations) ;;
    pops-part,* | pops-tries,*)
      mapfile -t COMPREPLY < <(compgen -f -X '!*.pop' -- "$word"; compgen -d -- "$word")
      ;;
    # Any file is offered for the value of an option, and where a report or positions are read.
    pops-*,-*) ;;
    pops,* | pops-many,* | pops-explain,* | pops-judge,* | pops-export,* | pops-sheet,*)
      mapfile -t COMPREPLY < <(compgen -f -X '!*.pop' -- "$word"; compgen -d -- "$word")
      ;;
  esac
}
complete -o filenames -o bashdefault -o default -F _pops \
  pops pops-part pops-tries fen2pop pops-import pops-export pops-many pops-page pops-sheet pops-diagram pops2json pops-test \
  pops-judge pops-compare pops-explain pops-find popeye-py
