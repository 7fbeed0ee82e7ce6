# Made by share/completions.py from the help of rr.
_rr() {
  local current=$2 before=$3 words takes=nothing
  if [ "$COMP_CWORD" = 1 ]; then
    COMPREPLY=($(compgen -W 'sim stats check random sweep draw run shell audit show verify export migrate replace help -h --help -V --version' -- "$current"))
    return
  fi
  case ${COMP_WORDS[1]} in
    sim) words='--explain --json --finish --schedule-only -h --help'; takes=files ;;
    stats) words='--json --tape -h --help'; takes=files ;;
    check) words='-h --help'; takes=files ;;
    random) words='--seed --steps --nodes --lively --faults --finish --schedule-only --json -h --help'; takes=nothing ;;
    sweep) words='--seed -h --help'; takes=files ;;
    draw) words='--from --to --node --instance --requests --tape --html -h --help'; takes=files ;;
    run) words='--nodes --dir --script --tape --tick --without --json -h --help'; takes=nothing ;;
    shell) words='--nodes --dir --client -c --command --tick --without --strict --json -h --help'; takes=nothing ;;
    audit) words='--explain --json -h --help'; takes=files ;;
    show) words='--json -h --help'; takes=folders ;;
    verify) words='--json -h --help'; takes=folders ;;
    export) words='--list --json -h --help'; takes=folders ;;
    migrate) words='--node --nodes -h --help'; takes=folders ;;
    replace) words='--node --without --tick --dry-run -h --help'; takes=folders ;;
    help) words=''; takes=commands ;;
  esac
  case ${COMP_WORDS[1]}:$before in
    draw:--from) takes=nothing; words= ;;
    draw:--instance) takes=nothing; words= ;;
    draw:--node) takes=nothing; words= ;;
    draw:--to) takes=nothing; words= ;;
    migrate:--node) takes=nothing; words= ;;
    migrate:--nodes) takes=nothing; words= ;;
    random:--faults) takes=nothing; words= ;;
    random:--nodes) takes=nothing; words= ;;
    random:--seed) takes=nothing; words= ;;
    random:--steps) takes=nothing; words= ;;
    replace:--node) takes=nothing; words= ;;
    replace:--tick) takes=nothing; words= ;;
    replace:--without) takes=nothing; words= ;;
    run:--dir) takes=folders; words= ;;
    run:--nodes) takes=nothing; words= ;;
    run:--script) takes=files; words= ;;
    run:--tape) takes=files; words= ;;
    run:--tick) takes=nothing; words= ;;
    run:--without) takes=nothing; words= ;;
    shell:--client) takes=nothing; words= ;;
    shell:--command) takes=nothing; words= ;;
    shell:--dir) takes=folders; words= ;;
    shell:--nodes) takes=nothing; words= ;;
    shell:--tick) takes=nothing; words= ;;
    shell:--without) takes=nothing; words= ;;
    shell:-c) takes=nothing; words= ;;
    sweep:--seed) takes=nothing; words= ;;
  esac
  [ $takes != commands ] || words='sim stats check random sweep draw run shell audit show verify export migrate replace help'
  COMPREPLY=($(compgen -W "$words" -- "$current"))
  case $current:$takes in
    -*) ;;
    *:files) compopt -o filenames; mapfile -t -O ${#COMPREPLY[@]} COMPREPLY < <(compgen -f -- "$current") ;;
    *:folders) compopt -o filenames; mapfile -t -O ${#COMPREPLY[@]} COMPREPLY < <(compgen -d -- "$current") ;;
  esac
}
complete -F _rr rr rr-unproved
