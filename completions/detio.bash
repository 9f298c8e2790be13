# Completion of detio for bash, made by tools/man of the help texts.
_detio() {
  local word=${COMP_WORDS[COMP_CWORD]} before=${COMP_WORDS[COMP_CWORD - 1]} command="" options="" paths=""
  COMPREPLY=()
  # --NAME=VALUE comes as three words.
  if [[ $word == = ]]; then
    word=
  elif [[ $before == = ]]; then
    before=${COMP_WORDS[COMP_CWORD - 2]}
  fi
  ((COMP_CWORD < 2)) || command=${COMP_WORDS[1]}
  case $command in
    '') options='check plain explore faults minimise record replay run rerun compare draw show make upgrade help -h --help -V --version' ;;
    help) options='check plain explore faults minimise record replay run rerun compare draw show make upgrade help' ;;
    check) options='--json --expect --why -h --help' paths=yes ;;
    plain) options='--patience --door-cost --turns --calls --by-turn --lanes --json --expect --why -h --help' paths=yes ;;
    explore) options='--seeds --delays --most --only --reach --raw --json --failed --allow-stops --allow-blocked --jobs --write --force --patience --door-cost --log --why -h --help' paths=yes ;;
    faults) options='--log --errors --short --then --json --failed --allow-stops --allow-blocked --only --out --force --jobs --why -h --help' paths=yes ;;
    minimise) options='--write --force --schedule --same --patience --door-cost --log --why -h --help' paths=yes ;;
    record) options='--log --log-version --force --wait --in-turn --follow --patience --door-cost --turns --calls --by-turn --lanes --json --expect --why -h --help' paths=yes ;;
    replay) options='--log --threads --turns --calls --by-turn --lanes --json --expect --why -h --help' paths=yes ;;
    run) options='--log --force --threads --mem --pass --seed --fault --overlap --parallel --strict --wait-forever --env -h --help' paths=yes ;;
    rerun) options='--log --force --stop-at -h --help' paths=yes ;;
    compare) options='--log --with --rows --no-turns --json --why -h --help' paths=yes ;;
    draw) options='--out --trace --force --log --with --patience --door-cost --why -h --help' paths=yes ;;
    show) options='--log --json --why -h --help' ;;
    make) options='--out --force --why -h --help' paths=yes ;;
    upgrade) options='--log --out --force --why -h --help' paths=yes ;;
  esac
  case $command,$before in
    plain,--patience | plain,--door-cost) return ;;
    explore,--seeds | explore,--most | explore,--only | explore,--reach | explore,--jobs | explore,--patience | explore,--door-cost) return ;;
    explore,--delays) paths= ;;
    explore,--write) compopt -o dirnames; return ;;
    explore,--log) compopt -o default; return ;;
    faults,--log | faults,--out) compopt -o default; return ;;
    faults,--errors | faults,--only | faults,--jobs) return ;;
    faults,--then) mapfile -t COMPREPLY < <(compgen -W 'stop fail well' -- "$word"); return ;;
    minimise,--write) compopt -o dirnames; return ;;
    minimise,--patience | minimise,--door-cost) return ;;
    minimise,--log) compopt -o default; return ;;
    record,--log) compopt -o default; return ;;
    record,--log-version | record,--wait | record,--patience | record,--door-cost) return ;;
    replay,--log) compopt -o default; return ;;
    run,--log) compopt -o default; return ;;
    run,--threads | run,--seed | run,--fault | run,--env) return ;;
    run,--mem | run,--pass) compopt -o dirnames; return ;;
    rerun,--log) compopt -o default; return ;;
    rerun,--stop-at) return ;;
    compare,--log | compare,--with) compopt -o default; return ;;
    draw,--out | draw,--trace | draw,--log | draw,--with) compopt -o default; return ;;
    draw,--patience | draw,--door-cost) return ;;
    show,--log) compopt -o default; return ;;
    make,--out) compopt -o default; return ;;
    upgrade,--log | upgrade,--out) compopt -o default; return ;;
  esac
  if [[ $paths && $word != -* ]]; then
    compopt -o default
  else
    mapfile -t COMPREPLY < <(compgen -W "$options" -- "$word")
  fi
}
complete -F _detio detio
