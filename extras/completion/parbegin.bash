# Completion of parbegin for bash. To use it: source this file, or let install.sh put it in its place.
_parbegin() {
    local word=${COMP_WORDS[COMP_CWORD]} before=${COMP_WORDS[COMP_CWORD - 1]} at=1 options
    while ((at < COMP_CWORD)) && [[ ${COMP_WORDS[at]} == --unproved || ${COMP_WORDS[at]} == --quiet ||
        ${COMP_WORDS[at]} == --json ]]; do
        at=$((at + 1))
    done
    if ((COMP_CWORD <= at)); then
        local commands="bank check claims class dap debug draw emit exec explain findings grade hold lsp migrate outcomes page plan record replay run sample serve states help --help --version"
        if [[ ${COMP_WORDS[at - 1]} != --quiet && ${COMP_WORDS[at - 1]} != --json ]]; then
            commands+=" --quiet"
        fi
        if [[ ${COMP_WORDS[at - 1]} != --json ]]; then
            commands+=" --json"
        fi
        if ((at == 1)); then
            commands+=" --unproved"
        fi
        mapfile -t COMPREPLY < <(compgen -W "$commands" -- "$word")
        return
    fi
    # the value of an option is one of some words, or a number
    case $before in
    --object)
        mapfile -t COMPREPLY < <(compgen -W "1 2" -- "$word")
        return
        ;;
    --lend)
        mapfile -t COMPREPLY < <(compgen -W "banker cash" -- "$word")
        return
        ;;
    --format)
        mapfile -t COMPREPLY < <(compgen -W "text gcc json sarif" -- "$word")
        return
        ;;
    --html | --exercises | --keep | --teacher | --cert | --key)
        compopt -o filenames 2>/dev/null
        mapfile -t COMPREPLY < <(compgen -f -- "$word")
        return
        ;;
    --capital | --listen | --title | --host | --seconds | --memory | --searches | --rate | --jobs | --heap | --workers | --quantum | --steps | --seed | --states | --rows | --runs | --from | --width | --scale)
        return
        ;;
    esac
    case ${COMP_WORDS[at]} in
    bank) options="--connect --lease" ;;
    dap | lsp) options="" ;;
    check) options="--heap --warn --format --jobs" ;;
    claims) options="" ;;
    findings) options="--heap --warn" ;;
    class) options="--listen --exercises --try --title --names --keep --teacher --cert --key --host --proxied --states --seconds --memory --searches --jobs --rate" ;;
    debug) options="--live --lend" ;;
    draw) options="--lend --width --scale" ;;
    emit) options="--object" ;;
    exec) options="--workers --quantum --steps" ;;
    explain)
        # its word is a code, and never a file
        local codes="L1 L2 L3 L4 P1 P2 P3 N1 N2 N3 N4 N6 C1 E1 O1 O2 V1 V2 V3 V4 V5 V6 V7 V8 V9 K1 K2 H1"
        codes+=" G1 G2 G3 G4 B1 B2 B3 B4 B5 B6 B7 B8 B9 B10 B11 B12 B13 B14 W1 W2 W3 input output"
        mapfile -t COMPREPLY < <(compgen -W "$codes --help" -- "$word")
        return
        ;;
    grade) options="--any-order --fair --lend --states --jobs --csv --html" ;;
    hold) options="--socket --claim --name --nowait --timeout --conflict-exit-code --lease --verbose" ;;
    migrate) options="" ;;
    outcomes) options="--states --lend --first-deadlock --prints --fair --expect --any-order --endless --graph --run --deadlock" ;;
    page) options="--seed --lend --from --rows --states" ;;
    plan) options="--lend --capital --format --table --csv --jobs" ;;
    record) options="--workers --quantum --steps --seed --lend" ;;
    replay) options="--lend" ;;
    run) options="--workers --quantum --steps --seed --lend" ;;
    sample) options="--runs --seed --lend --steps --events --jobs" ;;
    serve) options="--journal --socket --mode --capital --tcp --cert --key --tokens --operators --http --clients --sessions --snapshot-every --etcd --advertise --name --prefix --lead-for --etcd-ca --etcd-cert --etcd-key --etcd-user --etcd-password --backup --restore --replay" ;;
    states) options="--rows --from --lend" ;;
    help)
        # its word is a command
        local named="bank check claims class dap debug draw emit exec explain findings grade hold lsp migrate outcomes page plan record replay run sample serve states"
        mapfile -t COMPREPLY < <(compgen -W "$named" -- "$word")
        return
        ;;
    *) return ;;
    esac
    if [[ $word == -* ]]; then
        mapfile -t COMPREPLY < <(compgen -W "$options --help" -- "$word")
    else
        compopt -o filenames 2>/dev/null
        mapfile -t COMPREPLY < <(compgen -f -- "$word")
    fi
}
complete -F _parbegin parbegin ./parbegin
