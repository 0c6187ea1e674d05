# Completions of upsched for bash; share/describe.py makes them.
_upsched() {
    local now=${COMP_WORDS[COMP_CWORD]} before=${COMP_WORDS[COMP_CWORD - 1]} options=""
    COMPREPLY=()
    if ((COMP_CWORD == 1)); then
        COMPREPLY=($(compgen -W "maps resume run check capture stats script draw show live scheduler node host audit -h --help -V --version" -- "$now"))
        return
    fi
    case $before in
        --members) COMPREPLY=($(compgen -W "3 5" -- "$now")) && return ;;
    esac
    case ${COMP_WORDS[1]} in
        maps) options="--names --json -h --help" ;;
        resume) options="--from --to -h --help" ;;
        run) options="--store --trace --names --verbose --json --plain -h --help" ;;
        check) options="--plan --script --store -h --help" ;;
        capture) options="-h --help" ;;
        stats) options="--json -h --help" ;;
        script) options="--seed --lose --repeat --crash --takeover --members --plan --modems -h --help" ;;
        draw) options="--plan --maps --text --from --to -h --help" ;;
        show) options="--names --json -h --help" ;;
        live) options="--turns --verbose -h --help" ;;
        scheduler) options="--json -h --help" ;;
        node) options="--members --store --new --journal --journal-sync -h --help" ;;
        host) options="--members --places --store --new --join --journal --journal-sync -h --help" ;;
        audit) options="--members --counts -h --help" ;;
    esac
    if [[ $now == -* ]]; then
        COMPREPLY=($(compgen -W "$options" -- "$now"))
    else
        COMPREPLY=($(compgen -f -- "$now"))
    fi
}
complete -o filenames -F _upsched upsched
