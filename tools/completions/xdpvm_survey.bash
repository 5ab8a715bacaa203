# Completions of xdpvm_survey for bash, made by checks/manual.py.
_xdpvm_survey() {
    local word=${COMP_WORDS[COMP_CWORD]} command=${COMP_WORDS[1]}
    COMPREPLY=()
    if ((COMP_CWORD == 1)); then
        mapfile -t COMPREPLY < <(compgen -W "log dis hits steps --format --sort --only --compare --tables --most --no-header --help --version" -f -- "$word")
        return
    fi
    if [[ $word == -* ]]; then
        case $command in
        log) mapfile -t COMPREPLY < <(compgen -W "--slot --states --html --help" -- "$word") ;;
        dis) mapfile -t COMPREPLY < <(compgen -W "--dot --help" -- "$word") ;;
        hits) mapfile -t COMPREPLY < <(compgen -W "--maps --limit --format --help" -- "$word") ;;
        steps) mapfile -t COMPREPLY < <(compgen -W "--maps --limit --frame --json --help" -- "$word") ;;
        *) mapfile -t COMPREPLY < <(compgen -W "--format --sort --only --compare --tables --most --no-header --help" -- "$word") ;;
        esac
        return
    fi
    mapfile -t COMPREPLY < <(compgen -f -- "$word")
}
complete -o filenames -F _xdpvm_survey xdpvm_survey
