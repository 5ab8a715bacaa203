# Completions of xdpvm_filter for bash, made by checks/manual.py.
_xdpvm_filter() {
    local word=${COMP_WORDS[COMP_CWORD]} command=${COMP_WORDS[1]}
    COMPREPLY=()
    if ((COMP_CWORD == 1)); then
        mapfile -t COMPREPLY < <(compgen -W "convert show --maps --maps-out --table --checked --limit --report --help --version" -f -- "$word")
        return
    fi
    if [[ $word == -* ]]; then
        case $command in
        convert) mapfile -t COMPREPLY < <(compgen -W "--to --interface --queue --reasons --help" -- "$word") ;;
        show) mapfile -t COMPREPLY < <(compgen -W "--help" -- "$word") ;;
        *) mapfile -t COMPREPLY < <(compgen -W "--maps --maps-out --table --checked --limit --report --help" -- "$word") ;;
        esac
        return
    fi
    mapfile -t COMPREPLY < <(compgen -f -- "$word")
}
complete -o filenames -F _xdpvm_filter xdpvm_filter
