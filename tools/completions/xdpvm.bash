# Completions of xdpvm for bash, made by checks/manual.py.
_xdpvm() {
    local word=${COMP_WORDS[COMP_CWORD]} command=${COMP_WORDS[1]}
    COMPREPLY=()
    if ((COMP_CWORD == 1)); then
        mapfile -t COMPREPLY < <(compgen -W "asm dis verify run trace prove recheck explain --help --version" -- "$word")
        return
    fi
    if [[ $word == -* ]]; then
        case $command in
        asm) mapfile -t COMPREPLY < <(compgen -W "--help" -- "$word") ;;
        dis) mapfile -t COMPREPLY < <(compgen -W "--help" -- "$word") ;;
        verify) mapfile -t COMPREPLY < <(compgen -W "--help" -- "$word") ;;
        run) mapfile -t COMPREPLY < <(compgen -W "--table --help" -- "$word") ;;
        trace) mapfile -t COMPREPLY < <(compgen -W "--limit --help" -- "$word") ;;
        prove) mapfile -t COMPREPLY < <(compgen -W "--help" -- "$word") ;;
        recheck) mapfile -t COMPREPLY < <(compgen -W "--help" -- "$word") ;;
        explain) mapfile -t COMPREPLY < <(compgen -W "--help" -- "$word") ;;
        esac
        return
    fi
    mapfile -t COMPREPLY < <(compgen -f -- "$word")
}
complete -o filenames -F _xdpvm xdpvm
