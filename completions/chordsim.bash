# Completion of chordsim's arguments for bash: source this file, or copy it to /etc/bash_completion.d.

_chordsim() {
    local command=${COMP_WORDS[1]} current=${COMP_WORDS[COMP_CWORD]} previous=${COMP_WORDS[COMP_CWORD - 1]}
    local options=
    COMPREPLY=()
    # Bash takes --split=rr for three words.
    if [ "$current" = "=" ]; then
        current=
    elif [ "$previous" = "=" ]; then
        previous=${COMP_WORDS[COMP_CWORD - 2]}
    fi
    if [ "$COMP_CWORD" -eq 1 ]; then
        mapfile -t COMPREPLY < <(compgen -W "check ids judge run help --help --version" -- "$current")
        return
    fi
    case $previous in
    --scenario | --latency | --trace | --digest)
        mapfile -t COMPREPLY < <(compgen -f -- "$current")
        return
        ;;
    --split)
        mapfile -t COMPREPLY < <(compgen -W "rr block" -- "$current")
        return
        ;;
    --engine)
        mapfile -t COMPREPLY < <(compgen -W "serial crew team" -- "$current")
        return
        ;;
    --workers | --parts | --edges) return ;;
    esac
    case $command in
    check | ids) options="--scenario --latency --help" ;;
    judge) options="--scenario --latency --trace --digest --edges --help" ;;
    run) options="--scenario --latency --workers --parts --split --engine --serial --trace --help" ;;
    help) [ "$COMP_CWORD" -eq 2 ] && options="check ids judge run help" ;;
    esac
    mapfile -t COMPREPLY < <(compgen -W "$options" -- "$current")
}

complete -o filenames -F _chordsim chordsim ./chordsim
