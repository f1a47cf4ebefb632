# Completes the commands, options and files of rvstm in bash: source completions/rvstm.bash
_rvstm() {
    local word=${COMP_WORDS[COMP_CWORD]} before=${COMP_WORDS[COMP_CWORD - 1]} command=${COMP_WORDS[1]}
    local options=""
    if [ "$COMP_CWORD" = 1 ]; then
        COMPREPLY=($(compgen -W "run seq conflicts drive asm dis debug migrate chain help --help --version" -- "$word"))
        return
    fi
    case $before in
    --workers) COMPREPLY=($(compgen -W "$(seq 32)" -- "$word")) && return ;;
    --call | --frame-limit | --frame-gas) return ;;
    esac
    case $command in
    run) options="--workers --counts" ;;
    drive) options="--workers --schedule --counts" ;;
    chain) options="--workers --frame-limit --frame-gas --digest --brief --store" ;;
    asm | migrate) options="--out" ;;
    debug) options="--call --more" ;;
    help) COMPREPLY=($(compgen -W "run seq conflicts drive asm dis debug migrate chain" -- "$word")) && return ;;
    esac
    if [[ $word == -* ]]; then
        COMPREPLY=($(compgen -W "$options --help" -- "$word"))
    else
        mapfile -t COMPREPLY < <(compgen -f -- "$word")
        compopt -o filenames 2>/dev/null
    fi
}
complete -F _rvstm rvstm
