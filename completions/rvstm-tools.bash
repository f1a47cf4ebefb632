# Made by rvstm-developers tool-pages. Completes the commands, options and files of rvstm-tools in bash: source completions/rvstm-tools.bash
_rvstm_tools() {
    local word=${COMP_WORDS[COMP_CWORD]} options=""
    if [ "$COMP_CWORD" = 1 ]; then
        COMPREPLY=($(compgen -W "block conflicts coverage example explore gdb library new preview release result schedule session test trace verify --help" -- "$word"))
        return
    fi
    case ${COMP_WORDS[1]} in
    block) options="--help --out" ;;
    conflicts) options="--help --program --preview --list --block --svg" ;;
    coverage) options="--help --program --preview --lcov --sdk" ;;
    example) options="--help" ;;
    explore) options="--help --program --preview --seed --jobs --calls --seconds --length --strict --out --folder --replace" ;;
    gdb) options="--help --program --preview --call --list" ;;
    library) options="--help" ;;
    new) options="--help --rust" ;;
    preview) options="--help" ;;
    release) options="--help" ;;
    result) options="--help --list --json --schema --registers" ;;
    schedule) options="--help --program --preview --to-done --from" ;;
    session) options="--help --program --preview --get --list --state --dump --last --shapes --replay --write --store --frame-limit --frame-gas --workers --brief" ;;
    test) options="--help --program --preview --jobs --only --filter --variant --update --json --junit --gas --within --write" ;;
    trace) options="--help --program --preview --call --list --lines --svg" ;;
    verify) options="--help --sums --yes" ;;
    esac
    if [[ $word == -* ]]; then
        COMPREPLY=($(compgen -W "$options" -- "$word"))
    else
        mapfile -t COMPREPLY < <(compgen -f -- "$word")
        compopt -o filenames 2>/dev/null
    fi
}
complete -F _rvstm_tools rvstm-tools
