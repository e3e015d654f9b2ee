# Completes the words of rqcast in bash, which are those of `rqcast --help`.

_rqcast() {
    local word=${COMP_WORDS[COMP_CWORD]} before=${COMP_WORDS[COMP_CWORD - 1]}
    local words="-k --key -q --quiet --progress --json -h --help -V --version"
    COMPREPLY=()
    if [ "$COMP_CWORD" -eq 1 ]; then
        mapfile -t COMPREPLY < <(compgen -W "send receive info protect check repair split join -h --help -V --version" -- "$word")
        return
    fi
    case $before in
        -r | --repair) mapfile -t COMPREPLY < <(compgen -W "all" -- "$word") && return ;;
        --rounds) mapfile -t COMPREPLY < <(compgen -W "endless" -- "$word") && return ;;
        --part | -c | --cell | -l | --loss | --rate | --share | --from | --name | --not | --timeout | --window | --need | --of) return ;;
    esac
    case ${COMP_WORDS[1]} in
        send) words+=" --part -c --cell -l --loss -r --repair --rate --share --from --rounds" ;;
        receive) words+=" -o --output --follow --timeout --state --name --not --window" ;;
        protect) words+=" --part -r --repair -o --output" ;;
        repair | join) words+=" -o --output" ;;
        split) words+=" --need --of --part -c --cell" ;;
    esac
    if [[ $word == -* ]]; then
        mapfile -t COMPREPLY < <(compgen -W "$words" -- "$word")
    else
        mapfile -t COMPREPLY < <(compgen -f -- "$word")
    fi
}
complete -o filenames -F _rqcast rqcast
