# Completion of segrx in bash: its commands, their options, and the values of these.

# The options of a command, in the order of its help. Without a command segrx joins.
_segrx_options() {
    case $1 in
        cut) echo --first --fill ;;
        replay) echo --losses --flows --shard ;;
        run) echo --losses --mailbox --ring ;;
        follow) echo --losses --channels --events --flows --shard ;;
        capture) echo --losses --wait --reorder --link --no-check --flows --shard --compare --report --json --requests --picture --progress ;;
    esac
    echo -h --help
}

# Whether the words behind `segrx capture`, up to the one that is completed, have the map's path.
_segrx_has_map() {
    local place
    for ((place = 2; place < COMP_CWORD; place++)); do
        case ${COMP_WORDS[place]} in
            --losses | --wait | --reorder | --link | --flows | --shard | --report | --json | --requests | --picture)
                [[ ${COMP_WORDS[place + 1]} == "=" ]] && ((place++))
                ((place++))
                ;;
            *[\<\>]*) ((place++)) ;;
            -*) ;;
            *) return 0 ;;
        esac
    done
    return 1
}

# The options of a command that don't stand before the word that is completed: each is given once.
_segrx_options_left() {
    local option
    for option in $(_segrx_options "$1"); do
        [[ " ${COMP_WORDS[*]:0:COMP_CWORD} " == *" $option "* ]] || echo "$option"
    done
}

# Completes a word of the line. An equals sign is a word of its own: --fill=ones is three.
_segrx() {
    local word=${COMP_WORDS[COMP_CWORD]} before=${COMP_WORDS[COMP_CWORD - 1]} words=""
    [[ $before == "=" ]] && before=${COMP_WORDS[COMP_CWORD - 2]}
    [[ $word == "=" ]] && word=""
    COMPREPLY=()
    case $before in
        --losses) words="decided passed slid" ;;
        --fill) words="zero ones" ;;
        --link) words="docsis xra" ;;
        --first | --mailbox | --ring | --channels | --wait | --reorder | --flows | --shard) return ;;
        --report | --json | --requests | --picture | *[\<\>]*)
            compopt -o default
            return
            ;;
        *)
            if ((COMP_CWORD == 1)); then
                words="join cut replay run follow map capture $(_segrx_options "")"
            elif [[ ${COMP_WORDS[1]} == capture && $word != -* ]] && ! _segrx_has_map; then
                compopt -o default
                return
            else
                words=$(_segrx_options_left "${COMP_WORDS[1]}")
            fi
            ;;
    esac
    mapfile -t COMPREPLY < <(compgen -W "$words" -- "$word")
}

complete -F _segrx segrx
