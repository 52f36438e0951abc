# Completions of fffuu for bash.
_fffuu() {
    local word=${COMP_WORDS[COMP_CWORD]} before=${COMP_WORDS[COMP_CWORD - 1]}
    case $before in
        --chain) COMPREPLY=($(compgen -W "INPUT FORWARD OUTPUT" -- "$word")); return ;;
        --family) COMPREPLY=($(compgen -W "4 6" -- "$word")); return ;;
        --side) COMPREPLY=($(compgen -W "upper lower" -- "$word")); return ;;
    esac
    local words="--chain --family"
    if [ "$COMP_CWORD" -eq 1 ]; then
        words="check upper lower matrix spoof zones routes explain cover load"
    else
        case ${COMP_WORDS[1]} in
            matrix) words="$words --side via:"; [[ $word == via:* ]] && compopt -o nospace ;;
            routes) words="$words via:"; [[ $word == via:* ]] && compopt -o nospace ;;
            explain) words="$words in= out= src= dst= proto= sport= dport= flags= state= icmp="; compopt -o nospace ;;
            load) words="" ;;
        esac
    fi
    COMPREPLY=($(compgen -W "$words" -- "$word"))
}
complete -F _fffuu fffuu
