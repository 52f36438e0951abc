# Completions of fffuu-view for bash.
_fffuu_view() {
    local word=${COMP_WORDS[COMP_CWORD]} before=${COMP_WORDS[COMP_CWORD - 1]}
    case $before in
        --chain | --claim-chain) COMPREPLY=($(compgen -W "INPUT FORWARD OUTPUT" -- "$word")); return ;;
        --family) COMPREPLY=($(compgen -W "4 6" -- "$word")); return ;;
        --side) COMPREPLY=($(compgen -W "upper lower" -- "$word")); return ;;
        --services) COMPREPLY=($(compgen -W "ssh smtp dns http https smb mysql rdp" -- "$word")); return ;;
        --format)
            case ${COMP_WORDS[1]} in
                fleet) COMPREPLY=($(compgen -W "text csv json" -- "$word")) ;;
                *) COMPREPLY=($(compgen -W "svg png dot" -- "$word")) ;;
            esac
            return ;;
    esac
    if [ "$COMP_CWORD" -eq 1 ]; then
        COMPREPLY=($(compgen -W "why json graph report fleet --help --version" -- "$word"))
        return
    fi
    local words="--program --family --help"
    case ${COMP_WORDS[1]} in
        why) words="$words --chain in= out= src= dst= proto= sport= dport= flags= state= icmp=" ;;
        json) words="$words --chain --side"; [ "$COMP_CWORD" -eq 2 ] && words="check upper lower matrix spoof explain" ;;
        graph) words="$words --chain --side --format --names --output" ;;
        report) words="$words --services --names --claim --claim-chain --output" ;;
        fleet) words="$words --services --names --pages --format --jobs" ;;
    esac
    COMPREPLY=($(compgen -W "$words" -- "$word") $(compgen -f -- "$word"))
    [[ ${COMPREPLY[0]-} == *= ]] && compopt -o nospace
}
complete -o filenames -F _fffuu_view fffuu-view
