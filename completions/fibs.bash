# Completion of fibs and fibs-play for bash.

# _fibs_place N: what belongs at place N of HOST PORT NAME.
_fibs_place() {
    case $1 in
        1) COMPREPLY=($(compgen -W 'fibs.com localhost' -A hostname -- "$word")) ;;
        2) COMPREPLY=($(compgen -W '4321' -- "$word")) ;;
    esac
}

_fibs_connect() {
    local at place=0
    for ((at = 2; at <= COMP_CWORD; at++)); do
        case ${COMP_WORDS[at - 1]} in
            --password-file | --log) ;;
            *)
                case ${COMP_WORDS[at]} in
                    -?*) ;;
                    *) place=$((place + 1)) ;;
                esac
                ;;
        esac
    done
    case $last,$word in
        --password-file,* | --log,*) COMPREPLY=($(compgen -f -- "$word")) ;;
        *,-*) COMPREPLY=($(compgen -W '--password-file --log --json -h --help' -- "$word")) ;;
        *) _fibs_place "$place" ;;
    esac
}

_fibs() {
    local word=${COMP_WORDS[COMP_CWORD]} last=${COMP_WORDS[COMP_CWORD - 1]}
    local subcommands='show plays replay connect loop help'
    COMPREPLY=()
    case ${COMP_WORDS[1]},$COMP_CWORD,$word in
        *,1,-*) COMPREPLY=($(compgen -W '-h --help -V --version' -- "$word")) ;;
        *,1,*) COMPREPLY=($(compgen -W "$subcommands" -- "$word")) ;;
        connect,*) _fibs_connect ;;
        show,*,-*) COMPREPLY=($(compgen -W '--json --events -h --help' -- "$word")) ;;
        show,*) COMPREPLY=($(compgen -f -- "$word")) ;;
        plays,*,-* | replay,*,-*) COMPREPLY=($(compgen -W '--json -h --help' -- "$word")) ;;
        help,2,*) COMPREPLY=($(compgen -W "$subcommands" -- "$word")) ;;
        *,*,-*) COMPREPLY=($(compgen -W '-h --help' -- "$word")) ;;
    esac
}

_fibs_play() {
    local word=${COMP_WORDS[COMP_CWORD]} last=${COMP_WORDS[COMP_CWORD - 1]} place=$COMP_CWORD
    COMPREPLY=()
    [[ ${COMP_WORDS[1]} != --log ]] || place=$((place - 2))
    case $last,$word in
        --log,*) COMPREPLY=($(compgen -f -- "$word")) ;;
        *,-*) COMPREPLY=($(compgen -W '--log -h --help' -- "$word")) ;;
        *) _fibs_place "$place" ;;
    esac
}

complete -F _fibs fibs
complete -F _fibs_play fibs-play
