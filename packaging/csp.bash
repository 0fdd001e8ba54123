# Completes the commands of csp, and file names where a command takes files.
_csp() {
    case $COMP_CWORD:${COMP_WORDS[1]} in
        1:*) mapfile -t COMPREPLY < <(compgen -W '@COMMANDS@' -- "${COMP_WORDS[1]}") ;;
        2:* | 3:embed) COMPREPLY=() ;; # a number, or an origin
        *) mapfile -t COMPREPLY < <(compgen -f -- "${COMP_WORDS[COMP_CWORD]}") ;;
    esac
}
complete -o filenames -F _csp csp
