# What stands in front of the program: its help, and what to look at where it refuses words or files. ./csp reads this
# file, and packaging/build puts it into the command that it installs. Standard output and the status are the
# program's; all that is said here goes to standard error.

say() { printf 'csp: %s\n' "$*" >&2; }

help() {
    cat <<'TEXT'
csp tells what a Content Security Policy does. Each answer is proved.

  csp judge ORIGIN POLICY REQUESTS          which requests the policies block, and by which directive
  csp why ORIGIN POLICY REQUESTS            the same, and which token decided or nearly did
  csp report ORIGIN POLICY REQUESTS         what a browser would report of them
  csp compare ORIGIN NEW OLD                whether NEW blocks all that OLD blocks: a proof, or a request
  csp differ ORIGIN NEW OLD                 each directive under which NEW allows more, with a request
  csp check ORIGIN NEW OLD PROOF            whether a proof of that is right
  csp embed EMBEDDER ORIGIN REQUIRED RESPONSE
                                            whether an embedder that requires a policy may show a response
  csp read ORIGIN POLICY                    how the policies were read, and what was dropped of them
  csp tidy ORIGIN POLICY                    the same policies without what changes nothing, and why the rest stays
  csp learn ORIGIN REQUESTS                 a first policy, which allows what the requests load
  csp order ORIGIN LISTS                    which of 2 to 16 headers are at least as strict as which
  csp drill N                               a self-test, which compares two lists of N sources

ORIGIN is the page's, as https://shop.example. POLICY, NEW, OLD and LISTS are files of header lines, REQUESTS is a
file of JSON. The exit code is 0 where nothing is blocked, NEW is at least as strict, the proof is right, or the
response may be shown, and 1 where not. Above 1 the answer is a fault, which standard output names.
TEXT
}

# The words behind a command, as the help has them.
words_of() {
    [[ ${1-} =~ ^[a-z]+$ ]] && help | sed -n "s/^  csp $1 \([A-Z ]*[A-Z]\).*/\1/p"
}

# Says how a command is called, or where to find all of them.
tell_usage() {
    local words
    words=$(words_of "$1")
    if [ "$words" ]; then say "usage: csp $1 $words"; else say 'usage: csp COMMAND ..; csp --help lists the commands'; fi
}

# Says which file each role is that standard output may name, and which of them can't be read.
tell_files() {
    local words role word at=0
    read -ra words <<<"$(words_of "${1-}")"
    for word in "${@:2}"; do
        role=${words[at]-LISTS}
        case $role in
            NEW) role=first ;;
            OLD) role=second ;;
            LISTS) role="list $at" ;;
        esac
        at=$((at + 1))
        case $role in
            ORIGIN | EMBEDDER | N) ;;
            *) say "${role,,}: $word$([ -r "$word" ] || echo ', which is not there or may not be read')" ;;
        esac
    done
}

# Says what to look at after a fault with this status.
tell_fault() {
    case ${1-} in
        3) say 'an origin is a scheme, a host and perhaps a port, as https://shop.example:8443, or the word null' ;;
        4) say "a policy file has header lines, as Content-Security-Policy: default-src 'self'" ;;
        5) say 'a file has more than csp takes: split it, or take out what repeats' ;;
        6) say 'a request file is a JSON array, as [{"kind":"fetch","destination":"image","url":"https://cdn.example/a.png"}];'
           say 'standard output has the number of the request and the member that is missing or can not stand' ;;
        7) say 'a proof file is what csp compare prints where it ends with 0; standard output has its first wrong line' ;;
        9) say 'standard output can not be written' ;;
        10) say 'there is not enough memory' ;;
        13) say 'the required file has exactly one policy, and it is enforced' ;;
        14) say 'a word is not UTF-8' ;;
    esac
}

# Runs the program. After a fault it says which file is meant, what to look at, and how the command is called.
answer() {
    "$program" "$@"
    local status=$?
    case $status in
        2 | 3) tell_fault "$status"; tell_usage "${1-}" ;;
        [4-8] | 13) tell_files "$@"; tell_fault "$status"; tell_usage "${1-}" ;;
        9 | 10 | 14) tell_fault "$status" ;;
    esac
    return "$status"
}
