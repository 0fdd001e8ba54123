# What each file of dist/ is built of. ./csp, page/build and packaging/ship read this file; $top is the repository.

# Prints a crate and the crates that it stands on, by crates.txt.
crates() {
    awk -F: -v top="$1" '
        function visit(name, below, at) {
            if (seen[name]++ || !(name in stands_on)) return
            print name
            for (at = split(stands_on[name], below, " "); at; at--) visit(below[at])
        }
        { sub(/#.*/, ""); split($1, head, " "); stands_on[head[1]] = $2 }
        END { visit(top) }' "$top/crates.txt"
}

# Prints the lines of crates.txt of these crates.
lines_of() {
    awk -F '[: ]' 'NR == FNR { wanted[$1]; next } $1 in wanted' <(printf '%s\n' "$@") "$top/crates.txt"
}

# Prints a checksum of the names and contents of all that is built to one file of dist/: csp, engine.wasm or
# guidecerise.html.
sources_of() (
    cd "$top" && [ -r crates.txt ] || exit 1
    case $1 in
        csp) root=csp_app more=() ;;
        engine.wasm) root=csp_page more=(page/build page/retarget.py page/to32.py page/undone.py page/heap.c page/helpers32.c) ;;
        guidecerise.html) root=csp_page more=(VERSION page js/*.js js/readers js/propose) ;;
    esac
    mapfile -t names < <(crates "$root")
    files=$(find HANDLES "${more[@]}" "${names[@]/#/crates/}" \( -name out -o -name must-fail \) -prune -o -type f -print0 |
        LC_ALL=C sort -z | xargs -0 sha256sum) || exit 1
    { lines_of "${names[@]}"; printf '%s\n' "$files"; } | sha256sum | cut -c 1-64
)

# Whether dist/ has this file as it was built, and of the sources as they are now; the second word is their checksum.
is_shipped() {
    local checksum of_sources
    read -r _ checksum of_sources < <(grep "^$1 " "$top/dist/built-of" 2>/dev/null) && [ "$of_sources" = "$2" ] &&
        sha256sum --status -c <<<"$checksum  $top/dist/$1"
}
