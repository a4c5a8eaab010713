# What `./check` and tools/{build,ship,library,page} share. Read by them, with the tree in `top`.
#
# Beside each thing that is built lies a text, NAME.from, of words and what they say: `sources`, the digest of its sources, `kit`, and
# the digests of the files themselves, for the program `program`.
# shellcheck disable=SC2154 # `top` is set where this is read.
built=$top/crates/lwkt/out/lwkt
# shellcheck disable=SC2034 # They are used where this is read.
shipped=$top/dist/x86_64-linux/lwkt kit=$(rt version 2>/dev/null) no_rt="rt, the command of the Rattle kit, isn't on the PATH"

# The crates named and all that they stand on, sorted, into `crates`; of each crate what its line in crates.txt names into `below`.
list_crates() {
    local line name at
    declare -gA below=()
    crates=("$@")
    while read -r line; do
        line=${line%%#*}
        name=${line%%:*}
        [[ $line != *:* ]] || below[${name%% *}]=${line#*:}
    done <"$top/crates.txt"
    for ((at = 0; at < ${#crates[@]}; at++)); do
        for name in ${below[${crates[at]}]}; do
            [[ ! -v below[$name] || " ${crates[*]} " = *" $name "* ]] || crates+=("$name")
        done
    done
    mapfile -t crates < <(printf '%s\n' "${crates[@]}" | LC_ALL=C sort)
}

# The lines of these crates in crates.txt.
crate_lines() {
    grep -E "^($(IFS='|' && echo "${crates[*]}"))[ :]" "$top/crates.txt" | LC_ALL=C sort
}

# The digest of the sources of the crates named and of all that they stand on.
sources_digest() {
    list_crates "$@"
    {
        crate_lines
        cd "$top" && find "${crates[@]/#/crates/}" -type f -regex 'crates/[^/]*/\(src\|specs\|proofs\)/.*' -print0 | LC_ALL=C sort -z |
            xargs -0 sha256sum
    } | digest
}

# The digest of what it reads.
digest() {
    sha256sum | cut -d ' ' -f 1
}

# What the text $2 says by the word $1.
said() {
    sed -n "s/^$1 //p" "$2" 2>/dev/null
}

# Whether the program $1 is of the sources with the digest $2, by the kit that is there, if one is, and is what its text speaks of.
is_of() {
    [[ $(said sources "$1.from") = "$2" && (-z $kit || $(said kit "$1.from") = "$kit") ]] && is_whole "$1"
}

is_whole() {
    [[ -f $1 && $(said program "$1.from") = "$(digest <"$1")" ]]
}

# Takes the file $1 as the program that was built here of the sources with the digest $2, with its text.
take_built() {
    mkdir -p "${built%/*}" && cp "$1" "$built.new" && chmod 755 "$built.new" && mv "$built.new" "$built" &&
        printf '%s\n' "sources $2" "kit $kit" "program $(digest <"$built")" >"$built.from"
}
