# What `run` and `check` share. Sourced; `here` is this folder.

# The compiler, as CC says, and its words.
read -ra compiler <<<"${CC:-cc}"
warnings=(-Wall -Wextra -Wpedantic -Wconversion -Werror)

# The header: in the tree, or as it is installed.
includes=${here:?}/../../include
[[ -f $includes/lwkt_record.h ]] || includes=$here/../../../../../include

has_compiler() {
    command -v "${compiler[0]}" >/dev/null
}

# Compiles the program $2.c to the file $1. The words behind are the compiler's.
compile() {
    local file=$1 source=$here/$2.c
    shift 2
    "${compiler[@]}" -std=c11 "${warnings[@]}" -g -pthread -I"$includes" "$@" -o "$file" "$source"
}
