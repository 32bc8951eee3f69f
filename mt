#!/bin/bash
# Runs the program `mt` with the words given. It is the one that a proof run built, if no source is newer; if there is none, one that is built
# without running the proofs, which is done first if it is due. `./mt --build-proved WORD ..` has it proved and built first, if that is due; with
# no word behind it, that is all. Standard input and output are the program's own; what this script says goes to standard error.
shopt -s execfail # a proof run may take the program away before it is started here
top=$(cd "$(dirname "$0")" && pwd) || exit 1
proved=$top/crates/mt_program/out/mt_program
unproved=$top/out/mt_unproved

# is_new PROGRAM PATH ..: whether it is there, and no source is newer, those paths among them
is_new() {
    [ -x "$1" ] && [ -z "$(find "$top"/crates/*/{src,specs,proofs} "$top/crates.txt" "${@:2}" -newer "$1" -print -quit)" ]
}

# build WORD PROGRAM PATH ..: has tools/build make it, unless another ./mt makes it meanwhile
build() {
    mkdir -p "$top/out" && exec 9> "$top/out/$1.lock" || exit 1
    if ! flock --nonblock 9; then
        echo "mt: waiting for another ./mt, which builds the program" >&2
        flock 9
    fi
    is_new "${@:2}" || "$top/tools/build" "$1" < /dev/null >&2 || exit
    exec 9>&-
}

if [ "$1" = --build-proved ]; then
    shift
    is_new "$proved" || build proved "$proved"
    [ $# -gt 0 ] || exit 0
fi
is_new "$proved" && exec -a mt "$proved" "$@"
is_new "$unproved" "$top/tools/unproved.py" || build unproved "$unproved" "$top/tools/unproved.py"
exec -a mt "$unproved" "$@"
