#!/bin/sh
# Installs what is unpacked beside this file below a folder, or takes that away again; `./install.sh --help` says how. It needs coreutils alone.
set -eu
umask 022
unset CDPATH
LC_ALL=C
export LC_ALL

usage() {
    cat <<'END'
usage: ./install.sh PREFIX              installs mt below the folder PREFIX, as /usr/local
       ./install.sh --uninstall PREFIX  takes away what was installed there
       ./install.sh --help

PREFIX is an absolute path, and the folder above it is there. Below it come bin/mt, bin/mt-prompt, bin/mt-rehearse, bin/mt-picture, bin/mt-controller,
lib/libmt.a, lib/libmt.so, include/mt.h, lib/mt/mt.py, the man page, completions for bash, and share/mt with the rest: the documents, the examples, the
page in which mt runs. What was installed there before is replaced. Any other file is not: then nothing is installed.

With DESTDIR in the environment, an absolute path, all goes below DESTDIR/PREFIX, which is made, for who makes a package of it.
PREFIX/share/mt/installed lists each file, and each folder that had to be made; --uninstall takes away these. PREFIX/share/mt/install.sh can do
that too. A program that is linked with libmt.so finds it in /usr/local/lib once ldconfig was run. mt-prompt, mt-rehearse, mt-picture and
mt-controller need Python 3.9 or newer.
END
}

stop() {
    printf 'install.sh: %s\n' "$1" >&2
    exit 1
}

misused() {
    printf 'install.sh: %s\n' "$1" >&2
    usage >&2
    exit 2
}

# Where a file of the archive is put, from PREFIX on.
place_of() {
    case $1 in
    lib/mt.py) echo lib/mt/mt.py ;;
    bin/* | lib/* | include/*) echo "$1" ;;
    man/mt.1) echo share/man/man1/mt.1 ;;
    completions/mt.bash) echo share/bash-completion/completions/mt ;;
    *) echo "share/mt/$1" ;;
    esac
}

# Links, each with what it leads to.
links() {
    cat <<'END'
bin/mt-prompt ../share/mt/tools/prompt
bin/mt-rehearse ../share/mt/tools/rehearse
bin/mt-picture ../share/mt/tools/picture
bin/mt-controller ../share/mt/tools/controller
lib/mt/libmt.so ../libmt.so
share/mt/mt ../../bin/mt
share/mt/lib/mt.py ../../../lib/mt/mt.py
share/bash-completion/completions/mt-prompt mt
share/bash-completion/completions/mt-rehearse mt
share/bash-completion/completions/mt-picture mt
share/bash-completion/completions/mt-controller mt
END
}

# The files of the archive.
files() {
    while read -r _ name; do
        printf '%s\n' "$name"
    done < SHA256SUMS
}

# All that is put below PREFIX, the list of it among them.
places() {
    echo share/mt/installed
    files | while read -r name; do place_of "$name"; done
    links | while read -r name _; do printf '%s\n' "$name"; done
}

# The folders above the places that are read, from PREFIX on, each with a slash behind it; PREFIX itself is ./
folders() {
    echo ./
    while read -r rest; do
        above=
        while [ "$rest" != "${rest#*/}" ]; do
            above=$above${rest%%/*}/
            rest=${rest#*/}
            printf '%s\n' "$above"
        done
    done
}

# Splits the list of an earlier install, if there is one, into files and folders. One that was ended before its list was in place left it as `installing`.
read_list() {
    : > "$room/old"
    : > "$room/old_folders"
    [ -f "$list" ] || list=$root/share/mt/installing
    [ -f "$list" ] || return 0
    while read -r line; do
        case /$line in
        *//* | */../* | */..) stop "$list has the line $line, which no install wrote" ;;
        */) printf '%s\n' "$line" >> "$room/old_folders" ;;
        *) printf '%s\n' "$line" >> "$room/old" ;;
        esac
    done < "$list"
}

is_there() {
    [ -e "$1" ] || [ -L "$1" ]
}

# Stops if a file is in the way that no earlier install put there, or something can't be written.
look_first() {
    ! is_there "$root" || [ -d "$root" ] || stop "$root is no folder; nothing is installed"
    while read -r name; do
        ! is_there "$root/$name" || stop "$root/$name is there, and was not installed by this; nothing is installed"
    done < "$room/added"
    while read -r name; do
        [ ! -d "$root/$name" ] || stop "$root/$name is a folder; nothing is installed"
    done < "$room/new"
    while read -r name; do
        is_there "$root/${name%/}" || continue
        [ -d "$root/$name" ] || stop "$root/${name%/} is no folder; nothing is installed"
        [ -w "$root/$name" ] || stop "$root/$name can't be written; nothing is installed"
    done < "$room/folders"
}

# Writes the list, of what stands in these files.
write_list() {
    sort -u "$@" > "$room/list"
    mkdir -p "$root/share/mt"
    cp "$room/list" "$root/share/mt/installing"
    mv -f "$root/share/mt/installing" "$root/share/mt/installed"
}

# Puts each file in its place at once: whoever runs it meanwhile has the old one or the new one.
put_files() {
    files | while read -r name; do
        place=$root/$(place_of "$name")
        mode=644
        [ ! -x "$name" ] || mode=755
        mkdir -p "${place%/*}"
        cp "$name" "$root/share/mt/installing"
        chmod "$mode" "$root/share/mt/installing"
        mv -f "$root/share/mt/installing" "$place"
    done
    links | while read -r name to; do
        mkdir -p "$root/${name%/*}"
        rm -f "$root/$name"
        ln -s "$to" "$root/$name"
    done
}

install_all() {
    cd "$here"
    [ -f SHA256SUMS ] || stop "there is no SHA256SUMS in $here, which isn't an unpacked archive"
    sha256sum --check --strict --quiet SHA256SUMS >&2 || stop "$here isn't the archive as it was made; nothing is installed"
    places | sort > "$room/new"
    folders < "$room/new" | sort -u > "$room/folders"
    comm -23 "$room/new" "$room/old" > "$room/added"
    comm -13 "$room/new" "$room/old" > "$room/gone"
    look_first
    cp "$room/old_folders" "$room/made"
    while read -r name; do
        [ -d "$root/$name" ] || printf '%s\n' "$name" >> "$room/made"
    done < "$room/folders"
    # listed before anything is there, so that what is left of an install that is ended early can be taken away
    write_list "$room/new" "$room/old" "$room/made"
    put_files
    remove "$room/gone"
    write_list "$room/new" "$room/made"
    printf 'mt is installed below %s\n' "${root:-/}"
}

# Takes away the files that a file lists.
remove() {
    while read -r name; do
        rm -f "$root/$name"
    done < "$1"
}

uninstall_all() {
    [ -f "$list" ] || stop "there is no $root/share/mt/installed, which an install leaves"
    sort -r "$room/old_folders" > "$room/lowest_first"
    comm -23 "$room/old" "$room/own" > "$room/gone"
    remove "$room/gone"
    rm -f "$root/share/mt/installing" "$root/share/mt/installed"
    # what Python keeps of the module, where it may write
    rm -f "$root"/lib/mt/__pycache__/mt.*.pyc
    [ ! -d "$root/lib/mt/__pycache__" ] || rmdir --ignore-fail-on-non-empty "$root/lib/mt/__pycache__"
    while read -r name; do
        # (./ has to be named otherwise, as rmdir takes no dot at the end)
        [ ! -d "$root/$name" ] || rmdir --ignore-fail-on-non-empty "$root/${name#./}"
    done < "$room/lowest_first"
    printf 'mt is taken away from %s\n' "${root:-/}"
}

what=install
case ${1-} in
--help | -h)
    usage
    exit
    ;;
--uninstall)
    what=uninstall
    shift
    ;;
-*) misused "$1 is no option" ;;
esac
[ $# = 1 ] || misused "one PREFIX is named"
case $1 in
/*) ;;
*) misused "PREFIX is an absolute path, not '$1'" ;;
esac
case ${DESTDIR-/} in
/* | '') ;;
*) misused "DESTDIR is an absolute path, not '$DESTDIR'" ;;
esac
here=$(cd "$(dirname -- "$0")" && pwd)
root=${DESTDIR-}$1
while [ "$root" != "${root%/}" ]; do root=${root%/}; done
list=$root/share/mt/installed
above=${root%/*}
[ -n "${DESTDIR-}" ] || [ -d "${above:-/}" ] || stop "there is no folder ${above:-/}; nothing is installed"
room=$(mktemp -d)
trap 'rm -rf "$room"' EXIT
trap 'exit 130' INT
trap 'exit 143' TERM HUP
echo share/mt/installed > "$room/own"
read_list
"${what}_all"
