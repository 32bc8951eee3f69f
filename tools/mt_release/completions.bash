# Completions of bash for mt, and for the tools that are installed beside it. A keyspace is a script's own word: none is offered.

# Sets what is typed of the word, and the word before. Bash takes a = for a word of its own.
_mt_words() {
    cur=${COMP_WORDS[COMP_CWORD]}
    prev=${COMP_WORDS[COMP_CWORD - 1]}
    if [ "$cur" = = ]; then
        cur=
    elif [ "$prev" = = ]; then
        prev=${COMP_WORDS[COMP_CWORD - 2]}
    fi
}

# Offers these words, as far as they go on with what is typed.
_mt_offer() {
    mapfile -t COMPREPLY < <(compgen -W "$*" -- "$cur")
}

# Whether the word stands behind a redirection, and so is a file.
_mt_is_redirected() {
    local word
    for word in "$prev" "$cur"; do
        case $word in
        '<' | '>' | '>>' | '>|' | '&>' | '<>')
            compopt -o default
            return 0
            ;;
        esac
    done
    return 1
}

# Whether a word stands before the one that is completed.
_mt_has() {
    local word
    for word in "${COMP_WORDS[@]:1:COMP_CWORD-1}"; do
        [ "$word" != "$1" ] || return 0
    done
    return 1
}

# Offers those of these options that don't stand there yet.
_mt_options() {
    local option left=()
    for option; do
        _mt_has "$option" || left+=("$option")
    done
    _mt_offer "${left[@]}"
}

_mt() {
    local cur prev
    COMPREPLY=()
    _mt_words
    _mt_is_redirected && return
    if [ "$COMP_CWORD" = 1 ]; then
        _mt_offer run rules topology race help --help -h
        return
    fi
    case ${COMP_WORDS[1]}:$prev in
    race:--clients) _mt_offer 1 2 3 4 ;;
    race:--writes) ;;
    race:*) _mt_has -- || _mt_options --clients --writes --help -h ;;
    help:help) _mt_offer run rules topology race help ;;
    run:* | rules:* | topology:*) [[ $cur != -* ]] || _mt_has -- || _mt_options --help -h ;;
    esac
}

_mt_tool() {
    local cur prev
    COMPREPLY=()
    _mt_words
    _mt_is_redirected && return
    case $prev in
    --mt | --picture | --svg | --facts | --answers | --output | -o | --cacert | --cert | --key | --token)
        compopt -o default
        return
        ;;
    esac
    case ${COMP_WORDS[0]##*/}:$prev in
    mt-rehearse:--script)
        compopt -o default
        return
        ;;
    mt-controller:--log | mt-controller:--prefix | mt-controller:--serve) return ;;
    esac
    case ${COMP_WORDS[0]##*/}:$cur in
    mt-controller:-*) _mt_options --log --prefix --cacert --cert --key --batch --serve --token --script --help -h ;;
    mt-prompt:-*) _mt_options --mt --help -h ;;
    mt-rehearse:-*) _mt_options --rules --script --json --picture --mt --help -h ;;
    mt-picture:-*) _mt_options --output -o --svg --facts --answers --mt --help -h ;;
    mt-rehearse:*)
        compopt -o filenames
        mapfile -t COMPREPLY < <(compgen -d -- "$cur")
        ;;
    mt-picture:*) [ "$COMP_CWORD" != 1 ] || compopt -o default ;;
    esac
}

complete -F _mt mt
complete -F _mt_tool mt-prompt mt-rehearse mt-picture mt-controller
