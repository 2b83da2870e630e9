# shellcheck shell=bash
# What scripts/install.sh and scripts/uninstall.sh share: the prefix, and the record of what was installed. To be sourced.

# Under the prefix: a line `file PATH` for each file that install has put there, `folder PATH` for each folder that it made.
# shellcheck disable=SC2034
record=share/doc/lyra2/installed.txt

fault() { # WORDS
    echo "${0##*/}: $1" >&2
    exit 2
}

# Leaves $prefix, the absolute path of the only argument, and $top, where its files are: under DESTDIR, if that is set.
# A relative path counts from the current folder. Folders need not be there.
read_prefix() { # ARGUMENT..
    local usage="usage: scripts/${0##*/} PREFIX"
    case ${1-} in
    -h | --help)
        echo "$usage"
        exit 0
        ;;
    -*) fault "$1 is no option; $usage" ;;
    esac
    [ $# -eq 1 ] || fault "$usage"
    [ -n "$1" ] || fault "$usage"
    case $1${DESTDIR-} in
    *$'\n'*) fault 'PREFIX and DESTDIR cannot have a newline in them' ;;
    esac
    prefix=$(realpath -ms -- "$1")
    # The two scripts use it.
    # shellcheck disable=SC2034
    top=${DESTDIR:+$(realpath -ms -- "$DESTDIR")}$prefix
}
