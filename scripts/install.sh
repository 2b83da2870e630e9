#!/usr/bin/env bash
# Installs the program, the library for C and their papers under a prefix; what is missing is built first. With DESTDIR set
# the files go under DESTDIR/PREFIX, and name PREFIX all the same. docs/INSTALL.md lists them.
set -eu
root=$(cd "$(dirname "$0")/.." && pwd)
. "$root/scripts/prefix.sh"
. "$root/scripts/build.sh"
read_prefix "$@"

# lyra2.pc has the prefix between quotes.
case $prefix in
*[\"\'\`\$\\#]*) fault "lyra2.pc cannot name a PREFIX with one of \" ' \` \$ \\ # in it" ;;
esac

# A prefix that cannot be written is told before a build that takes minutes.
nearest=$top
while [ ! -e "$nearest" ] && [ ! -L "$nearest" ]; do nearest=$(dirname "$nearest"); done
if [ ! -d "$nearest" ] || [ ! -w "$nearest" ] || [ ! -x "$nearest" ]; then
    fault "cannot write under $nearest"
fi

build_library
build_program

made=$(mktemp -d)
beside=
trap 'rm -rf "$made" ${beside:+"$beside"}' EXIT
# Folders get mode 0755 by this, whatever the caller has; the files' modes are set one by one.
umask 022

# ---- the files, made in a folder of their own
mkdir -p "$made"/{bin,include,lib/pkgconfig,share/{doc/lyra2,man/man1}}
mkdir -p "$made"/share/{bash-completion/completions,fish/vendor_completions.d,zsh/site-functions}
cp "$program" "$made/bin/lyra2"
cp "$archive" "$made/lib/liblyra2.a"
cp "$root/include/lyra2.h" "$made/include"
cp "$root/LICENSE" "$root"/examples/{derive_and_check,login_line,choose_costs,account_book,lanes}.c "$made/share/doc/lyra2"

ask() { # FILE ARGUMENT.., which the program answers
    "$program" "${@:2}" >"$made/$1" </dev/null || fault "the program does not answer to: ${*:2}"
    [ -s "$made/$1" ] || fault "the program prints nothing for: ${*:2}"
}
ask share/man/man1/lyra2.1 manual
ask share/bash-completion/completions/lyra2 completions bash
ask share/zsh/site-functions/_lyra2 completions zsh
ask share/fish/vendor_completions.d/lyra2.fish completions fish

version=$("$program" --version) || fault 'the program does not tell its version'
cat >"$made/lib/pkgconfig/lyra2.pc" <<END
prefix=$prefix
libdir=\${prefix}/lib
includedir=\${prefix}/include

Name: lyra2
Description: Lyra2 password key derivation, proved
Version: ${version#lyra2 }
Cflags: -I"\${includedir}"
Libs: -L"\${libdir}" -llyra2
END

# ---- into their places
try() { # COMMAND..
    local reason
    reason=$("$@" 2>&1) || fault "cannot write under $top: $reason"
}

# Writes beside and renames, so that a program that runs, or an install that ends early, finds a whole file.
put() { # PATH
    local mode=0644 reason
    case $1 in bin/*) mode=0755 ;; esac
    beside=$(mktemp "$top/$(dirname "$1")/.lyra2.XXXXXX" 2>&1) || { reason=$beside beside=; fault "cannot write under $top: $reason"; }
    try cp "$made/$1" "$beside"
    try chmod "$mode" "$beside"
    try mv -fT "$beside" "$top/$1"
    beside=
}

# The record comes first, and keeps what an earlier install has written there, so that an uninstall finds everything.
touch "$made/$record"
files=$(cd "$made" && find . -type f | sed 's|^\./||' | LC_ALL=C sort)
folders=$(cd "$made" && find . -type d | sed 's|^\./||' | LC_ALL=C sort)
{
    ! [ -e "$top/$record" ] || cat "$top/$record"
    while IFS= read -r folder; do
        if [ ! -d "$top/$folder" ]; then
            try mkdir -p "$top/$folder"
            echo "folder $folder"
        fi
    done <<<"$folders"
    sed 's/^/file /' <<<"$files"
} >"$made/lines"
LC_ALL=C sort -u "$made/lines" >"$made/$record"
put "$record"
while IFS= read -r file; do
    [ "$file" = "$record" ] || put "$file"
    echo "installed $top/$file"
done <<<"$files"
