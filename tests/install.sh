#!/usr/bin/env bash
# Installs under prefixes made for it, uses what is there from another folder, and removes it again: exactly the listed files
# with their modes, a C program by pkg-config alone, the program, its manual page and its completions; and nothing of others.
set -eu
root=$(cd "$(dirname "$0")/.." && pwd)
install=$root/scripts/install.sh
uninstall=$root/scripts/uninstall.sh
work=$(mktemp -d)
trap 'rm -rf "$work"' EXIT
mkdir "$work/elsewhere" "$work/temporary"
cd "$work/elsewhere"
# Compilers, pkg-config and the scripts know of no other place than the ones that the test gives.
unset CPATH C_INCLUDE_PATH LIBRARY_PATH PKG_CONFIG_PATH PKG_CONFIG_LIBDIR PKG_CONFIG_SYSROOT_DIR DESTDIR
export TMPDIR=$work/temporary

same() { # WHAT EXPECTED FOUND
    [ "$2" = "$3" ] || { echo "$1: expected '$2', found '$3'"; exit 1; }
}

listed='0755 bin/lyra2
0644 include/lyra2.h
0644 lib/liblyra2.a
0644 lib/pkgconfig/lyra2.pc
0644 share/bash-completion/completions/lyra2
0644 share/doc/lyra2/LICENSE
0644 share/doc/lyra2/account_book.c
0644 share/doc/lyra2/choose_costs.c
0644 share/doc/lyra2/derive_and_check.c
0644 share/doc/lyra2/installed.txt
0644 share/doc/lyra2/lanes.c
0644 share/doc/lyra2/login_line.c
0644 share/fish/vendor_completions.d/lyra2.fish
0644 share/man/man1/lyra2.1
0644 share/zsh/site-functions/_lyra2'

files_under() { # FOLDER
    (cd "$1" && find . ! -type d -printf '0%m %P\n' | LC_ALL=C sort -k 2)
}

# ---- exactly these files, whatever the umask, under a relative prefix with a space
(umask 077 && "$install" 'a prefix') >"$work/said"
prefix="$work/elsewhere/a prefix"
same 'the files' "$listed" "$(files_under "$prefix")"
same 'folders that not all can enter' '' "$(find "$prefix" -type d ! -perm 0755)"
same 'what the install says' "$(sed "s|^[0-7]* |installed $prefix/|" <<<"$listed")" "$(cat "$work/said")"
cmp "$root/target/staticlib/libderivation_export.a" "$prefix/lib/liblyra2.a"
cmp "$root/include/lyra2.h" "$prefix/include/lyra2.h"
cmp "$root/LICENSE" "$prefix/share/doc/lyra2/LICENSE"
for example in derive_and_check login_line choose_costs account_book lanes; do
    cmp "$root/examples/$example.c" "$prefix/share/doc/lyra2/$example.c"
done
while read -r _ file; do
    grep -qF "${file##*/}" "$root/docs/INSTALL.md" || { echo "docs/INSTALL.md does not name $file"; exit 1; }
    [ "$file" = bin/lyra2 ] || ! grep -qF "$root" "$prefix/$file" || { echo "$file names the repository"; exit 1; }
done <<<"$listed"
same 'files left beside' '' "$(ls -A "$TMPDIR")"

# ---- the program
program=$prefix/bin/lyra2
shown=$(grep -oE '\b[0-9a-f]{64}\b' "$root/README.md")
key=$(printf 'correct horse battery staple' |
    "$program" derive --salt 30313233343536373839616263646566 --time 1 --rows 1024 --columns 64 --key-length 32)
same 'the key of README.md' "$shown" "$key"
printf 'correct horse' | "$program" line --time 1 --rows 64 --columns 16 --key-length 32 --output line
same 'a login' yes "$(printf 'correct horse' | "$program" login --line-file line)"
printf 'correct horse' | "$program" book add --book book --number 7 --time 1 --rows 64 --columns 16 --key-length 32 >/dev/null
same 'an account' yes "$(printf 'correct horse' | "$program" book check --book book --number 7)"

# ---- a C program by pkg-config alone, from under either prefix; of a path with a space the shell has to see the backslashes
"$install" "$work/plain/../plain/" >/dev/null
same 'the files under a plain prefix' "$listed" "$(files_under "$work/plain")"
cp "$root"/examples/*.c .
example_prints() { # WHAT
    same "$1" "$(cat "$root/examples/derive_and_check.out")" "$(printf 'correct horse' | ./example 'salt of 16 bytes' 1 256 64 32)"
    rm example
}
(
    export PKG_CONFIG_PATH=$work/plain/lib/pkgconfig
    # The flags are words of their own.
    # shellcheck disable=SC2046
    cc -std=c99 -Wall -Werror $(pkg-config --cflags lyra2) derive_and_check.c $(pkg-config --libs lyra2) -o example
    example_prints 'the C example'
    # shellcheck disable=SC2046
    cc -std=c99 -Wall -Werror $(pkg-config --cflags lyra2) login_line.c $(pkg-config --libs lyra2) -o login
    same 'the C example of a login line' yes "$(printf 'correct horse' | ./login line)"
    # shellcheck disable=SC2046
    cc -std=c99 -Wall -Werror $(pkg-config --cflags lyra2) choose_costs.c $(pkg-config --libs lyra2) -o choose
    same 'the C example of a choice of costs' "$(cat "$root/examples/choose_costs.out")" "$(./choose 6291456 1000000)"
    # shellcheck disable=SC2046
    cc -std=c99 -Wall -Werror $(pkg-config --cflags lyra2) account_book.c $(pkg-config --libs lyra2) -o accounts
    same 'the C example of a book' "$(cat "$root/examples/account_book.out")" \
        "$(printf 'correct horse' | ./accounts 'salt of 16 bytes' 1 256 64 32)"
    # shellcheck disable=SC2046
    cc -std=c99 -Wall -Werror $(pkg-config --cflags lyra2) lanes.c $(pkg-config --libs lyra2) -o lanes
    same 'the C example of lanes' "$(cat "$root/examples/lanes.out")" \
        "$(printf 'correct horse' | ./lanes 'salt of 16 bytes' 1 256 64 4 32)"
)
export PKG_CONFIG_PATH=$prefix/lib/pkgconfig
eval "cc -std=c99 -Wall -Werror $(pkg-config --cflags lyra2) derive_and_check.c $(pkg-config --libs lyra2) -o example"
example_prints 'the C example under a prefix with a space'
pkg-config --validate lyra2
same 'prefix of lyra2.pc' "$prefix" "$(pkg-config --variable=prefix lyra2)"
same 'version of lyra2.pc' "$("$program" --version)" "lyra2 $(pkg-config --modversion lyra2)"
[[ $(pkg-config --modversion lyra2) =~ ^[0-9]+\.[0-9]+\.[0-9]+$ ]] || { echo 'lyra2.pc has no version'; exit 1; }
unset PKG_CONFIG_PATH

# ---- the manual page, with no word divided: no warning, and every command that the help lists
groff -K utf8 -man -rHY=0 -Tutf8 -ww "$prefix/share/man/man1/lyra2.1" >"$work/page" 2>"$work/said"
same 'warnings about the manual page' '' "$(cat "$work/said")"
commands=$("$program" help | sed -nE 's/^  ([a-z][a-z-]*)(  .*)?$/\1/p')
for command in derive check line login book cost choose walk trial compare completions manual; do
    grep -qx "$command" <<<"$commands" || { echo "the help does not list $command"; exit 1; }
done
# What is bold or underlined has escapes around it, or is struck twice.
sed -i 's/\x1b\[[0-9;]*m//g; s/.\x08//g' "$work/page"
# Each has a heading, since its name may be a word of another's text; `help` is told of in the text.
for command in $commands; do
    heading="^ *$command\$"
    [ "$command" != help ] || heading='lyra2 help '
    grep -q -- "$heading" "$work/page" || { echo "the manual page does not name $command"; exit 1; }
done

for command in list add remove check; do
    grep -q "^ *book $command\$" "$work/page" || { echo "the manual page does not name book $command"; exit 1; }
done

# ---- completions: bash offers a command, the others are for this program
completion=$prefix/share/bash-completion/completions/lyra2
bash -n "$completion"
offered=$(bash --norc -c '
    . "$1"
    [[ $(complete -p lyra2) =~ -F\ ([^ ]+) ]] || exit 1
    COMP_WORDS=(lyra2 de) COMP_CWORD=1
    "${BASH_REMATCH[1]}" lyra2 de lyra2
    printf "%s\n" "${COMPREPLY[@]}"' bash "$completion")
same 'what bash offers for: lyra2 de' derive "$offered"
same 'the first line for zsh' '#compdef lyra2' "$(head -n 1 "$prefix/share/zsh/site-functions/_lyra2")"
grep -q '^complete -c lyra2 ' "$prefix/share/fish/vendor_completions.d/lyra2.fish" || { echo 'nothing for fish'; exit 1; }

# ---- over an older install each file is replaced whole: who has the old one open keeps it
cp -a "$prefix" "$work/as installed"
while read -r _ file; do
    [[ $file == */installed.txt ]] || printf 'old\n' >"$prefix/$file"
done <<<"$listed"
chmod 0600 "$prefix/include/lyra2.h"
ln "$program" "$work/old"
rm "$prefix/lib/liblyra2.a"
ln -s "$work/old" "$prefix/lib/liblyra2.a"
"$install" 'a prefix' >/dev/null
echo old | cmp - "$work/old"
same 'the files of a second install' "$listed" "$(files_under "$prefix")"
diff -r "$work/as installed" "$prefix"

# ---- what others have put there stays, and so do folders that were there before
mkdir -p "$work/shared/lib/pkgconfig" "$work/shared/share/man"
echo theirs >"$work/shared/lib/other.pc"
"$install" "$work/shared" >/dev/null
"$install" "$work/shared" >/dev/null
echo theirs >"$work/shared/bin/other"
echo theirs >"$work/shared/share/doc/lyra2/other"
"$uninstall" "$work/shared" >"$work/said"
same 'what is left beside others' './bin
./bin/other
./lib
./lib/other.pc
./lib/pkgconfig
./share
./share/doc
./share/doc/lyra2
./share/doc/lyra2/other
./share/man' "$(cd "$work/shared" && find . -mindepth 1 | LC_ALL=C sort)"
same 'files that are told as removed' "$(sed "s|^[0-7]* |removed $work/shared/|" <<<"$listed" | LC_ALL=C sort)" \
    "$(grep -E "/($(sed 's/^[0-7]* //' <<<"$listed" | paste -sd '|'))\$" "$work/said" | LC_ALL=C sort)"

# ---- an uninstall leaves nothing, and a second one finds nothing
"$uninstall" 'a prefix' >/dev/null
"$uninstall" "$work/plain" >/dev/null
[ ! -e "$prefix" ] && [ ! -e "$work/plain" ] || { find "$prefix" "$work/plain"; echo 'something is left'; exit 1; }
same 'a second uninstall' "nothing is installed under $prefix: there is no share/doc/lyra2/installed.txt" "$("$uninstall" 'a prefix')"

# ---- DESTDIR: the files are under it, and name the prefix without it
final="$work/final place/lyra2"
DESTDIR="$work/a stage" "$install" "$final" >/dev/null
same 'the staged files' "$listed" "$(files_under "$work/a stage$final")"
same 'the staged prefix' "prefix=$final" "$(head -n 1 "$work/a stage$final/lib/pkgconfig/lyra2.pc")"
while read -r _ file; do
    ! grep -qF "$work/a stage" "$work/a stage$final/$file" || { echo "$file names DESTDIR"; exit 1; }
done <<<"$listed"
DESTDIR="$work/a stage" "$uninstall" "$final" >/dev/null
[ ! -e "$work/a stage$final" ] || { echo 'an uninstall leaves something under DESTDIR'; exit 1; }
[ ! -e "$work/final place" ] || { echo 'DESTDIR is not honoured'; exit 1; }

# ---- what cannot be done is told in one line, with status 2, and nothing is changed
refused() { # WORDS COMMAND..
    local status=0
    "${@:2}" >"$work/out" 2>"$work/said" || status=$?
    same "status of ${*:2}" 2 "$status"
    same "standard output of ${*:2}" '' "$(cat "$work/out")"
    same "lines of ${*:2}" 1 "$(wc -l <"$work/said")"
    grep -qF -- "$1" "$work/said" || { cat "$work/said"; echo "no such words for ${*:2}: $1"; exit 1; }
}
for script in "$install" "$uninstall"; do
    usage="usage: scripts/${script##*/} PREFIX"
    refused "$usage" "$script"
    refused "$usage" "$script" ''
    refused "$usage" "$script" one two
    refused "--prefix is no option; $usage" "$script" --prefix
    refused 'newline' "$script" $'two\nlines'
done
echo file >a_file
# These two are told before anything is built, so without the reason that a command gives.
for taken in a_file a_file/below; do
    refused 'cannot write' "$install" "$taken"
    same "words for $taken" "install.sh: cannot write under $work/elsewhere/a_file" "$(cat "$work/said")"
done
refused 'lyra2.pc cannot name' "$install" 'a $prefix'
mkdir -p taken/bin/lyra2
refused "cannot write under $work/elsewhere/taken: " "$install" taken
"$uninstall" taken >/dev/null 2>&1 || true
mkdir -p wrong/share/doc/lyra2
for line in 'file ../a_file' 'file bin/../../a_file' "file $work/elsewhere/a_file" 'folder ..' 'other a_file'; do
    printf 'file bin/lyra2\n%s\n' "$line" >wrong/share/doc/lyra2/installed.txt
    refused 'installed.txt' "$uninstall" wrong
done
same 'a file outside of the prefix' file "$(cat a_file)"
same 'files left beside at the end' '' "$(ls -A "$TMPDIR"; find . -name '.lyra2.*')"
echo "install: $(wc -l <<<"$listed") files, a C program by pkg-config, the manual page of $(wc -w <<<"$commands") commands, and nothing left"
