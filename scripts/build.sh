# shellcheck shell=bash
# Builds what is missing: the library, proved, and the program over it. To be sourced with the repository's folder in $root;
# scripts/derive.sh and scripts/install.sh do. What is said goes to standard error, and nothing is said where nothing is to
# be done. A build that fails shows its whole log and ends the script with status 2.

# Who sources this sets $root and uses $program.
# shellcheck disable=SC2154
archive=$root/target/staticlib/libderivation_export.a
# shellcheck disable=SC2034
program=$root/rust/target/release/lyra2

# A line that cannot be written must not end a build.
say() { # WORDS
    echo "$1" >&2 || true
}

# Runs a command that needs another at the root; what it prints goes to a log and to a function that says how far it is. Standard input stays
# the program's, since it may be a password.
build() { # FUNCTION NEEDED COMMAND..
    local status
    command -v "$2" >/dev/null 2>&1 || { say "$2 is missing: docs/DEPENDENCIES.md says what a build needs"; exit 2; }
    build_log=$(mktemp) || exit 2
    trap 'rm -f "$build_log"' EXIT
    (cd "$root" && "${@:3}") 2>&1 </dev/null | tee "$build_log" | "$1"
    status=${PIPESTATUS[0]}
    [ "$status" -eq 0 ] || cat "$build_log" >&2
    rm -f "$build_log"
    [ "$status" -eq 0 ] || exit 2
}

# How many crates of crates.txt one of them rests on, itself counted.
crates_under() { # NAME
    awk -v top="$1" '
        function visit(name, below, i, n) {
            if (name in seen || !(name in rests_on)) return
            seen[name]
            count++
            n = split(rests_on[name], below, " ")
            for (i = 1; i <= n; i++) visit(below[i])
        }
        { sub(/#.*/, ""); sub(/ staticlib:/, ":") }
        /:/ { name = $1; sub(/:.*/, "", name); sub(/^[^:]*:/, ""); rests_on[name] = $0 }
        END { visit(top); print count + 0 }' "$root/crates.txt"
}

# Of what `rt lib` prints: a line for each crate once it is proved. A crate that was proved before is not told.
tell_proofs() {
    local line due name='' proved=0
    due=$(crates_under derivation_export)
    while IFS= read -r line; do
        case $line in
        'crate '*': modules '*)
            name=${line#crate }
            name=${name%%:*}
            ;;
        'logic=proved '*)
            proved=$((proved + 1))
            say "proved $proved of at most $due: $name"
            ;;
        esac
    done
}

# Of what cargo prints: one line for the whole, and at a terminal cargo's own lines too.
tell_compiling() {
    local line told=''
    while IFS= read -r line; do
        case $line in
        *' Compiling '* | *' Downloaded '* | *' Downloading '* | *' Updating '*)
            [ -n "$told" ] || say 'building the program, which takes about a minute the first time'
            told=yes
            ;;
        *' Blocking '*) ;;
        *) continue ;;
        esac
        [ ! -t 2 ] || say "$line"
    done
}

# The proofs take minutes, so the library is made anew only if the code under it has changed.
build_library() {
    [ ! -e "$archive" ] || [ -n "$(find "$root"/crates/*/src "$root/crates.txt" -newer "$archive" -print -quit)" ] || return 0
    say "proving the library, $(crates_under derivation_export) crates; this takes some minutes and is done once"
    build tell_proofs rt "$root/scripts/library.sh" derivation_export
}

# cargo sees for itself what has changed.
build_program() {
    CARGO_TERM_COLOR=never build tell_compiling cargo "$root/scripts/cargo.sh" build --release --package lyra2-cli --target-dir "$root/rust/target"
}
