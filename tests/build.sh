#!/usr/bin/env bash
# What a build says, over a made-up rt and cargo that print what the real ones print: how far the proofs are, a line for the
# program, nothing where nothing is to be done, and the whole log of a failure. Standard input and output stay the program's.
set -eu
root=$(cd "$(dirname "$0")/.." && pwd)
work=$(mktemp -d)
trap 'rm -rf "$work"' EXIT

same() { # WHAT EXPECTED FOUND
    [ "$2" = "$3" ] || { echo "$1: expected '$2', found '$3'"; exit 1; }
}

# ---- a repository of five crates, of which the library has four; io is a library of the kit
copy="$work/a repository"
mkdir -p "$work/bin" "$work/logs" "$copy/scripts" "$copy"/crates/{ground,left,right,derivation_export,other}/src
cp "$root"/scripts/{build,cargo,derive,library,needed}.sh "$copy/scripts"
printf '# crates\nground:\nleft: io ground # a remark\nright: ground\nderivation_export staticlib: left right ground\nother: ground\n' >"$copy/crates.txt"

export TMPDIR=$work/logs

# $work/proofs and $work/compiled are what they print, $work/rt-status and $work/cargo-status how they end.
cat >"$work/bin/rt" <<'END'
#!/bin/sh
here=${0%/bin/rt}
echo "rt $*" >>"$here/called"
[ -z "$(cat)" ] || echo 'rt has read the standard input' >>"$here/called"
cat "$here/proofs" >&2
[ "$(cat "$here/rt-status")" = 0 ] || exit "$(cat "$here/rt-status")"
mkdir -p out && : >out/libderivation_export.a
printf 'crate derivation_export: modules loaded=3 checked=0\nlogic=proved functions=2 target=x86_64-unknown-linux-gnu\n'
END
cat >"$work/bin/cargo" <<'END'
#!/bin/sh
here=${0%/bin/cargo}
case " $* " in *' tree '*) exit 0 ;; esac
[ -z "$(cat)" ] || echo 'cargo has read the standard input' >>"$here/called"
echo 'on standard output'
cat "$here/compiled" >&2
echo '    Finished `release` profile [optimized] target(s) in 0.05s' >&2
mkdir -p rust/target/release
printf '#!/bin/sh\necho "program: $*"\ncat\nexit 1\n' >rust/target/release/lyra2
chmod +x rust/target/release/lyra2
exit "$(cat "$here/cargo-status")"
END
chmod +x "$work/bin/rt" "$work/bin/cargo"

# What `rt lib` prints of a crate that it proves.
told() { # NAME..
    local name
    for name in "$@"; do
        printf 'rt: chose --jobs 2 for %s\nfn %s::f: proved\nlibrary ground: modules loaded=1 checked=0\n' "$name" "$name"
        printf 'crate %s: modules loaded=0 checked=3\nlogic=proved functions=1 sum=0\n' "$name"
    done
}
proved=$(told ground left right)
compiled='   Compiling zeroize v1.5.7
   Compiling lyra2-cli v0.1.0 (/a/folder)'
one_line='building the program, which takes about a minute the first time'

# Runs the program through derive.sh with a line on standard input; leaves $status, and the files out and said.
derive() { # PROOFS COMPILED
    printf '%s\n' "$1" >"$work/proofs"
    printf '%s\n' "$2" >"$work/compiled"
    : >"$work/called"
    status=0
    printf 'password\n' | PATH=$work/bin:$PATH "$copy/scripts/derive.sh" walk 8 5 >"$work/out" 2>"$work/said" || status=$?
}
program_has_run() {
    same 'status of the program' 1 "$status"
    same 'standard output' 'program: walk 8 5
password' "$(cat "$work/out")"
}
echo 0 >"$work/rt-status"
echo 0 >"$work/cargo-status"

# ---- the first build, then none, then a source that has changed
derive "$proved" "$compiled"
program_has_run
same 'the first build' "proving the library, 4 crates; this takes some minutes and is done once
proved 1 of at most 4: ground
proved 2 of at most 4: left
proved 3 of at most 4: right
proved 4 of at most 4: derivation_export
$one_line" "$(cat "$work/said")"
same 'what was called for' 'rt lib' "$(cat "$work/called")"

for line in '' '    Blocking waiting for file lock on package cache'; do
    derive "$proved" "$line"
    program_has_run
    same 'nothing to build' '' "$(cat "$work/said" "$work/called")"
done

derive '' "$compiled"
program_has_run
same 'the program alone' "$one_line" "$(cat "$work/said" "$work/called")"

touch -d '1 minute' "$copy/crates/left/src/lib.rt"
derive "$(told left)" ''
program_has_run
same 'a crate that has changed' "proving the library, 4 crates; this takes some minutes and is done once
proved 1 of at most 4: left
proved 2 of at most 4: derivation_export" "$(cat "$work/said")"
rm "$copy/crates/left/src/lib.rt"
touch -d '1 minute' "$copy/target/staticlib/libderivation_export.a"

# ---- at a terminal cargo's own lines are seen too
printf '%s\n' "$compiled" >"$work/compiled"
seen=$(PATH=$work/bin:$PATH script -qec "'$copy/scripts/derive.sh' walk 8 5 </dev/null" /dev/null </dev/null | tr -d '\r')
same 'at a terminal' "$one_line
$compiled
program: walk 8 5" "$seen"

# ---- failures: the whole log, status 2, and no program
fails() { # WHAT LOG
    same "status of $1" 2 "$status"
    same "standard output of $1" '' "$(cat "$work/out")"
    [[ $(cat "$work/said") == *"$2" ]] || { cat "$work/said"; echo "$1 does not show its log"; exit 1; }
}
rm "$copy/target/staticlib/libderivation_export.a"
refused="$(told ground)
what left ensures does not hold
fn left::f: not proved
logic=not-proved"
echo 1 >"$work/rt-status"
derive "$refused" "$compiled"
fails 'a refused proof' "proved 1 of at most 4: ground
$refused"
echo 0 >"$work/rt-status"
echo 101 >"$work/cargo-status"
derive "$proved" "$compiled
error: no such function"
fails 'a program that does not compile' "$one_line
on standard output
$compiled
error: no such function
    Finished \`release\` profile [optimized] target(s) in 0.05s"
echo 0 >"$work/cargo-status"

# ---- no rt, no cargo: a PATH with what the scripts themselves use
mkdir "$work/few"
for command in awk bash cat cp dirname dpkg-query env find grep mkdir mktemp rm sed tee; do
    path=$(command -v "$command") || continue
    ln -s "$path" "$work/few/$command"
done
without() { # COMMAND
    status=0
    PATH=$work/few "$copy/scripts/derive.sh" walk 8 5 >"$work/out" 2>"$work/said" </dev/null || status=$?
    fails "a build without $1" "$(grep "^$1 is missing" "$work/said")"
    grep -q "^$1 is missing" "$work/said" || { cat "$work/said"; echo "no word that $1 is missing"; exit 1; }
}
without cargo
rm "$copy/target/staticlib/libderivation_export.a"
without rt
same 'logs left behind' '' "$(ls "$work/logs")"
echo 'build: how far it is, nothing, and failures are told'
