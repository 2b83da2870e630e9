#!/usr/bin/env bash
# The counting of scripts/test.sh on a made-up repository with made-up logs: in order it passes, and with any one thing
# missing, left out or failed it does not.
set -eu
root=$(cd "$(dirname "$0")/.." && pwd)
work=$(mktemp -d)
trap 'rm -rf "$work"' EXIT
cases=0

# A repository of two crates, an edit and two Rust packages, and the logs of a run in which all went well.
make_up() {
    rm -rf "$work/repository"
    mkdir -p "$work/repository"/{crates/one/must-fail,crates/two_export,rust/first/tests,rust/second/src}
    cd "$work/repository"
    printf '# crates\none:\ntwo_export staticlib: one\n' >crates.txt
    printf 'An edit.\n' >crates/one/must-fail/wrong.edit
    printf '#[test]\nfn a() {}\n#[test]\nfn b() {}\n' >rust/first/tests/it.rs
    printf 'mod tests {\n    #[test]\n    fn c() {}\n}\n' >rust/second/src/lib.rs
    cat >rt.log <<'END'
rt: one is kept: an earlier run on this machine proved the same files over the same libraries
fn two_export::f: proved
rt: two_export proved
rt: must-fail one/wrong.edit: refused, as it must be: src/lib.rt:1:1: it is not proved
rt: ok; handles allowed: none; must-fail edits: 1 refused; every proof and must-fail edit was done in this run
3 passed, 0 failed
END
    cat >cargo.log <<'END'
     Running tests/it.rs (target/debug/deps/it-1)
test result: ok. 2 passed; 0 failed; 0 ignored; 0 measured; 0 filtered out; finished in 0.01s
     Running unittests src/lib.rs (target/debug/deps/second-1)
test result: ok. 1 passed; 0 failed; 0 ignored; 0 measured; 0 filtered out; finished in 0.01s
   Doc-tests second
test result: ok. 4 passed; 0 failed; 0 ignored; 0 measured; 0 filtered out; finished in 0.01s
END
    rt_status=0 cargo_status=0 libraries=two_export scripts='walk derive' found='derive walk'
}

# The counting as scripts/test.sh does it; the last line and the status are its own.
count() (
    . "$root/scripts/counting.sh"
    count_proofs "$rt_status" rt.log 'one'
    require_names libraries "$libraries" "$(crate_names | grep '_export$')"
    step 'a step' "${library_step:-true}"
    count_rust "$cargo_status" cargo.log 'first second'
    require_names scripts "$scripts" "$found"
    conclude
)

# What a spoilt run has to say; its last line has to count a failure and its status has to be 1.
spoilt() { # WORDS COMMAND, which spoils the repository
    local status=0
    make_up
    eval "$2"
    count >out 2>&1 || status=$?
    [ "$status" -eq 1 ] && tail -n 1 out | grep -qE '^[0-9]+ passed, [1-9][0-9]* failed$' && grep -qF "FAILED: $1" out ||
        { cat out; echo "status $status for: $2"; exit 1; }
    unset library_step
    cases=$((cases + 1))
}

make_up
count >out
[ "$(tail -n 1 out)" = '11 passed, 0 failed' ] || { cat out; echo 'a run in order does not pass'; exit 1; }

spoilt 'rt ci printed no count' ': >rt.log'
spoilt 'rt ci printed no count' 'sed -i /passed,/d rt.log'
spoilt 'rt ci ended with status 2' 'rt_status=2'
spoilt 'rt ci did not prove one' 'sed -i "/one is kept/d" rt.log'
spoilt 'rt ci did not prove one' 'sed -i "s/one is kept: .*/one NOT PROVED/" rt.log'
spoilt 'rt ci did not prove two_export' 'echo "rt: other proved" >>rt.log; sed -i "/two_export proved/d" rt.log'
spoilt 'rt ci did not refuse one/wrong.edit' 'sed -i "/must-fail one/d" rt.log'
spoilt 'rt ci did not refuse one/wrong.edit' 'sed -i "s/refused, as it must be/NOT REFUSED/" rt.log'
spoilt 'rt ci did not refuse one/wrong.edit' 'sed -i "s/refused, as it must be/BAD EDIT/" rt.log'
spoilt 'rt ci refused an edit for a name alone' 'sed -i "s/as it must be/& (only because a proof file names what the edit took away, so this says little of the contract)/" rt.log'
spoilt 'rt ci called edits bad' 'sed -i "s/1 refused/1 refused, 1 bad/" rt.log'
spoilt 'rt ci did not say that 1 edits were refused' 'sed -i "s/: 1 refused/: 0 refused/" rt.log'
spoilt 'rt ci did not say that 1 edits were refused' 'sed -i "/^rt: ok/d" rt.log'
spoilt 'rt ci did not refuse one/unread.md' 'touch crates/one/must-fail/unread.md'
spoilt 'there is no must-fail edit' 'rm crates/one/must-fail/wrong.edit'
spoilt 'crates.txt does not name one' 'sed -i /^one:/d crates.txt'
spoilt 'crates.txt does not name one' ': >crates.txt'
spoilt 'rt ci counted 0, and 3 crates and edits are there' 'sed -i "s/^3 passed/0 passed/" rt.log'
spoilt 'libraries: ' 'libraries='
spoilt 'libraries: ' 'sed -i /^two_export/d crates.txt'
spoilt 'libraries: ' 'echo "three_export: one" >>crates.txt'
spoilt 'a step' 'library_step=false'
spoilt 'a step' 'library_step=no-such-command'
spoilt 'cargo test ended with status 101' 'cargo_status=101'
spoilt "0 of Rust's 3 tests have run" ': >cargo.log'
spoilt "2 of Rust's 3 tests have run" 'sed -i "/^test result: ok. 1 passed/d" cargo.log'
spoilt "0 of Rust's 3 tests have run" 'sed -i "/Doc-tests/,\$!d" cargo.log'
spoilt "2 of Rust's tests were ignored or left out" 'sed -i "s/2 passed; 0 failed; 0 ignored/0 passed; 0 failed; 2 ignored/" cargo.log'
spoilt "2 of Rust's tests were ignored or left out" 'sed -i "s/2 passed\(.*\)0 filtered/0 passed\12 filtered/" cargo.log'
spoilt 'the package second has no test' 'rm rust/second/src/lib.rs'
spoilt 'the package first has no test' 'rm -r rust/first'
spoilt 'scripts: ' 'found='
spoilt 'scripts: ' 'found=walk'
spoilt 'scripts: ' 'found="derive walk new"'

# A failure that a log itself counts.
make_up
sed -i 's/^3 passed, 0/2 passed, 1/' rt.log
sed -i 's/ok. 1 passed; 0 failed/FAILED. 0 passed; 1 failed/' cargo.log
rt_status=1 cargo_status=101
! count >out || { cat out; echo 'counted failures pass'; exit 1; }
[ "$(tail -n 1 out)" = '9 passed, 2 failed' ] || { cat out; echo 'failures are counted wrongly'; exit 1; }

# Nothing at all, and a command's status behind tee.
if (. "$root/scripts/counting.sh" && conclude) >out; then
    echo 'no test at all passes'
    exit 1
fi
status=0
(. "$root/scripts/counting.sh" && run log sh -c 'echo words; exit 7') >out || status=$?
[ "$status" -eq 7 ] && cmp -s log out || { echo "status $status behind tee"; exit 1; }
echo "counting: $cases spoilt runs were found"
