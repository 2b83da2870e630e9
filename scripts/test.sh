#!/usr/bin/env bash
# Every test of the repository: the proofs from nothing with their must-fail edits and programs, the layout of
# the files, the static libraries, and Rust's tests. The last line counts them all; anything that fails, or that
# is named here and has not run, makes the exit status 1.
set -u
cd "$(dirname "$0")/.." || exit 2
. scripts/counting.sh || exit 2
. scripts/needed.sh || exit 2

# The crates that carry the promises of docs/PROMISES.md, the libraries, Rust's packages with tests, and tests/*.sh.
crates='costs choice choosing plain_deriving checking recorded walk_question walk statements end_states line_form line_reading line_writing accounts book_finding book_changes book_check lanes_derivation lanes_deriving lane_statements derivation_export'
libraries='derivation_export sponge_export'
packages='bench cli derivation-link lyra2 memory reference sponge-link'
scripts='build c_example c_interface cargo counting derive install permute row_starts valgrind walk'

# What is missing is installed in one go, where that can be done.
missing=$(missing_command_packages; missing_crate_packages)
if [ -n "$missing" ] && [ "$(id -u)" -eq 0 ] && command -v apt-get >/dev/null 2>&1; then
    # The packages are words of their own.
    # shellcheck disable=SC2206
    packages_missing=($missing)
    echo "installing ${packages_missing[*]}"
    apt-get install -y -q "${packages_missing[@]}" >/dev/null 2>&1 ||
        { apt-get update -q >/dev/null 2>&1 && apt-get install -y -q "${packages_missing[@]}" >/dev/null; }
fi
missing=$(missing_command_packages | tr '\n' ' ')
[ -z "$missing" ] || { echo "commands are missing; in Debian root gets them with: apt-get install ${missing% }"; exit 2; }
command -v rt >/dev/null 2>&1 || { echo "rt, of the Rattle kit, is missing"; exit 2; }
command -v cargo >/dev/null 2>&1 || { echo "cargo is missing"; exit 2; }
# Without Debian's packages the crates can still come from the registry; without either, that is told before the proofs.
scripts/cargo.sh fetch --quiet || exit 2
work=$(mktemp -d) || exit 2
log=$work/log
trap 'rm -rf "$work"' EXIT

# The shell tests one after another, each with its own log; a status is written only once a test has ended.
run_scripts() {
    for script in $scripts; do
        bash "tests/$script.sh" >"$work/$script.log" 2>&1
        echo "$?" >"$work/$script.status"
    done
}

# Shows what a shell test printed; it has passed if it ended with status 0.
has_passed() { # SCRIPT
    cat "$work/$1.log"
    [ "$(cat "$work/$1.status")" = 0 ]
}

# ---- the proofs, the must-fail edits, the programs and the layout of the Rattle and antt files
run "$log" rt ci
count_proofs $? "$log" "$crates"

# ---- Rust's tests, over the static libraries
require_names "static libraries" "$libraries" "$(crate_names | grep '_export$')"
for library in $libraries; do
    step "static library $library" scripts/library.sh "$library"
done
step "the layout of the Rust files" cargo fmt --all --check --manifest-path rust/Cargo.toml
run_scripts &
run "$log" scripts/cargo.sh test --no-fail-fast
count_rust $? "$log" "$packages"

# ---- beside them: what the README shows, the walk program, the C interface, and how all this is counted
require_names "tests/*.sh" "$scripts" "$(cd tests && ls -- *.sh | sed 's/\.sh$//')"
wait
for script in $scripts; do
    step "tests/$script.sh" has_passed "$script"
done

conclude
