# shellcheck shell=bash
# What a run of all tests comes to, counted so that nothing left out passes for a success.
# To be sourced at the root of a repository. The functions say what failed and add to $passed and $failed;
# scripts/test.sh prints the sums, and tests/counting.sh tries the functions on repositories and logs made up for it.

passed=0
failed=0

fail() { # WORDS
    echo "FAILED: $1"
    failed=$((failed + 1))
}

# Counts a step that either works or does not.
step() { # WORDS COMMAND..
    local words=$1
    shift
    if "$@"; then
        passed=$((passed + 1))
        echo "ok: $words"
    else
        fail "$words"
    fi
}

# Runs a command, shows what it prints and keeps it in a file. The status is the command's.
run() { # LOG COMMAND..
    "${@:2}" 2>&1 | tee "$1"
    return "${PIPESTATUS[0]}"
}

# Names that are to be there, and no others: one that is missing or that nobody listed is a failure.
require_names() { # WHAT LISTED FOUND
    local listed found
    # The words of a list are its names.
    # shellcheck disable=SC2086
    listed=$(printf '%s\n' $2 | sort) found=$(printf '%s\n' $3 | sort)
    if [ -z "$listed" ] || [ "$listed" != "$found" ]; then
        fail "$1: listed are '${listed//$'\n'/ }', there are '${found//$'\n'/ }'"
    fi
}

# The names of crates.txt.
crate_names() {
    sed -n 's/^\([a-z0-9_]*\)\( staticlib\)\?:.*/\1/p' crates.txt
}

# The proofs: `rt ci` printed its count, proved each crate of crates.txt, in this run or in an earlier one of the same files on this
# machine, and refused each edit, none for a name alone; none is bad, and the count has them all. The crates that carry the promises are named, since
# crates.txt may lose a line.
count_proofs() { # STATUS LOG CARRYING
    local n m tally name edit due=0 edits=0
    tally=$(grep -aE '^[0-9]+ passed, [0-9]+ failed$' "$2" | tail -n 1)
    [ -n "$tally" ] || { fail "rt ci printed no count"; return; }
    read -r n _ m _ <<<"$tally"
    passed=$((passed + n))
    failed=$((failed + m))
    [ "$1" -eq 0 ] || [ "$m" -gt 0 ] || fail "rt ci ended with status $1"
    for name in $3; do
        crate_names | grep -qx "$name" || fail "crates.txt does not name $name"
    done
    for name in $(crate_names); do
        due=$((due + 1))
        grep -qaE "^rt: $name (proved\$|is kept: )" "$2" || fail "rt ci did not prove $name"
    done
    for edit in crates/*/must-fail/*; do
        [ -e "$edit" ] || { fail "there is no must-fail edit"; break; }
        edits=$((edits + 1))
        name=${edit#crates/}
        name=${name%%/*}/$(basename "$edit")
        grep -qaF "rt: must-fail $name: refused, as it must be" "$2" || fail "rt ci did not refuse $name"
    done
    due=$((due + edits))
    [ $((n + m)) -ge "$due" ] || fail "rt ci counted $((n + m)), and $due crates and edits are there"
    if [ "$m" -eq 0 ]; then
        grep -qaE "^rt: ok; .*; must-fail edits: $edits refused" "$2" || fail "rt ci did not say that $edits edits were refused"
    fi
    ! grep -qaE '^rt: ok; .*, [0-9]+ bad' "$2" || fail "rt ci called edits bad"
    ! grep -qaF 'only because a proof file names what the edit took away' "$2" || fail "rt ci refused an edit for a name alone"
}

# Rust's tests: each package that is named has tests, each test of the sources has run, and none was ignored or left out.
# Tests in documentation count, and do not stand in for others.
count_rust() { # STATUS LOG PACKAGES
    local n m left units due package
    read -r n m left units < <(awk '
        /^ *Doc-tests / { in_documentation = 1 }
        /^ *Running / { in_documentation = 0 }
        /^test result: / { n += $4; m += $6; left += $8 + $12; if (!in_documentation) units += $4 + $6 }
        END { print n + 0, m + 0, left + 0, units + 0 }' "$2")
    passed=$((passed + n))
    failed=$((failed + m))
    [ "$1" -eq 0 ] || [ "$m" -gt 0 ] || fail "cargo test ended with status $1"
    for package in $3; do
        [ "$(tests_of "rust/$package")" -gt 0 ] || fail "the package $package has no test"
    done
    due=$(tests_of rust)
    if [ "$units" -eq 0 ] || [ "$units" -lt "$due" ]; then
        fail "$units of Rust's $due tests have run"
    fi
    [ "$left" -eq 0 ] || fail "$left of Rust's tests were ignored or left out"
}

# How many tests the sources of a folder have.
tests_of() { # FOLDER
    find "$1" -name target -prune -o -name '*.rs' -exec grep -hE '^ *#\[test\]' {} + 2>/dev/null | wc -l
}

# The last line. Something has to have passed.
conclude() {
    [ "$passed" -gt 0 ] || fail "no test has run"
    echo "$passed passed, $failed failed"
    [ "$failed" -eq 0 ]
}
