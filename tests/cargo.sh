#!/usr/bin/env bash
# Where scripts/cargo.sh takes the crates from, and what it says where they cannot be had, over a made-up cargo and
# dpkg-query; and that the lists of the crates agree.
set -eu
root=$(cd "$(dirname "$0")/.." && pwd)
cd "$root"
. scripts/needed.sh
work=$(mktemp -d)
trap 'rm -rf "$work"' EXIT

same() { # WHAT EXPECTED FOUND
    [ "$2" = "$3" ] || { echo "$1: expected '$2', found '$3'"; exit 1; }
}

# ---- the lists: what rust/*/Cargo.toml take from elsewhere is in needed.sh, and DEPENDENCIES.md has the versions of Debian 12
outside() { # FILE..
    awk '
        /^\[/ { inside = /dependencies\]$/ }
        inside && /^[a-z]/ && !/path *=/ { name = $1; sub(/[.=].*/, "", name); print name }' "$@" | sort -u
}
others=$(printf '%s\n' rust/Cargo.toml rust/*/Cargo.toml | grep -vx rust/cli/Cargo.toml)
# The files are words of their own.
# shellcheck disable=SC2086
same 'crates from elsewhere outside of rust/cli' '' "$(outside $others)"
for crate in $(outside rust/cli/Cargo.toml); do
    grep -q "^$crate " <<<"$needed_crates" || [ -d "rust/$crate" ] || { echo "scripts/needed.sh does not name $crate"; exit 1; }
done
folder=
! grep -qx 'VERSION_ID="12"' /etc/os-release || folder=$(crates_folder)
while read -r crate _; do
    version='[0-9]'
    [ -z "$folder" ] || version=$(cd "$folder" && for name in "$crate"-[0-9]*; do echo "${name#"$crate-"}"; done)
    grep -q "^| $crate | $version" docs/DEPENDENCIES.md || { echo "docs/DEPENDENCIES.md does not have $crate $version"; exit 1; }
done <<<"$needed_crates"

# Those that these bring, in the order of the page's table: in the program, and while it is built. Over the registry they may be others.
crates_of() { # EDGES
    scripts/cargo.sh tree --quiet --package lyra2-cli --edges "$1" --prefix none --format '{p}' 2>/dev/null | grep -v '(/' | sed 's/ .*//' | sort -u
}
listed() { # COLUMN
    awk -F '|' -v column="$1" '/^\| Licence \| In/ { inside = 1; next } /^$/ { inside = 0 } inside && !/---/ { print $column }' docs/DEPENDENCIES.md |
        tr -s ', ' '\n' | grep . | sort
}
if [ -n "$folder" ]; then
    in_program=$(crates_of normal,no-proc-macro)
    same 'crates of the program' "$in_program" "$(listed 3)"
    same 'crates of the build' "$(comm -13 <(echo "$in_program") <(crates_of normal,build))" "$(listed 4)"
    grep -q "they are $(crates_of normal,build | wc -l) crates, of which the program holds $(wc -l <<<"$in_program");" docs/DEPENDENCIES.md ||
        { echo 'docs/DEPENDENCIES.md counts otherwise'; exit 1; }
fi

# ---- a made-up machine: $work/installed are the packages, $work/status is how cargo ends, $work/reason what it says offline
mkdir -p "$work/bin" "$work/elsewhere" "$work/a repository/scripts"
cp scripts/{cargo,needed}.sh "$work/a repository/scripts"
cat >"$work/bin/dpkg-query" <<'END'
#!/bin/sh
here=${0%/bin/dpkg-query}
case $1 in
-L) printf '%s\n' /. /usr /a/registry /a/registry/zeroize-1.5.7 /a/registry/zeroize-1.5.7/Cargo.toml /a/registry/zeroize-1.5.7/src/lib.rs ;;
-W)
    shift 3
    for package; do
        if grep -qx "$package" "$here/installed"; then echo "installed $package"; else echo "not-installed $package"; fi
    done
    ;;
esac
END
cat >"$work/bin/cargo" <<'END'
#!/bin/sh
here=${0%/bin/cargo}
case " $* " in
*' --offline'*' --offline '*)
    echo "error: the argument '--offline' cannot be used multiple times" >&2
    exit 1
    ;;
*' tree '*)
    case " $* " in *' --offline '*) ;; *) echo 'cargo asks the network' >>"$here/called" ;; esac
    [ -s "$here/reason" ] || exit 0
    cat "$here/reason" >&2
    exit 101
    ;;
esac
{ pwd; printf '%s\n' "$@"; } >>"$here/called"
exit "$(cat "$here/status")"
END
chmod +x "$work/bin/dpkg-query" "$work/bin/cargo"
: >"$work/reason"
echo 0 >"$work/status"

# Leaves $status, and the files called and said.
call() { # ARGUMENT..
    : >"$work/called"
    status=0
    (cd "$work/elsewhere" && PATH=$work/bin:$PATH "$work/a repository/scripts/cargo.sh" "$@") >"$work/out" 2>"$work/said" || status=$?
}
called() { # ARGUMENT..
    same 'folder and arguments' "$(printf '%s\n' "$work/elsewhere" "$@")" "$(cat "$work/called")"
}
manifest="$work/a repository/rust/Cargo.toml"

# ---- with Debian's packages, and with one of them missing
crate_packages >"$work/installed"
call run --bin bench -- plot 'a file'
same 'status' 0 "$status"
called run --offline --config 'source.crates-io.replace-with="debian"' --config 'source.debian.directory="/a/registry"' \
    --manifest-path "$manifest" --bin bench -- plot 'a file'
for package in $(crate_packages); do
    crate_packages | grep -vx "$package" >"$work/installed"
    call build
    called build --manifest-path "$manifest"
    same "said without $package" '' "$(cat "$work/said")"
done

# ---- failures: cargo's status, and words only where it is for want of the crates
echo 101 >"$work/status"
call test
same 'status of a failed test' 101 "$status"
same 'words of a failed test' '' "$(cat "$work/said")"

lacks() { # REASON
    printf '%s\n' "$1" >"$work/reason"
    call build
    same 'status without crates' 101 "$status"
    grep -qxF "    apt-get install $(crate_packages | tr '\n' ' ' | sed 's/ $//')" "$work/said" ||
        { cat "$work/said"; echo "no packages are named for: $1"; exit 1; }
    grep -q 'public registry' "$work/said" || { echo "no registry is named for: $1"; exit 1; }
    ! grep -q 'asks the network' "$work/called" || { echo 'the reason is asked for over the network'; exit 1; }
}
locked='error: failed to select a version for the requirement `zeroize = "^1"` (locked to 1.6.0)
candidate versions found which didn'\''t match: 1.5.7
location searched: directory source `/a/registry` (which is replacing registry `crates-io`)'
lacks 'error: no matching package named `clap_complete` found
location searched: crates.io index'
lacks 'error: failed to download `zeroize v1.5.7`'
lacks "$locked"
crate_packages >"$work/installed"
lacks 'error: no matching package named `indicatif` found
location searched: directory source `/a/registry` (which is replacing registry `crates-io`)'

printf '%s\n' "$locked" >"$work/reason"
call build
same 'status with other versions' 101 "$status"
lock_is_told() { # WHERE
    grep -q "other crates than $1 has" "$work/said" && grep -q 'remove it' "$work/said" ||
        { cat "$work/said"; echo 'no word what to do about the lock file'; exit 1; }
    ! grep -q 'apt-get' "$work/said" || { echo 'packages are asked for that are there'; exit 1; }
}
lock_is_told /a/registry

echo 'error: checksum for `zeroize v1.5.7` changed between lock files' >"$work/reason"
call build
same 'status with another checksum' 101 "$status"
lock_is_told /a/registry
: >"$work/installed"
call build
lock_is_told 'the registry'
echo 'error: a file is damaged' >"$work/reason"
call build
same 'words about something else' '' "$(cat "$work/said")"

call
same 'status without arguments' 2 "$status"
same 'words without arguments' 'usage: scripts/cargo.sh SUBCOMMAND ARGUMENT..' "$(cat "$work/said")"
echo "cargo.sh: $(wc -l <<<"$needed_crates") crates from Debian or from the registry, and words where they cannot be had"
