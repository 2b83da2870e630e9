#!/usr/bin/env bash
# Runs cargo on the Rust packages, rust/Cargo.toml, from any folder. Where Debian's packages of the crates are installed,
# the crates come from there and nothing is fetched; elsewhere cargo gets them in its own ways, from the public registry.
# The exit status is cargo's.
set -eu
root=$(cd "$(dirname "$0")/.." && pwd)
. "$root/scripts/needed.sh"
manifest=$root/rust/Cargo.toml

[ $# -gt 0 ] || { echo 'usage: scripts/cargo.sh SUBCOMMAND ARGUMENT..' >&2; exit 2; }
command -v cargo >/dev/null 2>&1 || { echo 'cargo is missing' >&2; exit 2; }

folder=$(crates_folder)
from=()
[ -z "$folder" ] ||
    from=(--offline --config 'source.crates-io.replace-with="debian"' --config "source.debian.directory=\"$folder\"")

status=0
# After the subcommand, since one that is a program of its own, as clippy is, gets only what follows it.
cargo "$1" "${from[@]}" --manifest-path "$manifest" "${@:2}" || status=$?
[ "$status" -ne 0 ] || exit 0

# Whether it failed for want of the crates is asked apart, without the network, so that cargo itself keeps the terminal.
[ -n "$folder" ] || from=(--offline)
reason=$(cargo tree "${from[@]}" --manifest-path "$manifest" 2>&1 >/dev/null </dev/null) && exit "$status"
case $folder:$reason in
/*'(locked to '* | *'changed between lock files'*)
    {
        echo "rust/Cargo.lock was written for other crates than ${folder:-the registry} has now. It is of this machine alone and not part of the"
        echo 'repository: remove it, and cargo writes it anew.'
    } >&2
    ;;
*'no matching package'* | *'failed to get '* | *'failed to download'* | *'failed to load source'* | *'failed to select a version'*)
    say_crates_needed >&2
    ;;
esac
exit "$status"
