#!/usr/bin/env bash
# Builds the command line program and derives a first key with it. With arguments the program gets those instead. The
# exit status is the program's; a build that fails has 2, as everything that goes wrong, since 1 would mean "no".
set -eu
root=$(cd "$(dirname "$0")/.." && pwd)
. "$root/scripts/build.sh"
build_library
build_program

if [ $# -gt 0 ]; then
    "$program" "$@"
else
    # A matrix of 6 MiB; the salt is 0123456789abcdef in ASCII.
    printf 'correct horse battery staple' |
        "$program" derive --salt 30313233343536373839616263646566 --time 1 --rows 1024 --columns 64 --key-length 32
fi
