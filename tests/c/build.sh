# What the scripts that test the C interface share: how its programs are built, and libraries with a fault.
# To be sourced at the root of the repository; leaves the folder $work for the objects and programs.

library=target/staticlib/libderivation_export.a
[ -e "$library" ] || { echo "$library is missing: run 'scripts/library.sh derivation_export' first"; exit 1; }
work=$(mktemp -d)
trap 'rm -rf "$work"' EXIT
flags=(-std=c99 -O2 -Wall -Wextra -pedantic -Werror -Iinclude)
wrapped=-Wl$(printf ',--wrap=lyra2_%s' derive derive_recorded check cost choose walk record_pair line_read line_write \
    book_{find,add,remove,check,account} lanes_{derive,check,cost})

same() { # WHAT EXPECTED FOUND
    [ "$2" = "$3" ] || { echo "$1: expected '$2', found '$3'"; exit 1; }
}

# Compiles sources of tests/c to objects.
compile() { # NAME..
    local name
    for name in "$@"; do
        cc "${flags[@]}" -c "tests/c/$name.c" -o "$work/$name.o"
    done
}

# Compiles the faulty library to the objects `faulty`; `wrapped` is for the linker. Each source has one or two hundreds of the
# numbers, and is as good as without a fault for all others.
compile_fault() { # FAULT
    local hundreds=(faulty faulty_lines faulty_settings faulty_settings faulty_records faulty_choices faulty_rule
        faulty_books faulty_accounts faulty_book_checks faulty_lane_keys faulty_lane_checks faulty_lane_checks
        faulty_lanes faulty_lanes)
    local source own object
    faulty=()
    for source in faulty faulty_lines faulty_settings faulty_records faulty_choices faulty_rule faulty_books faulty_accounts \
        faulty_book_checks faulty_lane_keys faulty_lane_checks faulty_lanes; do
        own=0
        [ "$source" != "${hundreds[$1 / 100]}" ] || own=$1
        object=$work/${source}_$own.o
        [ -e "$object" ] || cc "${flags[@]}" -DFAULT="$own" -c "tests/c/$source.c" -o "$object" || exit 1
        faulty+=("$object")
    done
}
