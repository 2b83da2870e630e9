# shellcheck shell=bash
# What the machine has to have besides the Rattle kit and cargo, by the names of Debian's packages. To be sourced; this is
# the one list of them, and docs/DEPENDENCIES.md says what each is for.

# The Rust crates from elsewhere, each with its package. clap_derive comes with clap, and in Debian as a package of its own.
needed_crates='zeroize librust-zeroize-dev
rpassword librust-rpassword-dev
clap librust-clap-dev
clap_derive librust-clap-derive-dev
clap_complete librust-clap-complete-dev
indicatif librust-indicatif-dev
ctrlc librust-ctrlc-dev
rustix librust-rustix-dev'

# The commands that the tests use, each with its package.
needed_commands='b2sum coreutils
cc gcc
g++ g++
groff groff-base
pkg-config pkgconf
python3 python3
script bsdutils
valgrind valgrind'

# The packages of the crates, one to a line.
crate_packages() {
    sed 's/^.* //' <<<"$needed_crates"
}

# Those of them that are not installed: all, where there is no dpkg.
missing_crate_packages() {
    local package installed
    # The packages are words of their own.
    # shellcheck disable=SC2046
    installed=$(dpkg-query -W -f '${db:Status-Status} ${Package}\n' $(crate_packages) 2>/dev/null | sed -n 's/^installed //p')
    for package in $(crate_packages); do
        grep -qxF "$package" <<<"$installed" || echo "$package"
    done
}

# The packages of the commands that are not there.
missing_command_packages() {
    local command package
    while read -r command package; do
        command -v "$command" >/dev/null 2>&1 || echo "$package"
    done <<<"$needed_commands"
}

# The folder in which Debian's packages lay out the crates, as cargo takes them. Nothing if one of the packages is missing.
crates_folder() {
    [ -z "$(missing_crate_packages)" ] || return 0
    dpkg-query -L librust-zeroize-dev | sed -n 's|/zeroize-[^/]*/Cargo\.toml$||p'
}

# What a machine without the crates needs, in words.
say_crates_needed() {
    echo 'The Rust crates of docs/DEPENDENCIES.md cannot be had. In Debian 12 they are packages, which root installs with'
    echo "    apt-get install $(crate_packages | tr '\n' ' ' | sed 's/ $//')"
    echo 'Elsewhere cargo takes them from the public registry, crates.io, which it has to reach for the first build.'
}
