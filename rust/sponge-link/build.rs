//! Links the static library that `scripts/library.sh sponge_export` makes.

fn main() {
    link_staticlib::link("sponge_export");
}
