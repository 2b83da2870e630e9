//! Links the static library that `scripts/library.sh derivation_export` makes.

fn main() {
    link_staticlib::link("derivation_export");
}
