# For the scripts beside it: the texts of all crates in a folder of their own, where a crate more can stand on them.

# copied_crates: makes the folder, and prints its name
copied_crates() {
    local folder crate part
    folder=$(mktemp -d)
    for crate in crates/*/; do
        mkdir -p "$folder/$crate"
        for part in src specs proofs; do
            if [ -d "$crate$part" ]; then
                cp -r "$crate$part" "$folder/$crate"
            fi
        done
    done
    cp crates.txt "$folder"
    echo "$folder"
}

# libraries_over CRATE: the crate, and all that it stands on
libraries_over() {
    echo "$1 $(grep "^$1:" crates.txt | cut -d: -f2)"
}
