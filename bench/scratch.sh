# A scratch folder for the scripts beside this one, which source it: copies of some crates, and room
# for a program `timing` over them. It is removed when the script ends.
top=$(cd "$(dirname "$0")/.." && pwd)
scratch=$(mktemp -d)
trap 'rm -rf "$scratch"' EXIT
mkdir -p "$scratch/crates/timing/src"

# Copies crates: `with_crates USES CRATE..`, where the program stands on USES.
with_crates() {
    uses=$1
    shift
    for crate in "$@"; do
        mkdir -p "$scratch/crates/$crate"
        for part in src specs proofs; do
            if [ -d "$top/crates/$crate/$part" ]; then
                cp -R "$top/crates/$crate/$part" "$scratch/crates/$crate/"
            fi
        done
        grep "^$crate:" "$top/crates.txt" >>"$scratch/crates.txt"
    done
    printf 'timing: %s\n' "$uses" >>"$scratch/crates.txt"
}
