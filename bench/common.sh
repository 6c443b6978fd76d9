# What the scripts beside this one begin with; they source it.
set -e
top=$(cd "$(dirname "$0")/.." && pwd)

# Makes a new folder $work under TMPDIR, which goes when the script ends: a copy of the crates, and
# room for one more, a program of this name that stands on these crates.
prepare() {
    work=$(mktemp -d "${TMPDIR:-/tmp}/$1.XXXXXX")
    trap 'rm -rf "$work"' EXIT
    for crate in "$top"/crates/*; do
        mkdir -p "$work/crates/$(basename "$crate")"
        for part in src specs proofs; do
            if [ -d "$crate/$part" ]; then cp -r "$crate/$part" "$work/crates/$(basename "$crate")/"; fi
        done
    done
    mkdir -p "$work/crates/$1/src"
    cp "$top/crates.txt" "$work/crates.txt"
    echo "$1: $2" >> "$work/crates.txt"
}
