# Read by the scripts beside it before setup.sh: has their folder in memory, where a sync is free, and can build the plain program.
[ -d /dev/shm ] && export TMPDIR=/dev/shm
here=$(cd "$(dirname "$0")" && pwd)

# Builds the program of plain/ with cargo, for tables of so many rows at most, or of 4,096, and sets `plain` to its path.
build_plain() {
    built=${CARGO_TARGET_DIR:-$here/plain/target}/${1:-4096}
    PLAIN_ROWS=${1:-4096} cargo build --quiet --release --offline --manifest-path "$here/plain/Cargo.toml" --target-dir "$built" || exit 1
    plain=$built/release/plain
}
