#!/bin/sh
# Gives random pairs of journals, whole, shorter, grouped otherwise, grown, exchanged and damaged, to the built program and to the plain
# one of plain/, at `serve --twin` and at `restore`, and compares what each sent, said and ended with, and both files that it left, byte
# for byte. Ends with 1 if anything differs, and names the seed. Build the program first: demo/run.sh does. The plain one is built here,
# with cargo.
#
#   bench/twin_files.sh [ROUNDS [SEED]]        500 rounds if none is given
. "$(dirname "$0")/in_memory.sh"
. "$(dirname "$0")/setup.sh"
build_plain
python3 "$here/twin_files.py" "$program" "$plain" "${1:-500}" "${2:-1}"
