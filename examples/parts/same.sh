#!/usr/bin/env bash
# Builds a collection whole, then in 1, 2 and 4 parts side by side, by parts.sh and by the Makefile; says how long each took, and
# that all made the same file.
#
#     same.sh [PROGRAM [COLLECTION]]
#
# PROGRAM is `complete` at the top of the repository, and COLLECTION the papers beside, where they are left out.
set -eu

here=$(dirname "$(readlink -f "$0")")
program=$(readlink -f "${1:-$here/../../complete}")
collection=$(readlink -f "${2:-$here/../papers.tsv}")
made=$(mktemp -d)
trap 'rm -rf "$made"' EXIT
cd "$made"

# What a command took, of the clock and of the processors; then whether it made the same file as the first one.
taken() {
    name=$1
    index=$2
    shift 2
    TIMEFORMAT="$name: %R s, processor %U s"
    time "$@" > "$made/said"
    cmp "$index" "$made/whole"
}

taken "whole" whole "$program" build "$collection" whole
for parts in 1 2 4; do
    export JOBS=$parts
    taken "$parts by parts.sh" "index$parts" "$here/parts.sh" "$collection" "index$parts" "$parts" "$program"
    taken "$parts by make" "parts$parts/all.index" \
        make -f "$here/Makefile" -j "$parts" COLLECTION="$collection" FOLDER="parts$parts" PARTS="$parts" PROGRAM="$program"
done
echo "the same file each time: $(wc -c < whole) bytes"
