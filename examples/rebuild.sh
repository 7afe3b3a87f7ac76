#!/bin/sh
# Builds an index, and the addresses of its documents, in a folder of its own.
#
#     rebuild.sh [--add] ROOT COLLECT [PROGRAM]
#
# COLLECT is a program of yours, as collect.py is one, named by a path, as ./collect. It is given a folder and leaves files in it:
# collection.tsv, and addresses.txt, which has a line for each document, in their order; it is empty where a document has no
# address. It may leave texts.txt too, which has for each what is shown under its title. PROGRAM is `complete`, where none is given.
#
# With --add these are further documents, and are put behind those of the build before, which keep their numbers. Index and lists
# have all of them then, and collection.tsv the further ones alone.
#
# The folder becomes ROOT/builds/TIME, with the index file in it as `index`, and ROOT/next becomes a link to it. Nothing that
# is served changes until that link is renamed to ROOT/current: by mv -T, between the end of the servers and their start.
set -eu

add=
if [ "${1:-}" = --add ]; then
    add=yes
    shift
fi
if [ $# -lt 2 ] || [ $# -gt 3 ]; then
    echo "usage: rebuild.sh [--add] ROOT COLLECT [PROGRAM]" >&2
    exit 2
fi
root=$1
collect=$2
program=${3:-complete}

mkdir -p "$root/builds"
making=$(mktemp -d "$root/builds/making-XXXXXX")
trap 'rm -rf "$making"' EXIT

"$collect" "$making"
"$program" build "$making/collection.tsv" "$making/index"

if [ -n "$add" ]; then
    before=$root/next
    [ -e "$before" ] || before=$root/current
    "$program" merge "$before/index" "$making/index" "$making/index"
    for list in addresses.txt texts.txt; do
        if [ -e "$before/$list" ]; then
            awk 1 "$before/$list" "$making/$list" > "$making/both"
            mv "$making/both" "$making/$list"
        fi
    done
fi

# Every document is a hit of the empty query. The line of weights is no document, nor is a line without bytes.
documents=$(echo 'q=&h=0&c=0' | "$program" replay "$making/index" /dev/stdin | sed 's/.*"hits":\([0-9]*\)}}$/\1/')
if [ "$documents" = 0 ]; then
    echo "rebuild.sh: no document" >&2
    exit 1
fi
for list in addresses.txt texts.txt; do
    [ "$list" = addresses.txt ] || [ -e "$making/$list" ] || continue
    lines=$(grep -c '' "$making/$list" || true)
    if [ "$documents" != "$lines" ]; then
        echo "rebuild.sh: $documents documents, and $lines lines in $list" >&2
        exit 1
    fi
done

build=$(date -u +%Y%m%dT%H%M%SZ)
if [ -e "$root/builds/$build" ]; then
    echo "rebuild.sh: another build took this second" >&2
    exit 1
fi
chmod 755 "$making"
mv "$making" "$root/builds/$build"
ln -sfn "builds/$build" "$root/next"

# Builds of more than a week ago go, but for the one that is served. One that can't be removed is no reason to serve the older one.
current=$(readlink "$root/current" || true)
find "$root/builds" -mindepth 1 -maxdepth 1 -mtime +7 ! -name "${current##*/}" -exec rm -r {} + || echo "rebuild.sh: an old build stays" >&2
