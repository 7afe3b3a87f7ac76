#!/bin/sh
# Builds the index file of a collection in parts, side by side, and merges these two by two.
#
#     parts.sh COLLECTION INDEX [PARTS [PROGRAM]]
#
# PARTS is 1, 2, 4, 8 and so on, and 4 where it is left out. PROGRAM is `complete`, where none is given. As many run at once as
# there are processors, or as JOBS says. Parts and their index files stand in INDEX.parts until the end; where something failed
# they stay, and a line that is refused is numbered in its part, whose first line gives the weights.
#
# INDEX is the file that PROGRAM makes of the whole collection, byte for byte.
set -eu

here=$(dirname "$(readlink -f "$0")")
collection=$1
index=$2
parts=${3:-4}
program=$(readlink -f "$(command -v "${4:-complete}")")
jobs=${JOBS:-$(nproc)}

mkdir "$index.parts"
"$here/cut.py" "$collection" "$index.parts" "$parts"
cd "$index.parts"

# Runs the program once for each name that is read, many at once; % in the words behind is the name.
each() {
    xargs -P "$jobs" -I% sh -c '"$0" "$@" || { echo "parts.sh: $0 $*" >&2; exit 255; }' "$program" "$@"
}

nodes=$(ls | sed 's/\.tsv$//')
echo "$nodes" | each build %.tsv %.index
while [ "$nodes" != all ]; do
    nodes=$(echo "$nodes" | sed 's/.$//' | uniq)
    echo "$nodes" | each merge %0.index %1.index %.index
done

cd "$OLDPWD"
mv -T "$index.parts/all.index" "$index"
rm -r "$index.parts"
