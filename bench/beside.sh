# The program of crates/timed beside plain C++: what blocks.sh and columns.sh share. Each takes it in with its name and its
# folder, /tmp/timed_NAME where it was given none, writes NAME.cpp there, and compares.
set -eu
here=$(cd "$(dirname "$0")/.." && pwd)
name=$1
dir=${2:-/tmp/timed_$name}
mkdir -p "$dir"
cd "$dir"

# Compiles NAME.cpp, and runs the Python program on standard input with both programs as its words.
compare() {
    g++ -O2 -std=c++17 -I "$here/bench" -o "$name" "$name.cpp"
    PYTHONPATH="$here/bench" python3 -B - "$here/crates/timed/out/timed" "./$name"
}
