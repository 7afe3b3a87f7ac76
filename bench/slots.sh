#!/usr/bin/env bash
# Times reading a collection whose words were all chosen to share one slot, while a vocabulary is gathered, beside one
# whose words were not. Run it by hand after `rt run` in crates/timed:
#
#     bench/slots.sh [FOLDER [PROGRAM]]
#
# FOLDER (/tmp/timed_slots) takes both collections: each has the most documents and bytes that are accepted, 2^20 lines
# of 2^8 bytes with 15 words of 16 letters, drawn from 591,029. PROGRAM is another build of `timed`, to be timed beside.
# It needs g++ and /usr/bin/time. Times are processor seconds of a whole process that reads the collection once.
set -eu
case "$#${1:-}" in 0 | [12][!-]*) ;; *) echo "usage: bench/slots.sh [FOLDER [PROGRAM]]" >&2; exit 2 ;; esac
here=$(cd "$(dirname "$0")/.." && pwd)
dir=${1:-/tmp/timed_slots}
other=${2:-}
mkdir -p "$dir"
cd "$dir"

cat >drawn.cpp <<'CPP'
#include <algorithm>
#include <cstdint>
#include <cstdio>
#include <cstring>
#include <random>
#include <set>
#include <string>
#include <vector>
using std::string;
using std::vector;
using u32 = uint32_t;
using u64 = uint64_t;
const u64 golden = 0x9e3779b97f4a7c15;
const u32 words_n = 591029, slot = 0x12345;
const char *begun = "chosen";
static u64 eight_at(const string &w, size_t at) { u64 n; memcpy(&n, w.data() + at, 8); return n; }
static u64 turned(u64 n) { return n << 4 | n >> 60; }
// the number that `cs_vocab` has for a word of 16 bytes
static u32 hash(const string &w) { return ((eight_at(w, 0) ^ turned(eight_at(w, 8)) ^ (u64)16 << 24) * golden) >> 32; }

// words of 16 letters whose hash has these upper 20 bits: of one that has them come 2^16 in all, as bit 4 of a letter
// and bit 0 of the one that is mixed with it may be turned together. Letters are b to i and r to y, and stay so
static vector<string> chosen() {
    std::mt19937 any(7);
    std::set<string> found;
    while (found.size() < words_n) {
        string w;
        for (int k = 0; k < 16; k++) w += (any() % 2 ? 'r' : 'b') + any() % 8;
        if (hash(w) >> 12 != slot) continue;
        for (u32 turns = 0; turns < 1u << 16 && found.size() < words_n; turns++) {
            string v = w;
            for (int k = 0; k < 8; k++) {
                if (turns >> k & 1) { v[k] ^= 16; v[8 + k] ^= 1; }
                if (turns >> (8 + k) & 1) { v[8 + k] ^= 16; v[(k + 1) % 8] ^= 1; }
            }
            found.insert(v);
        }
    }
    return vector<string>(found.begin(), found.end());
}
static vector<string> by_chance() {
    std::mt19937 any(7);
    std::set<string> found;
    while (found.size() < words_n) { string w = begun; for (int k = 0; k < 10; k++) w += 'a' + any() % 26; found.insert(w); }
    return vector<string>(found.begin(), found.end());
}
int main(int, char **v) {
    vector<string> words = string(v[1]) == "chosen" ? chosen() : by_chance();
    u32 slots = 0;
    for (const string &w : words) slots += hash(w) >> 12 == slot;
    fprintf(stderr, "%zu words, %u of them in one slot\n", words.size(), slots);
    std::mt19937 any(11);
    std::shuffle(words.begin(), words.end(), any);
    for (u32 d = 0; d < 1u << 20; d++) {
        for (u32 k = 0; k < 15; k++) {
            // each word is met
            const u32 n = d * 15 + k < words_n ? d * 15 + k : any() % words_n;
            fputs(words[n].c_str(), stdout);
            fputs(k == 0 ? "\t\t" : k < 14 ? " " : "\n", stdout);
        }
    }
}
CPP
g++ -O2 -std=c++17 -o drawn drawn.cpp
[ -s chosen.txt ] || ./drawn chosen >chosen.txt
[ -s chance.txt ] || ./drawn chance >chance.txt

timed() { # NAME PROGRAM FILE
    /usr/bin/time -f '%U %S %M' -o used "$2" collection 1 "$3" >told
    awk -v name="$1" -v told="$(cat told)" '{printf "%-32s %6.1f s, peak %5.0f MiB (%s)\n", name, $1 + $2, $3 / 1024, told}' used
}
for round in 1 2 3; do
    for words in chance chosen; do
        timed "words $words" "$here/crates/timed/out/timed" $words.txt
        if [ -n "$other" ]; then timed "words $words, other program" "$other" $words.txt; fi
    done
done
