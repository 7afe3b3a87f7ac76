#!/usr/bin/env bash
# Times `words` of cs_text against independent programs, on 20 MB of ASCII prose and 20 MB of accented,
# Greek and Cyrillic text. Run it by hand after `rt run` in crates/timed:
#
#     bench/words.sh [FOLDER]
#
# FOLDER (/tmp/timed_words) takes the inputs and the programs. It needs python3, g++, libicu-dev and /usr/bin/time.
# Each program is run for 1 and for 6 passes over the file; a pass is a fifth of the difference, in processor time.
set -eu
case "$#${1:-}" in 0 | 1[!-]*) ;; *) echo "usage: bench/words.sh [FOLDER]" >&2; exit 2 ;; esac
here=$(cd "$(dirname "$0")/.." && pwd)
dir=${1:-/tmp/timed_words}
mkdir -p "$dir"
cd "$dir"

python3 - <<'PY'
import os, random
random.seed(7)
lengths = [1, 2, 3, 3, 4, 4, 5, 5, 6, 7, 8, 9, 11]
ascii_words = [''.join(random.choice('etaoinshrdlucmfwypvbgkjqxz') for _ in range(random.choice(lengths))) for _ in range(20000)]
latin = 'aàâäbcçdeéèêëfghiîïjklmnñoôöpqrstuùûüvwxyzß'
greek = 'αάβγδεέζηήθιίκλμνξοόπρσςτυύφχψωώ'
cyrillic = 'абвгдеёжзийклмнопрстуфхцчшщъыьэюя'
def made(letters):
    return ''.join(random.choice(letters) for _ in range(random.choice([2, 3, 4, 5, 5, 6, 7, 8, 10])))
other_words = [made(letters) for letters in (latin, greek, cyrillic) for _ in range(8000)]
def prose(words, size):
    out, length = [], 0
    while length < size:
        w = random.choice(words)
        r = random.random()
        w = w.capitalize() if r < 0.12 else w.upper() if r < 0.14 else w
        end = ', ' if r > 0.93 else '.\n' if r > 0.86 else ' '
        out.append(w + end)
        length += len((w + end).encode())
    return ''.join(out)
for name, words in (('ascii.txt', ascii_words), ('other.txt', other_words)):
    if not os.path.exists(name):
        open(name, 'w', encoding='utf-8').write(prose(words, 20_000_000))
PY

# a plain loop that lower-cases and splits bytes; `copy` keeps each word as a string of its own, as `words` does
cat > plain.cpp <<'CPP'
#include <cstdio>
#include <cstdlib>
#include <cstring>
#include <string>
#include <string_view>
#include <vector>
#include <fstream>
#include <sstream>
static bool part(unsigned char c) { return (c >= 'a' && c <= 'z') || (c >= '0' && c <= '9') || (c >= 'A' && c <= 'Z'); }
struct Word { char *at; size_t len; };
int main(int, char **v) {
    std::ifstream in(v[3], std::ios::binary);
    std::stringstream all; all << in.rdbuf();
    const std::string text = all.str();
    all.str("");
    const bool copy = !strcmp(v[1], "copies");
    size_t count = 0;
    for (int t = atoi(v[2]); t > 0; t--) {
        std::string low(text);
        for (char &c : low) if (c >= 'A' && c <= 'Z') c += 32;
        std::vector<Word> words;
        const char *s = low.data(), *end = s + low.size();
        while (s < end) {
            while (s < end && !part(*s)) s++;
            const char *from = s;
            while (s < end && part(*s)) s++;
            if (s == from) continue;
            size_t len = s - from > 120 ? 120 : s - from;
            char *at = const_cast<char *>(from);
            if (copy) { at = static_cast<char *>(malloc(len)); memcpy(at, from, len); }
            words.push_back({at, len});
        }
        count = words.size();
        if (copy) for (auto &w : words) free(w.at);
    }
    printf("%zu\n", count);
}
CPP

# the same words by ICU: NFD, full case folding, NFD, then runs of the groups L, M and N
cat > icu.cpp <<'CPP'
#include <cstdio>
#include <cstdlib>
#include <fstream>
#include <sstream>
#include <string>
#include <vector>
#include <unicode/normalizer2.h>
#include <unicode/uchar.h>
#include <unicode/unistr.h>
#include <unicode/utf8.h>
using namespace icu;
static bool part(UChar32 c) {
    if (c < 0x80) return (c >= 'a' && c <= 'z') || (c >= '0' && c <= '9') || (c >= 'A' && c <= 'Z');
    return (U_GET_GC_MASK(c) & (U_GC_L_MASK | U_GC_M_MASK | U_GC_N_MASK)) != 0;
}
int main(int, char **v) {
    std::ifstream in(v[3], std::ios::binary);
    std::stringstream all; all << in.rdbuf();
    const std::string text = all.str();
    all.str("");
    UErrorCode e = U_ZERO_ERROR;
    const Normalizer2 *nfd = Normalizer2::getNFDInstance(e);
    size_t count = 0;
    for (int t = atoi(v[2]); t > 0; t--) {
        UnicodeString s = UnicodeString::fromUTF8(text);
        s = nfd->normalize(s, e);
        s.foldCase();
        s = nfd->normalize(s, e);
        std::string key;
        s.toUTF8String(key);
        std::vector<std::string> words;
        const int32_t len = key.size();
        int32_t i = 0, from = 0, end = 0;
        auto finish = [&] { if (end > from) words.emplace_back(key, from, end - from); };
        bool full = false;
        while (i < len) {
            const int32_t at = i;
            UChar32 c;
            U8_NEXT(key.data(), i, len, c);
            if (part(c)) {
                if (end == from && !full) { from = at; end = at; }
                if (!full && i - from <= 120) end = i; else full = true;
            } else {
                finish();
                from = end = i;
                full = false;
            }
        }
        finish();
        count = words.size();
    }
    printf("%zu\n", count);
}
CPP
g++ -O2 -o plain plain.cpp
g++ -O2 -o icu icu.cpp -licuuc
ours=$here/crates/timed/out/timed

timed() { # NAME FILE PROGRAM WHAT
    local name=$1 file=$2; shift 2
    /usr/bin/time -f '%U %S' -o one "$@" 1 "$file" > count
    /usr/bin/time -f '%U %S' -o six "$@" 6 "$file" > /dev/null
    /usr/bin/time -f '%M' -o peak "$@" 1 "$file" > /dev/null
    python3 - "$name" "$file" "$(cat one)" "$(cat six)" "$(cat peak)" "$(cat count)" <<'PY'
import os, sys
name, file, one, six, peak, count = sys.argv[1:]
size = os.path.getsize(file)
one, six = (sum(map(float, t.split())) for t in (one, six))
each = (six - one) / 5
print(f'{file:10} {name:28} {int(count):9} words {each * 1000:8.0f} ms {size / each / 1e6:8.0f} MB/s {int(peak) / 1024:7.0f} MiB')
PY
}
for round in 1 2 3; do
    timed 'words' ascii.txt "$ours" words
    timed 'C++, slices of one copy' ascii.txt ./plain slices
    timed 'C++, each word copied' ascii.txt ./plain copies
    timed 'words' other.txt "$ours" words
    timed 'ICU' other.txt ./icu words
done
