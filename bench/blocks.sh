#!/usr/bin/env bash
# Times cs_block::decode against plain C++ on the same blocks. Run it by hand after `rt run` in crates/timed:
#
#     bench/blocks.sh [FOLDER]
#
# FOLDER (/tmp/timed_blocks) takes the C++ program. It needs python3 and g++. Both programs make their blocks from one
# linear generator, and must print one number. A pass is the processor time of N + 1 passes without that of one, by N;
# of nine such measurements the middle one is shown. The C++ is run in three forms: row by row with the five rules, row
# by row with none, and column by column with none.
case "$#${1:-}" in 0 | 1[!-]*) ;; *) echo "usage: bench/blocks.sh [FOLDER]" >&2; exit 2 ;; esac
. "$(dirname "$0")/beside.sh" blocks "${1:-}"

cat > blocks.cpp <<'CPP'
#include "columns.h"

struct Head { u32 lo, words, rows, len; bool facet; };
struct Broken { u32 n, at; };

// ---- the block
static void put_gap(vector<u8> &out, u32 n) {
    while (n >= 128) { out.push_back(n % 128 + 128); n /= 128; }
    out.push_back(n);
}
static vector<u8> block(u32 rows, u32 stride, Head &head, u32 &docs) {
    vector<u8> bytes, locals, places, scores;
    const u32 words = std::clamp(rows, 1u, 200u);
    u64 x = 1;
    u32 doc = 0, pos = 0;
    for (u32 i = 0; i < rows; i++) {
        const u32 n = next(x), gap = (n % 4 ? n % 4 - 1 : 0) * stride;
        doc += gap;
        pos = (gap ? 0 : pos) + 1 + n / 4 % 16;
        const u32 local = n / 64 % words;
        put_gap(bytes, gap);
        for (int b = 8; b >= 0; b -= 8) locals.push_back(local >> b);
        for (int b = 24; b >= 0; b -= 8) places.push_back(pos >> b);
        scores.push_back(n % 8 == 0 ? 4 : 1);
    }
    for (auto *v : {&locals, &places, &scores}) bytes.insert(bytes.end(), v->begin(), v->end());
    head = {1000, words, rows, u32(bytes.size()), false};
    docs = doc + 1;
    return bytes;
}

// ---- a gap code: false where none stands
static inline bool next_gap(const u8 *&p, const u8 *end, u32 &n) {
    if (p < end && *p < 128) { n = *p++; return true; }
    u64 sum = 0;
    for (int i = 0; i < 5 && p + i < end; i++) {
        const u8 b = p[i];
        sum |= u64(b % 128) << (7 * i);
        if (b < 128) {
            if ((b == 0 && i > 0) || sum >> 32) return false;
            n = sum;
            p += i + 1;
            return true;
        }
    }
    return false;
}
static inline u32 be16(const u8 *p) { return p[0] << 8 | p[1]; }
static inline u32 be32(const u8 *p) { return u32(p[0]) << 24 | p[1] << 16 | p[2] << 8 | p[3]; }

// ---- the five rules in one pass: the first place of each, then the first rule
static Broken decode(const vector<u8> &bytes, const Head &h, u32 docs, Cols &into) {
    const u32 none = UINT32_MAX, words_at = h.len - 7 * h.rows, places_at = words_at + 2 * h.rows;
    const u8 *begin = bytes.data(), *p = begin, *end = begin + words_at;
    const u8 *words = end, *places = begin + places_at, *scores = places + 4 * h.rows;
    const size_t first = into.size();
    into.reserve(first + h.rows);
    u32 bad_doc = none, bad_word = none, bad_score = none, bad_order = none;
    u64 doc = 0;
    u32 last_pos = 0, last_word = 0;
    for (u32 i = 0; i < h.rows; i++) {
        const u32 at = p - begin;
        u32 n;
        if (!next_gap(p, end, n)) { into.resize(first); return {13, at}; }
        doc += n;
        const u32 local = be16(words + 2 * i), word = h.lo + local, pos = be32(places + 4 * i);
        const u8 score = scores[i];
        if (doc >= docs && bad_doc == none) bad_doc = at;
        if (local >= h.words && bad_word == none) bad_word = words_at + 2 * i;
        const bool scored = h.facet ? pos == 0 && score == 2 : pos >= 1 && pos <= 100008 && (score == 4 || score == 1);
        if (!scored && bad_score == none) bad_score = places_at + 4 * i;
        const bool after = i == 0 || n > 0 || pos > last_pos || (pos == last_pos && word > last_word);
        if (!after && bad_order == none) bad_order = at;
        into.push(doc, word, pos, score);
        last_pos = pos;
        last_word = word;
    }
    Broken broken{0, 0};
    if (p != end) broken = {13, u32(p - begin)};
    else if (bad_doc != none) broken = {14, bad_doc};
    else if (bad_word != none) broken = {15, bad_word};
    else if (bad_score != none) broken = {16, bad_score};
    else if (bad_order != none) broken = {17, bad_order};
    if (broken.n) into.resize(first);
    return broken;
}

// ---- no rule
static inline u32 known_gap(const u8 *&p) {
    u32 n = *p++;
    if (n >= 128) {
        n -= 128;
        for (int shift = 7;; shift += 7) {
            const u32 b = *p++;
            n |= b % 128 << shift;
            if (b < 128) break;
        }
    }
    return n;
}
static void decode_unchecked(const vector<u8> &bytes, const Head &h, Cols &into) {
    const u8 *p = bytes.data(), *words = p + h.len - 7 * h.rows, *places = words + 2 * h.rows, *scores = places + 4 * h.rows;
    into.reserve(into.size() + h.rows);
    u32 doc = 0;
    for (u32 i = 0; i < h.rows; i++) {
        doc += known_gap(p);
        into.push(doc, h.lo + be16(words + 2 * i), be32(places + 4 * i), scores[i]);
    }
}

// ---- no rule, column by column
static void decode_columns(const vector<u8> &bytes, const Head &h, Cols &into) {
    const u8 *p = bytes.data(), *words = p + h.len - 7 * h.rows, *places = words + 2 * h.rows, *scores = places + 4 * h.rows;
    const size_t first = into.size();
    into.resize(first + h.rows);
    u32 *docs = into.docs.data() + first, *numbers = into.words.data() + first, *positions = into.places.data() + first;
    u32 doc = 0;
    for (u32 i = 0; i < h.rows; i++) {
        doc += known_gap(p);
        docs[i] = doc;
    }
    for (u32 i = 0; i < h.rows; i++) numbers[i] = h.lo + be16(words + 2 * i);
    for (u32 i = 0; i < h.rows; i++) positions[i] = be32(places + 4 * i);
    std::copy(scores, scores + h.rows, into.scores.begin() + first);
}

int main(int, char **v) {
    const std::string form = v[1];
    const u32 times = atoi(v[2]), rows = atoi(v[3]), stride = atoi(v[4]);
    Head head;
    u32 docs;
    const vector<u8> bytes = block(rows, stride, head, docs);
    Cols into;
    u64 sum = 0;
    for (u32 t = 0; t < times; t++) {
        into.resize(0);
        if (form == "rules") { if (decode(bytes, head, docs, into).n) return 1; }
        else if (form == "columns") decode_columns(bytes, head, into);
        else decode_unchecked(bytes, head, into);
        const size_t last = into.size() - 1;
        sum += into.size() + into.docs[last] + into.words[last] + into.places[last];
    }
    printf("%llu %u\n", (unsigned long long)sum, head.len);
}
CPP

compare <<'PY'
import sys
from passes import pass_of, run
ours, plain = sys.argv[1:]

print('nanoseconds a row; behind them how many times those of C++')
print(f'{"rows":>8} {"stride":>8} {"bytes":>8} {"decode":>9} {"rules":>9} {"rows":>9} {"columns":>9} {"rules":>6} {"rows":>6} {"columns":>7}')
for rows, stride, n in ((8192, 1, 8000), (8192, 100, 8000), (8192, 170, 8000), (64, 1, 800000)):
    programs = ((ours, 'decode'), (plain, 'rules'), (plain, 'rows'), (plain, 'columns'))
    times = ([], [], [], [])
    for _ in range(9):
        outs = []
        for k, (program, form) in enumerate(programs):
            a, more, t = pass_of(program, form, rows, stride, n)
            outs.append((a[0], more[0]))
            times[k].append(t)
        assert outs[0] == outs[1] == outs[2] == outs[3], (rows, stride, outs)
    bytes_ = run(plain, 'rules', rows, stride, 1)[0][1]
    mine, *theirs = (sorted(t)[4] * 1e9 / rows for t in times)
    all_times = ' '.join(f'{t:9.2f}' for t in (mine, *theirs))
    print(f'{rows:8} {stride:8} {bytes_:>8} {all_times} ' + ' '.join(f'{mine / t:6.2f}' for t in theirs), flush=True)
PY
