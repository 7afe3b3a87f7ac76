#!/usr/bin/env bash
# Times the calls on columns of cs_meet, cs_rank and cs_tables against plain C++ on the same posts. Run it by hand
# after `rt run` in crates/timed:
#
#     bench/columns.sh [FOLDER]
#
# FOLDER (/tmp/timed_columns) takes the C++ program. It needs python3 and g++. Both programs make their posts from one
# linear generator, and must print one number. A pass is the processor time of N + 1 passes without that of one, by N;
# of five such measurements the middle one is shown. Where one list is much shorter, C++ too steps by doubling.
case "$#${1:-}" in 0 | 1[!-]*) ;; *) echo "usage: bench/columns.sh [FOLDER]" >&2; exit 2 ;; esac
. "$(dirname "$0")/beside.sh" columns "${1:-}"

cat > columns.cpp <<'CPP'
#include "columns.h"

struct Scored { u32 doc, score; };

// ---- the inputs
static Cols posts(u32 count, u64 x) {
    Cols made;
    made.reserve(count);
    u32 doc = 0, pos = 0;
    const u32 stride = 1000000 / std::max(count, 1u);
    for (u32 i = 0; i < count; i++) {
        const u32 n = next(x), steps = n % 4 ? n % 4 - 1 : 0, to = doc + steps * stride;
        pos = (to == doc ? pos : 0) + 1 + n / 4 % 16;
        doc = to;
        made.push(doc, n / 64 % 20000, pos, 1);
    }
    return made;
}
static vector<Scored> ranked(u32 count, u64 x) {
    vector<Scored> made;
    for (u32 i = 0; i < count; i++) made.push_back({i, next(x) % 1000});
    return made;
}

// ---- the first place from `from` on that isn't before: one by one, or by doubling and halving
template <bool Leap, class Before> static inline size_t skip(size_t from, size_t end, Before before) {
    if constexpr (!Leap) {
        while (from < end && before(from)) from++;
        return from;
    } else {
        size_t step = 1;
        while (step <= end - from && before(from + step - 1)) { from += step; step *= 2; }
        size_t hi = from + std::min(step - 1, end - from);
        while (from < hi) {
            const size_t middle = from + (hi - from) / 2;
            if (before(middle)) from = middle + 1; else hi = middle;
        }
        return from;
    }
}
static inline bool before(const Cols &c, size_t i, u32 doc, u64 pos) { return c.docs[i] < doc || (c.docs[i] == doc && c.places[i] < pos); }

// ---- the calls
template <bool Leap> static Cols keep_docs(const Cols &rows, const vector<u32> &docs) {
    Cols found;
    found.reserve(rows.size());
    size_t i = 0, j = 0;
    while (j < rows.size()) {
        const u32 doc = rows.docs[j];
        i = skip<Leap>(i, docs.size(), [&](size_t k) { return docs[k] < doc; });
        if (i == docs.size()) break;
        if (docs[i] == doc) found.push(rows, j++);
        else if (Leap) j = skip<Leap>(j + 1, rows.size(), [&](size_t k) { return rows.docs[k] < docs[i]; });
        else j++;
    }
    return found;
}
template <bool Leap> static Cols follow(const Cols &a, const Cols &b) {
    Cols found;
    found.reserve(b.size());
    size_t i = 0, j = 0;
    while (j < b.size()) {
        const u32 doc = b.docs[j], pos = b.places[j];
        i = skip<Leap>(i, a.size(), [&](size_t k) { return before(a, k, doc, pos ? pos - 1 : 0); });
        if (i == a.size()) break;
        if (a.docs[i] == doc && a.places[i] > 0 && a.places[i] + 1 == pos) found.push(b, j);
        j++;
        if (Leap) j = skip<Leap>(j, b.size(), [&](size_t k) { return before(b, k, a.docs[i], u64(a.places[i]) + 1); });
    }
    return found;
}
static inline bool is_near(const Cols &a, size_t i, u32 doc, u32 pos) {
    if (i >= a.size() || a.docs[i] != doc) return false;
    const u32 at = a.places[i], apart = at > pos ? at - pos : pos - at;
    return at > 0 && pos > 0 && apart > 0 && apart <= 8;
}
template <bool Leap> static Cols near(const Cols &a, const Cols &b) {
    Cols found;
    found.reserve(b.size());
    size_t lo = 0, hi = 0, j = 0;
    while (j < b.size()) {
        const u32 doc = b.docs[j], pos = b.places[j];
        lo = skip<Leap>(lo, a.size(), [&](size_t k) { return before(a, k, doc, pos > 9 ? pos - 8 : 1); });
        if (lo == a.size()) break;
        hi = skip<Leap>(hi, a.size(), [&](size_t k) { return before(a, k, doc, u64(pos) + 1); });
        if (is_near(a, lo, doc, pos) || is_near(a, hi, doc, pos)) found.push(b, j);
        j++;
        if (Leap) j = skip<Leap>(j, b.size(), [&](size_t k) { return before(b, k, a.docs[lo], a.places[lo] > 8 ? a.places[lo] - 8 : 0); });
    }
    return found;
}
static inline int compared(const Cols &a, size_t i, const Cols &b, size_t j) {
    if (a.docs[i] != b.docs[j]) return a.docs[i] < b.docs[j] ? -1 : 1;
    if (a.places[i] != b.places[j]) return a.places[i] < b.places[j] ? -1 : 1;
    if (a.words[i] != b.words[j]) return a.words[i] < b.words[j] ? -1 : 1;
    return 0;
}
static Cols unite(const Cols &a, const Cols &b) {
    Cols found;
    found.reserve(a.size() + b.size());
    size_t i = 0, j = 0;
    while (i < a.size() && j < b.size()) {
        const int c = compared(a, i, b, j);
        if (c <= 0) found.push(a, i++); else found.push(b, j++);
        if (c == 0) j++;
    }
    while (i < a.size()) found.push(a, i++);
    while (j < b.size()) found.push(b, j++);
    return found;
}
static vector<u32> docs_of(const Cols &rows) {
    vector<u32> docs(rows.docs);
    docs.erase(std::unique(docs.begin(), docs.end()), docs.end());
    return docs;
}
template <bool Leap> static vector<Scored> drop_docs(const vector<Scored> &base, const Cols &rows) {
    vector<Scored> kept;
    kept.reserve(base.size());
    size_t i = 0;
    for (const Scored &s : base) {
        i = skip<Leap>(i, rows.size(), [&](size_t k) { return rows.docs[k] < s.doc; });
        if (i == rows.size() || rows.docs[i] != s.doc) kept.push_back(s);
    }
    return kept;
}
static bool better(const Scored &a, const Scored &b) { return a.score != b.score ? a.score > b.score : a.doc < b.doc; }
static vector<Scored> top(const vector<Scored> &scored, size_t o, size_t h) {
    vector<Scored> best(std::min(o + h, scored.size()));
    std::partial_sort_copy(scored.begin(), scored.end(), best.begin(), best.end(), better);
    return vector<Scored>(best.begin() + std::min(o, best.size()), best.end());
}
static size_t completions(const Cols &rows, size_t cut, vector<Scored> &first) {
    struct Mark { u32 docs, last; };
    u32 low = UINT32_MAX, end = 0;
    for (u32 w : rows.words) { low = std::min(low, w); end = std::max(end, w + 1); }
    vector<Mark> marks(end > low ? end - low : 0, Mark{0, UINT32_MAX});
    for (size_t i = 0; i < rows.size(); i++) {
        Mark &m = marks[rows.words[i] - low];
        if (m.last != rows.docs[i]) { m.last = rows.docs[i]; m.docs++; }
    }
    vector<Scored> counted;
    for (size_t i = 0; i < marks.size(); i++) if (marks[i].docs) counted.push_back({u32(low + i), marks[i].docs});
    first = top(counted, 0, cut);
    return counted.size();
}
static vector<Scored> score(const Cols &rows) {
    vector<Scored> scored;
    if (rows.size() == 0) return scored;
    Scored now{rows.docs[0], rows.scores[0]};
    for (size_t i = 1; i < rows.size(); i++) {
        const u32 doc = rows.docs[i], s = rows.scores[i];
        if (doc == now.doc) now.score = std::max(now.score, s);
        else { scored.push_back(now); now = {doc, s}; }
    }
    scored.push_back(now);
    return scored;
}
static vector<Scored> score_over(const vector<Scored> &base, const Cols &rows) {
    vector<Scored> scored = score(rows);
    size_t i = 0;
    for (Scored &s : scored) {
        while (i < base.size() && base[i].doc < s.doc) i++;
        if (i < base.size() && base[i].doc == s.doc) s.score += base[i].score;
    }
    return scored;
}

// ---- a number of each answer
static u64 told(const vector<u32> &docs) { return docs.empty() ? 0 : docs.size() + docs.back(); }
static u64 told(const Cols &c) { return told(c.docs); }
static u64 told(const vector<Scored> &v) { return v.empty() ? 0 : u64(v.size()) + v.back().doc + v.back().score; }

int main(int, char **v) {
    const std::string call = v[1];
    const u32 times = atoi(v[2]), rows = atoi(v[3]), other = atoi(v[4]);
    const Cols a = posts(rows, 1), b = posts(other, 2);
    const vector<u32> docs = docs_of(b);
    const vector<Scored> base = score(b), all = ranked(rows, 3);
    const bool leap = rows / 16 > other || other / 16 > rows;
    u64 sum = 0;
    size_t read = a.size();
    for (u32 t = 0; t < times; t++) {
        if (call == "keep_docs") { read = a.size() + docs.size(); sum += told(leap ? keep_docs<true>(a, docs) : keep_docs<false>(a, docs)); }
        else if (call == "follow") { read = a.size() + b.size(); sum += told(leap ? follow<true>(a, b) : follow<false>(a, b)); }
        else if (call == "near") { read = a.size() + b.size(); sum += told(leap ? near<true>(a, b) : near<false>(a, b)); }
        else if (call == "unite") { read = a.size() + b.size(); sum += told(unite(a, b)); }
        else if (call == "docs_of") sum += told(docs_of(a));
        else if (call == "drop_docs") { read = a.size() + base.size(); sum += told(leap ? drop_docs<true>(base, a) : drop_docs<false>(base, a)); }
        else if (call == "completions") {
            vector<Scored> first;
            const u64 total = completions(a, 10, first);
            if (!first.empty()) sum += total + first.back().doc + first.back().score;
        }
        else if (call == "score") sum += told(score(a));
        else if (call == "score_over") { read = a.size() + base.size(); sum += told(score_over(base, a)); }
        else if (call == "top") { const u32 h = std::min(other, 100u); sum += told(top(all, other - h, h)); }
    }
    printf("%llu %zu\n", (unsigned long long)sum, read);
}
CPP

compare <<'PY'
import sys
from passes import pass_of
ours, plain = sys.argv[1:]

# A processor learns the jumps of a thousand searches that each pass repeats, but not those of ten thousand.
million, few = 1_000_000, 10_000
cases = []
for call in ('keep_docs', 'follow', 'near', 'unite', 'drop_docs'):
    cases.append((call, million, million, 20))
    count = 20 if call == 'unite' else 400
    cases.append((call, million, few, count))
    cases.append((call, few, million, count))
cases += [('docs_of', million, 1, 100), ('score', million, 1, 50), ('score_over', million, million, 20),
    ('completions', 500_000, 1, 100), ('top', 500_000, 10, 200), ('top', 500_000, 10_100, 50)]

print(f'{"call":12} {"rows":>8} {"other":>8} {"ours us":>9} {"C++ us":>9} {"ours ns/row":>12} {"C++ ns/row":>11} {"times":>6}')
for call, rows, other, n in cases:
    times = ([], [])
    for _ in range(5):
        a, a_more, t = pass_of(ours, call, rows, other, n)
        times[0].append(t)
        b, b_more, t = pass_of(plain, call, rows, other, n)
        times[1].append(t)
        assert a[0] == b[0] and a_more[0] == b_more[0], (call, rows, other, a, b)
    read = int(b[1])
    mine, theirs = (sorted(t)[2] for t in times)
    by_pass = f'{mine * 1e6:9.1f} {theirs * 1e6:9.1f} {mine * 1e9 / read:12.2f} {theirs * 1e9 / read:11.2f}'
    print(f'{call:12} {rows:8} {other:8} {by_pass} {mine / theirs:6.2f}', flush=True)
PY
