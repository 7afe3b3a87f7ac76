#!/usr/bin/env bash
# Times reading a collection, its rows, its vocabulary and the rows' numbers against a plain C++ program, which makes no
# numbers. Run it by hand after `rt run` in crates/timed and in crates/complete:
#
#     bench/reader.sh COLLECTION [FOLDER]
#
# COLLECTION is what examples/catalogue.py wrote; it is timed as it is, and, beside C++, with all bytes beyond ASCII left
# out, so that both programs find the same words. FOLDER (/tmp/timed_reader) takes inputs and programs. It needs g++ and
# /usr/bin/time. A pass is the processor time of three passes without that of one, halved; memory is the peak of one.
# `ask` is the whole process of `complete ask` over an empty script: it ends as soon as it is ready.
set -eu
case "$#${1:-}" in [12][!-]*) ;; *) echo "usage: bench/reader.sh COLLECTION [FOLDER]" >&2; exit 2 ;; esac
here=$(cd "$(dirname "$0")/.." && pwd)
collection=$(readlink -f "$1")
dir=${2:-/tmp/timed_reader}
mkdir -p "$dir"
cd "$dir"
LC_ALL=C tr -d '\200-\377' <"$collection" >ascii.txt

cat >plain.cpp <<'CPP'
#include <algorithm>
#include <cstdio>
#include <cstdlib>
#include <fstream>
#include <set>
#include <sstream>
#include <string>
#include <string_view>
#include <vector>
using std::string;
using std::string_view;
struct Doc { string title, facets, text; unsigned line; };
struct Row { unsigned doc; string word; unsigned pos; unsigned char score; };
static bool part(unsigned char c) { return (c >= 'a' && c <= 'z') || (c >= '0' && c <= '9'); }
// the runs of letters and digits in lower case, each cut to 120 bytes
static std::vector<string> words(string_view s) {
    string low(s);
    for (char &c : low) if (c >= 'A' && c <= 'Z') c += 32;
    std::vector<string> found;
    for (size_t i = 0; i < low.size();) {
        if (!part(low[i])) { i++; continue; }
        size_t j = i;
        while (j < low.size() && part(low[j])) j++;
        found.emplace_back(low, i, std::min<size_t>(j - i, 120));
        i = j;
    }
    return found;
}
static string_view trim(string_view s) {
    while (!s.empty() && s.front() == ' ') s.remove_prefix(1);
    while (!s.empty() && s.back() == ' ') s.remove_suffix(1);
    return s;
}
int main(int, char **v) {
    std::ifstream in(v[3], std::ios::binary);
    std::stringstream all; all << in.rdbuf();
    const string bytes = all.str();
    all.str("");
    size_t docs_n = 0, rows_n = 0, words_n = 0;
    for (int t = atoi(v[2]); t > 0; t--) {
        std::vector<Doc> docs;
        string_view rest(bytes);
        for (unsigned line = 1; !rest.empty(); line++) {
            size_t end = rest.find('\n');
            string_view l = rest.substr(0, end);
            rest = end == string_view::npos ? string_view() : rest.substr(end + 1);
            if (!l.empty() && l.back() == '\r' && end != string_view::npos) l.remove_suffix(1);
            if (l.empty()) continue;
            size_t a = l.find('\t');
            string_view title = l.substr(0, a), facets, text;
            if (a != string_view::npos) {
                l = l.substr(a + 1);
                size_t b = l.find('\t');
                facets = l.substr(0, b);
                if (b != string_view::npos) text = l.substr(b + 1);
            }
            // the reader counts words and tests facets before it accepts a line
            if (words(title).size() + words(text).size() > 100000) return 1;
            docs.push_back({string(title), string(facets), string(text), line});
        }
        std::vector<Row> rows;
        for (unsigned d = 0; d < docs.size(); d++) {
            std::set<string> facets;
            string_view f(docs[d].facets);
            while (!f.empty()) {
                size_t end = f.find(';');
                string_view piece = trim(f.substr(0, end));
                f = end == string_view::npos ? string_view() : f.substr(end + 1);
                size_t eq = piece.find('=');
                if (eq == string_view::npos) continue;
                string slug;
                for (string &w : words(piece.substr(eq + 1))) { if (!slug.empty()) slug += '_'; slug += w; }
                if (slug.empty()) continue;
                if (slug.size() > 120) slug.resize(120);
                string name(trim(piece.substr(0, eq)));
                for (char &c : name) if (c >= 'A' && c <= 'Z') c += 32;
                facets.insert(":" + name + ":" + slug);
            }
            for (const string &w : facets) rows.push_back({d, w, 0, 2});
            unsigned pos = 1;
            for (string &w : words(docs[d].title)) rows.push_back({d, std::move(w), pos++, 4});
            pos += 8;
            for (string &w : words(docs[d].text)) rows.push_back({d, std::move(w), pos++, 1});
        }
        std::vector<const string *> met;
        met.reserve(rows.size());
        for (const Row &r : rows) met.push_back(&r.word);
        std::sort(met.begin(), met.end(), [](auto a, auto b) { return *a < *b; });
        met.erase(std::unique(met.begin(), met.end(), [](auto a, auto b) { return *a == *b; }), met.end());
        std::vector<string> vocabulary;
        vocabulary.reserve(met.size());
        for (auto w : met) vocabulary.push_back(*w);
        docs_n = docs.size(); rows_n = rows.size(); words_n = vocabulary.size();
    }
    printf("%zu (%zu documents, %zu rows, %zu words)\n", docs_n + rows_n + words_n, docs_n, rows_n, words_n);
}
CPP
g++ -O2 -std=c++17 -o plain plain.cpp

reader="$here/crates/timed/out/timed"
ask="$here/crates/complete/out/complete"
: >empty.txt
# processor seconds of a run, and its peak memory in MiB
run() { /usr/bin/time -f '%U %S %M' -o used "$@" >printed; awk '{printf "%.2f %.0f", $1 + $2, $3 / 1024}' used; }
pass() { # PROGRAM FILE
    one=$(run "$1" collection 1 "$2")
    three=$(run "$1" collection 3 "$2")
    echo "$(cat printed): $(echo "$one $three" | awk '{printf "%.2f s a pass, whole process %.2f s, peak %d MiB", ($3 - $1) / 2, $1, $2}')"
}
ready() { run "$ask" ask "$1" empty.txt | awk '{printf "whole process %.2f s, peak %d MiB\n", $1, $2}'; }
for round in 1 2 3; do
    echo "ASCII, C++:     $(pass ./plain ascii.txt)"
    echo "ASCII, reader:  $(pass "$reader" ascii.txt)"
    echo "ASCII, ask:     $(ready ascii.txt)"
    echo "whole, reader:  $(pass "$reader" "$collection")"
    echo "whole, ask:     $(ready "$collection")"
done
