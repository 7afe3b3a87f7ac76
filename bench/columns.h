// Columns of posts, and the linear generator that posts are made of: what blocks.sh and columns.sh share.
#include <algorithm>
#include <cstdint>
#include <cstdio>
#include <cstdlib>
#include <string>
#include <vector>
using std::vector;
using u8 = uint8_t;
using u32 = uint32_t;
using u64 = uint64_t;

struct Cols {
    vector<u32> docs, words, places;
    vector<u8> scores;
    size_t size() const { return docs.size(); }
    void reserve(size_t n) { docs.reserve(n); words.reserve(n); places.reserve(n); scores.reserve(n); }
    void resize(size_t n) { docs.resize(n); words.resize(n); places.resize(n); scores.resize(n); }
    void push(u32 doc, u32 word, u32 place, u8 score) { docs.push_back(doc); words.push_back(word); places.push_back(place); scores.push_back(score); }
    void push(const Cols &from, size_t i) { push(from.docs[i], from.words[i], from.places[i], from.scores[i]); }
};

static u32 next(u64 &x) { x = x * 6364136223846793005u + 1442695040888963407u; return x >> 33; }
