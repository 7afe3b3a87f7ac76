// A plain search engine in memory: what `complete` is measured against (`bench/beside.py`).
//
//     plain text COLLECTION SCRIPT [TIMES]
//     plain words WORDS SCRIPT [TIMES]
//
// It keeps a posting for each row of the collection, by word in byte order, so a prefix is a run of postings and is
// answered by one scan of them. It keeps no answers, packs nothing and proves nothing. To a script of requests `q=..`,
// with `&f=..` for facets, it writes the replies of `complete`, byte for byte, where each part of a query is a prefix or
// `name:value` and a gap stands between two of them; any other request ends it with 1. TIMES gets the nanoseconds of each
// request, from its line to its reply.
//
// `text` reads a collection and cuts its words itself: lower-case runs of ASCII letters and digits, so it is for
// collections in ASCII. `words` is handed the words: a first line of the three weights, then a line for each document, of
// its title, the words of the title, its facet words `:name:value` and the words of the text, with a tab between two of
// these and a space between words. `beside.py` writes such a file by the tables of Unicode.
#include <algorithm>
#include <chrono>
#include <cstdint>
#include <cstdio>
#include <cstdlib>
#include <cstring>
#include <fstream>
#include <iostream>
#include <set>
#include <string>
#include <string_view>
#include <unordered_map>
#include <utility>
#include <vector>

using std::string;
using std::string_view;
using std::vector;

constexpr uint32_t SHOWN = 10;         // hits, completions and values of a facet in a reply
constexpr size_t WORD_BYTES = 120;     // a word is cut to so many
constexpr uint32_t BEHIND_TITLE = 8;   // positions left free between title and text

[[noreturn]] static void fail(const string &why) {
    std::cerr << why << "\n";
    exit(1);
}

// ---- Texts ----
static bool is_word_byte(unsigned char c) { return isalnum(c) || c >= 0x80; }

static string lower(string_view text) {
    string small(text);
    for (char &c : small)
        if (c >= 'A' && c <= 'Z') c += 'a' - 'A';
    return small;
}

static vector<string> words_of(string_view text) {
    vector<string> words;
    string small = lower(text);
    for (size_t at = 0; at < small.size();) {
        size_t end = at;
        while (end < small.size() && is_word_byte(small[end])) end++;
        if (end > at) words.push_back(small.substr(at, std::min(end - at, WORD_BYTES)));
        at = end + 1;
    }
    return words;
}

// The pieces of a text between these characters, empty ones left out.
static vector<string_view> pieces(string_view text, char between) {
    vector<string_view> found;
    while (!text.empty()) {
        size_t end = std::min(text.find(between), text.size());
        if (end > 0) found.push_back(text.substr(0, end));
        text.remove_prefix(std::min(end + 1, text.size()));
    }
    return found;
}

// The next column of a line, which is taken off it.
static string_view column(string_view &line) {
    size_t end = std::min(line.find('\t'), line.size());
    string_view found = line.substr(0, end);
    line.remove_prefix(std::min(end + 1, line.size()));
    return found;
}

static string_view trimmed(string_view text) {
    while (!text.empty() && text.front() == ' ') text.remove_prefix(1);
    while (!text.empty() && text.back() == ' ') text.remove_suffix(1);
    return text;
}

// ---- Documents ----
struct Weights { unsigned title = 4, facet = 2, text = 1; };

// The words of a facets column, each once.
static std::set<string> facet_words(string_view facets) {
    std::set<string> words;
    for (string_view piece : pieces(facets, ';')) {
        piece = trimmed(piece);
        if (piece.empty()) continue;
        size_t equals = piece.find('=');
        if (equals == string_view::npos) fail("bad facet: " + string(piece));
        string value;
        for (const string &word : words_of(piece.substr(equals + 1))) value += (value.empty() ? "" : "_") + word;
        if (!value.empty()) words.insert(":" + lower(trimmed(piece.substr(0, equals))) + ":" + value.substr(0, WORD_BYTES));
    }
    return words;
}

// The postings of a collection: those of word w lie from begins[w] to begins[w + 1], by document.
struct Index {
    vector<string> titles, words;      // the words in byte order
    vector<uint32_t> begins, docs, positions;
    vector<uint8_t> scores;
};

// Takes documents one by one, and makes their index.
class Builder {
    struct Row { uint32_t word, doc, position; uint8_t score; };
    std::unordered_map<string, uint32_t> numbers;
    vector<const string *> words;
    vector<Row> rows;
    vector<string> titles;

    void add(string_view word, uint32_t position, unsigned score) {
        auto [place, is_new] = numbers.try_emplace(string(word), (uint32_t)words.size());
        if (is_new) words.push_back(&place->first);
        rows.push_back({place->second, (uint32_t)titles.size() - 1, position, (uint8_t)score});
    }

public:
    Weights weights;

    template <class Words, class Facets, class Text>
    void document(string_view title, const Words &title_words, const Facets &facets, const Text &text_words) {
        titles.emplace_back(title);
        uint32_t position = 0;
        for (const auto &word : title_words) add(word, ++position, weights.title);
        position += BEHIND_TITLE;
        for (const auto &word : text_words) add(word, ++position, weights.text);
        for (const auto &word : facets) add(word, 0, weights.facet);
    }

    Index index() {
        vector<uint32_t> order(words.size()), places(words.size());
        for (uint32_t n = 0; n < order.size(); n++) order[n] = n;
        std::sort(order.begin(), order.end(), [&](uint32_t a, uint32_t b) { return *words[a] < *words[b]; });
        Index made;
        made.titles = std::move(titles);
        made.begins.resize(words.size() + 1);
        for (uint32_t place = 0; place < order.size(); place++) {
            places[order[place]] = place;
            made.words.push_back(*words[order[place]]);
        }
        for (const Row &row : rows) made.begins[places[row.word] + 1]++;
        for (size_t w = 0; w < words.size(); w++) made.begins[w + 1] += made.begins[w];
        vector<uint32_t> next = made.begins;
        made.docs.resize(rows.size()), made.positions.resize(rows.size()), made.scores.resize(rows.size());
        for (const Row &row : rows) {
            uint32_t at = next[places[row.word]]++;
            made.docs[at] = row.doc, made.positions[at] = row.position, made.scores[at] = row.score;
        }
        return made;
    }
};

static Index index_of(const string &form, const string &name) {
    std::ifstream file(name, std::ios::binary);
    if (!file) fail("absent: " + name);
    Builder builder;
    Weights &weights = builder.weights;
    string line;
    for (bool is_first = true; getline(file, line); is_first = false) {
        string_view left = line;
        if (form == "words" && is_first) {
            if (sscanf(line.c_str(), "%u %u %u", &weights.title, &weights.facet, &weights.text) != 3) fail("no weights: " + line);
            continue;
        }
        if (form == "words") {
            string_view title = column(left), title_words = column(left), facets = column(left);
            builder.document(title, pieces(title_words, ' '), pieces(facets, ' '), pieces(left, ' '));
            continue;
        }
        if (is_first && left.substr(0, 3) == "\xef\xbb\xbf") left.remove_prefix(3);
        if (!file.eof() && !left.empty() && left.back() == '\r') left.remove_suffix(1);
        if (is_first && (left == "#weights" || left.substr(0, 9) == "#weights ")) {
            if (sscanf(string(left).c_str(), "#weights title=%u facet=%u text=%u", &weights.title, &weights.facet, &weights.text) != 3)
                fail("bad weights: " + line);
        } else if (!left.empty()) {
            string_view title = column(left), facets = column(left);
            builder.document(title, words_of(title), facet_words(facets), words_of(left));
        }
    }
    return builder.index();
}

// ---- Requests ----
struct Request {
    vector<string> prefixes;   // of a word, or of a facet word `:name:value`
    std::set<string> facets;
};

static string decoded(string_view text) {
    string plain;
    for (size_t at = 0; at < text.size(); at++) {
        if (text[at] == '%' && at + 2 < text.size() && isxdigit((unsigned char)text[at + 1]) && isxdigit((unsigned char)text[at + 2])) {
            plain += (char)strtol(string(text.substr(at + 1, 2)).c_str(), nullptr, 16);
            at += 2;
        } else {
            plain += text[at] == '+' ? ' ' : text[at];
        }
    }
    return plain;
}

static string prefix_of(string_view part, const string &line) {
    string prefix(part);
    size_t colon = prefix.find(':');
    if (colon != string::npos) std::replace_if(prefix.begin() + colon, prefix.end(), [](char c) { return c == '-' || c == '\''; }, '_');
    for (size_t at = 0; at < prefix.size(); at++)
        if (!is_word_byte(prefix[at]) && at != colon && !(prefix[at] == '_' && at > colon)) fail("neither a prefix nor name:value: " + line);
    return colon == string::npos ? prefix : ":" + prefix;
}

static Request request_of(const string &line) {
    Request request;
    for (string_view parameter : pieces(line, '&')) {
        string value = lower(decoded(parameter.substr(std::min<size_t>(2, parameter.size()))));
        if (parameter.substr(0, 2) == "q=") {
            for (string_view part : pieces(value, ' ')) request.prefixes.push_back(prefix_of(part, line));
        } else if (parameter.substr(0, 2) == "f=") {
            for (string_view name : pieces(value, ',')) request.facets.emplace(name);
        } else {
            fail("neither q nor f: " + line);
        }
    }
    return request;
}

// ---- Answers ----
static void put_text(string &out, string_view text) {
    static const char *const SHORT = "\bb\ff\nn\rr\tt";
    out += '"';
    for (unsigned char c : text) {
        if (c == '"' || c == '\\') {
            out += '\\';
            out += (char)c;
        } else if (c >= 0x20) {
            out += (char)c;
        } else if (const char *found = c ? strchr(SHORT, c) : nullptr) {
            out += '\\';
            out += found[1];
        } else {
            char code[8];
            snprintf(code, sizeof code, "\\u%04x", c);
            out += code;
        }
    }
    out += '"';
}

class Engine {
    using Range = std::pair<uint32_t, uint32_t>;
    struct Counted { uint32_t word, docs; };
    const Index &index;
    vector<uint8_t> reached, best;     // by document: how many parts it has had, and its best score of the next
    vector<uint32_t> sums;             // its scores of the parts before, added up

    // The words that begin with a prefix.
    Range range(const string &prefix) const {
        auto front = [&](const string &word) { return string_view(word).substr(0, prefix.size()); };
        auto begin = std::lower_bound(index.words.begin(), index.words.end(), prefix);
        auto end = std::partition_point(begin, index.words.end(), [&](const string &word) { return front(word) == prefix; });
        return {begin - index.words.begin(), end - index.words.begin()};
    }
    uint32_t size(Range words) const { return index.begins[words.second] - index.begins[words.first]; }

    // The documents that have had `parts` parts and have one of the words, with their best scores noted; and each of the
    // words that one of them has, with the number of these, where they are to be counted.
    template <bool COUNTED>
    void scan(Range words, uint8_t parts, vector<uint32_t> &found, vector<Counted> &table) {
        for (uint32_t word = words.first; word < words.second; word++) {
            uint32_t docs = 0, before = UINT32_MAX;
            for (uint32_t at = index.begins[word]; at < index.begins[word + 1]; at++) {
                uint32_t doc = index.docs[at];
                if (reached[doc] != parts) continue;
                if (!best[doc]) found.push_back(doc);
                best[doc] = std::max(best[doc], index.scores[at]);
                docs += doc != before;
                before = doc;
            }
            if (COUNTED && docs) table.push_back({word, docs});
        }
    }

    // The words of a facet that a hit has, with the numbers of hits. A document has a facet word once.
    vector<Counted> values(const string &name, uint8_t parts) const {
        Range words = range(":" + name + ":");
        vector<Counted> table;
        for (uint32_t word = words.first; word < words.second; word++) {
            uint32_t docs = 0;
            for (uint32_t at = index.begins[word]; at < index.begins[word + 1]; at++) docs += reached[index.docs[at]] == parts;
            if (docs) table.push_back({word, docs});
        }
        return table;
    }

    void put_table(string &out, vector<Counted> &table) const {
        auto end = table.begin() + std::min<size_t>(SHOWN, table.size());
        std::partial_sort(table.begin(), end, table.end(),
                          [](const Counted &a, const Counted &b) { return a.docs != b.docs ? a.docs > b.docs : a.word < b.word; });
        out += '[';
        for (auto row = table.begin(); row != end; row++) {
            string_view word = index.words[row->word];
            out += (row == table.begin() ? "{\"docs\":" : ",{\"docs\":") + std::to_string(row->docs) + ",\"word\":";
            put_text(out, word.substr(word[0] == ':'));
            out += '}';
        }
        out += ']';
    }

    void put_hits(string &out, vector<uint32_t> &hits) const {
        auto end = hits.begin() + std::min<size_t>(SHOWN, hits.size());
        std::partial_sort(hits.begin(), end, hits.end(),
                          [&](uint32_t a, uint32_t b) { return sums[a] != sums[b] ? sums[a] > sums[b] : a < b; });
        for (auto hit = hits.begin(); hit != end; hit++) {
            out += (hit == hits.begin() ? "{\"doc\":" : ",{\"doc\":") + std::to_string(*hit) + ",\"score\":" + std::to_string(sums[*hit]) + ",\"title\":";
            put_text(out, index.titles[*hit]);
            out += '}';
        }
    }

public:
    explicit Engine(const Index &made) : index(made), reached(made.titles.size()), best(made.titles.size()), sums(made.titles.size()) {}

    string reply(const Request &request) {
        vector<Range> parts;
        for (const string &prefix : request.prefixes) parts.push_back(range(prefix));
        if (parts.size() > 1)      // the last one is completed; of those before it the shortest goes first
            std::sort(parts.begin(), parts.end() - 1, [&](Range a, Range b) { return size(a) < size(b); });
        vector<uint32_t> hits, first;
        vector<Counted> completions;
        for (size_t n = 0; n < parts.size(); n++) {
            hits.clear();
            if (n + 1 == parts.size()) scan<true>(parts[n], n, hits, completions);
            else scan<false>(parts[n], n, hits, completions);
            for (uint32_t doc : hits) reached[doc] = n + 1, sums[doc] += std::exchange(best[doc], 0);
            if (n == 0) first = hits;
        }
        if (parts.empty())
            for (uint32_t doc = 0; doc < index.titles.size(); doc++) hits.push_back(doc);
        string total = std::to_string(completions.size()), out = "{\"completions\":";
        put_table(out, completions);
        out += ",\"facets\":{";
        for (const string &name : request.facets) {
            if (out.back() != '{') out += ',';
            put_text(out, name);
            out += ':';
            vector<Counted> table = values(name, parts.size());
            put_table(out, table);
        }
        out += "},\"hits\":[";
        put_hits(out, hits);
        out += "],\"total\":{\"completions\":" + total + ",\"hits\":" + std::to_string(hits.size()) + "}}\n";
        for (uint32_t doc : first) reached[doc] = 0, sums[doc] = 0;
        return out;
    }
};

int main(int count, char **given) {
    string form = count > 1 ? given[1] : "";
    if (count < 4 || count > 5 || (form != "text" && form != "words")) fail("usage: plain text COLLECTION SCRIPT [TIMES] | words WORDS SCRIPT [TIMES]");
    std::ifstream script(given[3], std::ios::binary);
    if (!script) fail(string("absent: ") + given[3]);
    Index index = index_of(form, given[2]);
    Engine engine(index);
    vector<long long> times;
    for (string line; getline(script, line);) {
        if (line.empty()) continue;
        auto begun = std::chrono::steady_clock::now();
        string reply = engine.reply(request_of(line));
        times.push_back(std::chrono::duration_cast<std::chrono::nanoseconds>(std::chrono::steady_clock::now() - begun).count());
        std::cout << reply;
    }
    if (count == 5) {
        std::ofstream file(given[4]);
        for (long long time : times) file << time << "\n";
    }
    if (!std::cout.flush()) fail("the replies weren't taken");
}
