// How the yardstick reads: N-Triples and the plain part of Turtle that archives.py writes, to numbered names and triples.
#pragma once
#include <cstdint>
#include <cstdio>
#include <cstdlib>
#include <cstring>
#include <deque>
#include <fstream>
#include <string>
#include <string_view>
#include <unordered_map>
#include <vector>

using std::string;
using std::string_view;
using std::vector;

struct Triple { uint32_t s, p, o; };

static void need(bool fine, const char *what) {
    if (!fine) { std::fprintf(stderr, "yardstick: %s\n", what); std::exit(2); }
}

static uint64_t hash_of(string_view text) {
    uint64_t h = text.size() * 0x9E3779B97F4A7C15ull;
    size_t i = 0;
    for (; i + 8 <= text.size(); i += 8) {
        uint64_t word;
        std::memcpy(&word, text.data() + i, 8);
        h = (h ^ word) * 0xBF58476D1CE4E5B9ull;
        h ^= h >> 29;
    }
    for (; i < text.size(); i++) h = (h ^ (unsigned char)text[i]) * 0x94D049BB133111EBull;
    return h ^ (h >> 32);
}

struct Graph {
    vector<string_view> names;
    vector<Triple> triples;
    vector<uint32_t> name_table = vector<uint32_t>(1 << 20), triple_table = vector<uint32_t>(1 << 20);
    std::deque<string> kept;

    uint32_t name(string_view text, bool keep) {
        size_t slot = hash_of(text) & (name_table.size() - 1);
        for (; name_table[slot]; slot = (slot + 1) & (name_table.size() - 1))
            if (names[name_table[slot] - 1] == text) return name_table[slot] - 1;
        need(names.size() < name_table.size() / 2, "too many names");
        if (keep) text = kept.emplace_back(text);
        names.push_back(text);
        return (name_table[slot] = names.size()) - 1;
    }
    void add(Triple t) {
        uint64_t h = ((t.s * 0x9E3779B97F4A7C15ull) ^ t.p) * 0xBF58476D1CE4E5B9ull ^ t.o;
        size_t slot = (h * 0x94D049BB133111EBull) >> 44;
        for (; triple_table[slot]; slot = (slot + 1) & (triple_table.size() - 1)) {
            Triple &u = triples[triple_table[slot] - 1];
            if (u.s == t.s && u.p == t.p && u.o == t.o) return;
        }
        need(triples.size() < triple_table.size() / 2, "too many triples");
        triples.push_back(t);
        triple_table[slot] = triples.size();
    }
};

struct Reader {
    string text, built;
    size_t i = 0;
    std::unordered_map<string, string> prefixes;
    Graph graph;

    void space() { while (i < text.size() && (text[i] == ' ' || text[i] == '\n')) i++; }
    bool name_goes_on() const { return (unsigned char)text[i] > ' ' && text[i] != ';' && text[i] != ','; }
    // appends to `built` the IRI in brackets that begins here
    void iri() {
        size_t from = i;
        if (text[i] == '<') {
            i = text.find('>', i) + 1;
            built.append(text, from, i - from);
            return;
        }
        while (text[i] != ':') i++;
        const string &space = prefixes[text.substr(from, i - from)];
        from = ++i;
        while (name_goes_on()) i++;
        if (text[i - 1] == '.') i--;
        built.append(space, 0, space.size() - 1).append(text, from, i - from).push_back('>');
    }
    uint32_t literal() {
        size_t from = i++;
        while (text[i] != '"') i += text[i] == '\\' ? 2 : 1;
        i++;
        if (text[i] == '@') while (name_goes_on()) i++;
        if (text[i] != '^') return graph.name(string_view(text).substr(from, i - from), false);
        built.assign(text, from, i - from).append("^^");
        i += 2;
        iri();
        return graph.name(built, true);
    }
    uint32_t term() {
        space();
        if (text[i] == '<') {
            size_t from = i;
            i = text.find('>', i) + 1;
            return graph.name(string_view(text).substr(from, i - from), false);
        }
        if (text[i] == '"') return literal();
        built.clear();
        if (text[i] == 'a' && text[i + 1] == ' ') {
            i++;
            built = "<http://www.w3.org/1999/02/22-rdf-syntax-ns#type>";
        } else iri();
        return graph.name(built, true);
    }
    char mark() { space(); return text[i++]; }
    void read(const char *file) {
        std::ifstream in(file, std::ios::binary | std::ios::ate);
        need(bool(in), "no such file");
        text.resize(in.tellg());
        in.seekg(0);
        in.read(text.data(), text.size());
        for (space(); i < text.size(); space()) {
            if (text[i] == '@') {
                i = text.find(' ', i) + 1;
                string key = text.substr(i, text.find(':', i) - i);
                i = text.find('<', i);
                built.clear();
                iri();
                prefixes[key] = built;
                mark();
                continue;
            }
            uint32_t s = term();
            char end = ';';
            while (end == ';') {
                uint32_t p = term();
                end = ',';
                while (end == ',') { graph.add({s, p, term()}); end = mark(); }
            }
            need(end == '.', "a mark is missing");
        }
    }
};
