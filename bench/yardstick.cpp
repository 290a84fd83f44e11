// A yardstick for bench/jobs.py: the same jobs, written by hand without contracts.
//
// It reads N-Triples and the plain part of Turtle that archives.py writes (prefixes, `a`, `;`, `,`, no blank nodes),
// gives each name a number, drops repeated triples, and takes orders from AP13-before, P183, P9, P4, P82a and P82b.
// It closes them by rows of bits in passes over a topological order.
// It doesn't check UTF-8, escapes, grammar, limits, classes, dates or memory, and it doesn't test whether the orders are
// consistent. Its numbers of extents are its own, and each of its placings in `reason` is the plain one.
#include "yardstick_reading.hpp"
#include <algorithm>

// What of the file is about time: points are 2K and 2K+1 for extent K, then the dates.
struct Order { uint32_t low, high; bool strict; };
struct Record {
    vector<Order> orders;
    vector<uint32_t> nodes, number;
    vector<char> period;
    vector<int64_t> dates;

    uint32_t extent(uint32_t node, bool is_period) {
        if (number[node] == ~0u) { number[node] = nodes.size(); nodes.push_back(node); period.push_back(0); }
        if (is_period) period[number[node]] = 1;
        return number[node];
    }
    size_t points() const { return 2 * nodes.size() + dates.size(); }
};

// days from 1970-01-01 to the beginning of the year, month and day
static int64_t days(int64_t y, int m, int d) {
    y -= m <= 2;
    int64_t era = (y >= 0 ? y : y - 399) / 400, yoe = y - era * 400;
    int64_t doy = (153 * (m + (m > 2 ? -3 : 9)) + 2) / 5 + d - 1;
    return era * 146097 + yoe * 365 + yoe / 4 - yoe / 100 + doy - 719468;
}

static int64_t date_of(string_view literal, bool upper) {
    int y = 0, m = 0, d = 0;
    int parts = std::sscanf(literal.data() + 1, "%d-%d-%d", &y, &m, &d);
    return parts == 1 ? days(y + upper, 1, 1) : days(y, m, d) + upper;
}

static string code_of(string_view name) {
    size_t from = name.find_last_of("/:") + 1;
    return string(name.substr(from, name.find_first_of("_>", from) - from));
}

static Record record_of(const Graph &g) {
    Record r;
    r.number.assign(g.names.size(), ~0u);
    vector<string> codes(g.names.size());
    struct Dated { uint32_t node; int64_t date; bool upper; };
    vector<Dated> dated;
    for (const Triple &t : g.triples) {
        string &code = codes[t.p];
        if (code.empty()) code = code_of(g.names[t.p]);
        if (code == "P82a" || code == "P82b") {
            bool upper = code == "P82b";
            dated.push_back({r.extent(t.s, false), date_of(g.names[t.o], upper), upper});
        } else if (code == "AP13-before" || code == "P183" || code == "P9" || code == "P4") {
            uint32_t a = 2 * r.extent(t.s, true), b = 2 * r.extent(t.o, code != "P4");
            if (code == "P9") { r.orders.push_back({a, b, false}); r.orders.push_back({b + 1, a + 1, false}); }
            else if (code == "P4")
                for (uint32_t side = 0; side < 2; side++) {
                    r.orders.push_back({a + side, b + side, false});
                    r.orders.push_back({b + side, a + side, false});
                }
            else r.orders.push_back({a + 1, b, code == "P183"});
        }
    }
    for (const Dated &d : dated) r.dates.push_back(d.date);
    std::sort(r.dates.begin(), r.dates.end());
    r.dates.erase(std::unique(r.dates.begin(), r.dates.end()), r.dates.end());
    uint32_t first = 2 * r.nodes.size();
    for (const Dated &d : dated) {
        uint32_t at = first + (std::lower_bound(r.dates.begin(), r.dates.end(), d.date) - r.dates.begin());
        if (d.upper) r.orders.push_back({2 * d.node + 1, at, false});
        else r.orders.push_back({at, 2 * d.node, false});
    }
    for (uint32_t k = 0; k < r.nodes.size(); k++) r.orders.push_back({2 * k, 2 * k + 1, true});
    for (uint32_t k = 1; k < r.dates.size(); k++) r.orders.push_back({first + k - 1, first + k, true});
    return r;
}

struct Rows {
    size_t width;
    vector<uint64_t> words;
    explicit Rows(size_t n, size_t columns) : width((columns + 63) / 64), words(n * width) {}
    uint64_t *row(size_t i) { return &words[i * width]; }
    bool has(size_t i, size_t j) { return row(i)[j / 64] >> (j % 64) & 1; }
    void set(size_t i, size_t j) { row(i)[j / 64] |= 1ull << (j % 64); }
    bool take(uint64_t *into, const uint64_t *from) {
        uint64_t grown = 0;
        for (size_t w = 0; w < width; w++) { grown |= from[w] & ~into[w]; into[w] |= from[w]; }
        return grown;
    }
};

struct Closure {
    Rows weak, strict;
    vector<vector<Order>> next;
    explicit Closure(const Record &r) : weak(r.points(), r.points()), strict(r.points(), r.points()), next(r.points()) {
        for (const Order &o : r.orders) next[o.low].push_back(o);
        vector<uint32_t> last_first, stack;
        vector<size_t> turn(r.points());
        for (uint32_t root = 0; root < r.points(); root++) {
            if (!turn[root]++) stack.push_back(root);
            while (!stack.empty()) {
                uint32_t u = stack.back();
                if (turn[u] > next[u].size()) { last_first.push_back(u); stack.pop_back(); continue; }
                uint32_t v = next[u][turn[u]++ - 1].high;
                if (!turn[v]++) stack.push_back(v);
            }
        }
        for (uint32_t u = 0; u < r.points(); u++) weak.set(u, u);
        for (bool grown = true; grown;) {
            grown = false;
            for (uint32_t u : last_first)
                for (const Order &o : next[u]) {
                    grown |= weak.take(weak.row(u), weak.row(o.high));
                    grown |= strict.take(strict.row(u), (o.strict ? weak : strict).row(o.high));
                }
        }
    }
};

static void matrix(const Record &r) {
    Closure c(r);
    vector<uint32_t> cells;
    for (uint32_t k = 0; k < r.nodes.size(); k++) {
        auto same = [&](uint32_t j) {
            return c.weak.has(2 * j, 2 * k) && c.weak.has(2 * k, 2 * j) && c.weak.has(2 * j + 1, 2 * k + 1) && c.weak.has(2 * k + 1, 2 * j + 1);
        };
        if (r.period[k] && std::none_of(cells.begin(), cells.end(), same)) cells.push_back(k);
    }
    size_t n = cells.size();
    Rows before(n, n), covers(n, n);
    vector<uint32_t> later(n), level(n), sequence(n);
    for (size_t i = 0; i < n; i++)
        for (size_t j = 0; j < n; j++)
            if (i != j && c.weak.has(2 * cells[i] + 1, 2 * cells[j])) { before.set(i, j); later[i]++; }
    for (size_t i = 0; i < n; i++) sequence[i] = i;
    std::stable_sort(sequence.begin(), sequence.end(), [&](uint32_t a, uint32_t b) { return later[a] > later[b]; });
    vector<uint64_t> reached(before.width);
    size_t count = 0;
    for (uint32_t i : sequence) {
        std::fill(reached.begin(), reached.end(), 0);
        for (uint32_t j : sequence) {
            if (!before.has(i, j) || reached[j / 64] >> (j % 64) & 1) continue;
            covers.set(i, j);
            count++;
            level[j] = std::max(level[j], level[i] + 1);
            before.take(reached.data(), before.row(j));
        }
    }
    std::printf("cells %zu\n", n);
    for (size_t i = 0; i < n; i++) std::printf("c%zu level %u x%u\n", i, level[i], cells[i]);
    std::printf("covers %zu\n", count);
    for (size_t i = 0; i < n; i++)
        for (size_t j = 0; j < n; j++) if (covers.has(i, j)) std::printf("c%zu c%zu\n", i, j);
}

// Shortest chains from a point, in breadth: state 2P is point P reached without a strict order, 2P + 1 with one.
struct Chains {
    vector<vector<std::pair<uint32_t, Order>>> next;
    vector<uint32_t> from, by, queue;
    explicit Chains(const Record &r) : next(r.points()) {
        for (uint32_t n = 0; n < r.orders.size(); n++) next[r.orders[n].low].push_back({n, r.orders[n]});
    }
    void search(uint32_t source) {
        from.assign(2 * next.size(), ~0u);
        by.assign(2 * next.size(), ~0u);
        queue.assign(1, 2 * source);
        for (size_t head = 0; head < queue.size(); head++)
            for (auto &[n, order] : next[queue[head] / 2]) {
                uint32_t to = 2 * order.high + (order.strict || queue[head] % 2);
                if (by[to] != ~0u) continue;
                by[to] = n;
                from[to] = queue[head];
                queue.push_back(to);
            }
    }
    // appends the line of the chain to the point, if there is one
    void line(uint32_t source, uint32_t target, const char *weak, const char *strict, const string &ends, string &out) {
        uint32_t state = 2 * target + (by[2 * target + 1] != ~0u);
        if (by[state] == ~0u) return;
        if (state % 2) out.append(weak).append(" ").append(strict); else out += weak;
        out.append(ends).append(" by");
        queue.clear();
        do { queue.push_back(by[state]); state = from[state]; } while (state != 2 * source && from[state] != ~0u);
        for (size_t i = queue.size(); i--;) out.append(" o").append(std::to_string(queue[i]));
        out.push_back('\n');
    }
};

static const char *const CODES[2][2][2] = {{{"P175", "P176"}, {"P173", "P174"}}, {{"P182", "P183"}, {"P184", "P185"}}};

// the positions of all boundaries, as ` s0=I/R`: the instant of the last date before each, and the count of points before it
static string placing(const Record &r, Closure &closure) {
    vector<uint32_t> rank(r.points());
    for (size_t p = 0; p < r.points(); p++)
        for (size_t q = 0; q < r.points(); q++) rank[q] += closure.strict.has(p, q);
    string out;
    for (size_t p = 0; p < 2 * r.nodes.size(); p++) {
        int64_t day = 0;
        for (size_t d = 0; d < r.dates.size(); d++) if (closure.weak.has(2 * r.nodes.size() + d, p)) day = r.dates[d];
        out.append(p % 2 ? " e" : " s").append(std::to_string(p / 2)).append("=").append(std::to_string(day * 864));
        out.append(day ? "00000000000/" : "/").append(std::to_string(rank[p]));
    }
    return out;
}

static void reason(const Record &r) {
    Chains chains(r);
    Closure closure(r);
    string place = placing(r, closure), out, ends;
    for (uint32_t a = 0; a < r.nodes.size(); a++)
        for (uint32_t side = 0; side < 2 && r.period[a]; side++) {
            chains.search(2 * a + side);
            for (uint32_t b = 0; b < r.nodes.size(); b++)
                for (uint32_t end = 0; end < 2 && a != b && r.period[b]; end++) {
                    ends = " x" + std::to_string(a) + " x" + std::to_string(b);
                    chains.line(2 * a + side, 2 * b + end, CODES[side][end][0], CODES[side][end][1], ends, out);
                }
            out.append("placing").append(place).append("\n");
            std::fwrite(out.data(), 1, out.size(), stdout);
            out.clear();
        }
}

// the chain from the end of one node to the start of another, or a placing
static void explain(const Record &r, const Graph &g, const string &a, const string &b) {
    uint32_t x = ~0u, y = ~0u;
    for (uint32_t k = 0; k < r.nodes.size(); k++) {
        if (g.names[r.nodes[k]] == "<" + a + ">") x = k;
        if (g.names[r.nodes[k]] == "<" + b + ">") y = k;
    }
    need(x != ~0u && y != ~0u, "no such period");
    Closure closure(r);
    string out = "holds ";
    if (closure.weak.has(2 * x + 1, 2 * y)) {
        Chains chains(r);
        chains.search(2 * x + 1);
        chains.line(2 * x + 1, 2 * y, "P182", "P183", "", out);
    } else out = "fails\nplacing" + placing(r, closure) + "\n";
    std::printf("%s", out.c_str());
}

static void convert(const Graph &g) {
    string out;
    for (const Triple &t : g.triples) {
        out.append(g.names[t.s]).append(" ").append(g.names[t.p]).append(" ").append(g.names[t.o]).append(" .\n");
        if (out.size() > 60000) { std::fwrite(out.data(), 1, out.size(), stdout); out.clear(); }
    }
    std::fwrite(out.data(), 1, out.size(), stdout);
}

// the ends of triples that have no class, found as a check finds them: classes by node first, then each end looked up
static void check(const Graph &g) {
    vector<uint32_t> type(g.names.size(), ~0u);
    for (const Triple &t : g.triples) if (g.names[t.p].find("#type>") != string_view::npos) type[t.s] = t.o;
    size_t bare = 0;
    for (const Triple &t : g.triples) bare += (type[t.s] == ~0u) + (type[t.o] == ~0u);
    std::printf("triples %zu\nbare %zu\n", g.triples.size(), bare);
}

int main(int count, char **words) {
    need(count == 3 || count == 5, "usage: yardstick convert|check|matrix|reason FILE, yardstick explain FILE A B");
    string job = words[1];
    Reader reader;
    reader.read(words[2]);
    if (job == "convert") convert(reader.graph);
    if (job == "check") check(reader.graph);
    if (job == "convert" || job == "check") return 0;
    Record record = record_of(reader.graph);
    if (job == "matrix") matrix(record);
    if (job == "reason") reason(record);
    if (job == "explain") explain(record, reader.graph, words[3], words[4]);
}
