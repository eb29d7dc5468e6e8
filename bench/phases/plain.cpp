// What bench/phases/main.rt.txt times, in plain C++: of each view the rounds from phase to phase, over the list of its arcs, each
// phase up to its first round that changes nothing, and no further than a phase that ends where it began. A view with the edges
// of the one before is not run.

#include <algorithm>
#include <cstdint>
#include <cstdio>
#include <ctime>
#include <vector>

typedef uint32_t u32;
typedef uint64_t u64;
typedef int64_t i64;

static const u32 NODES = 100000, EDGES = 1000000, VIEWS = 16;
static const i64 NONE = INT64_MAX;

static u32 draw(u64 &state) {
    state = state * 6364136223846793005ull + 1442695040888963407ull;
    return (u32)(state >> 32);
}

struct Edge { u32 s, d, t; };
struct Arc { u32 tail, head; };

static u64 now() {
    timespec t;
    clock_gettime(CLOCK_THREAD_CPUTIME_ID, &t);
    return t.tv_sec * 1000000ull + t.tv_nsec / 1000;
}

// The least of the start and of what comes: a step more along each arc, or nothing more.
static bool round_of(const std::vector<Arc> &arcs, const std::vector<i64> &starts, std::vector<i64> &values, std::vector<i64> &mail, i64 step) {
    std::fill(mail.begin(), mail.end(), NONE);
    for (const Arc &a : arcs)
        if (values[a.tail] != NONE) mail[a.head] = std::min(mail[a.head], values[a.tail] + step);
    bool changed = false;
    for (u32 v = 0; v < NODES; v++) {
        i64 next = std::min(starts[v], mail[v]);
        if (next != values[v]) changed = true, values[v] = next;
    }
    return changed;
}

// The start and how many arcs come.
static bool count_round(const std::vector<Arc> &arcs, const std::vector<i64> &starts, std::vector<i64> &values, std::vector<i64> &mail) {
    std::fill(mail.begin(), mail.end(), 0);
    for (const Arc &a : arcs) mail[a.head] += 1;
    bool changed = false;
    for (u32 v = 0; v < NODES; v++) {
        i64 next = starts[v] + mail[v];
        if (next != values[v]) changed = true, values[v] = next;
    }
    return changed;
}

// What is run: hop counts from the first node, components along edges both ways, or sums of arcs.
enum Kind { HOPS, PARTS, COUNTS };

static std::vector<i64> phases(const std::vector<Arc> &arcs, std::vector<i64> starts, Kind kind, int rounds, int count) {
    std::vector<i64> values, mail(NODES);
    for (int phase = 0; phase < count; phase++) {
        values = starts;
        bool quiet = false;
        for (int r = 0; r < rounds && !quiet; r++)
            quiet = !(kind == COUNTS ? count_round(arcs, starts, values, mail) : round_of(arcs, starts, values, mail, kind == HOPS ? 1 : 0));
        if (!quiet) return {};
        if (values == starts) break;
        starts = values;
    }
    return values;
}

static void run(const std::vector<Edge> &edges, Kind kind, u32 apart, int rounds, int count, i64 &sum, u64 &time) {
    std::vector<i64> starts(NODES, kind == HOPS ? NONE : 1), values;
    if (kind == HOPS) starts[0] = 0;
    if (kind == PARTS)
        for (u32 v = 0; v < NODES; v++) starts[v] = v + 1;
    sum = 0;
    u64 start = now();
    std::vector<std::vector<i64>> kept;
    for (u32 view = 0; view < VIEWS; view++) {
        if (view == 0 || apart != 0) {
            std::vector<Arc> arcs;
            u32 from = view * apart;
            for (const Edge &e : edges)
                if (from <= e.t && e.t < from + 850) {
                    arcs.push_back({e.s, e.d});
                    if (kind == PARTS) arcs.push_back({e.d, e.s});
                }
            values = phases(arcs, starts, kind, rounds, count);
        }
        kept.push_back(values);
    }
    time = now() - start;
    for (const auto &vs : kept)
        for (i64 x : vs)
            if (x != NONE) sum += x;
}

int main() {
    std::vector<Edge> edges(EDGES);
    u64 state = 1;
    for (Edge &e : edges) {
        e.s = draw(state) % NODES;
        u64 first = draw(state) % NODES, second = draw(state) % NODES;
        e.d = (u32)(first * second / NODES);
        e.t = draw(state) % 1000;
    }
    i64 sums[4];
    u64 times[4];
    run(edges, HOPS, 10, 100, 2, sums[0], times[0]);
    run(edges, HOPS, 0, 100, 2, sums[1], times[1]);
    run(edges, PARTS, 10, 100, 5, sums[2], times[2]);
    run(edges, COUNTS, 10, 2, 5, sums[3], times[3]);
    printf("sums: %lld, %lld, %lld, %lld\n", (long long)sums[0], (long long)sums[1], (long long)sums[2], (long long)sums[3]);
    const char *names[4] = {"hops_windows", "hops_equal", "wcc_windows", "grow_windows"};
    for (int i = 0; i < 4; i++) printf("%s %llu\n", names[i], (unsigned long long)times[i]);
    return 0;
}
