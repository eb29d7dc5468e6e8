// What bench/aggregate_views/main.rt.txt does, in plain C++: a hash map from pairs of groups to how many edges there are and
// the sum of their numbers, which each change of an edge is looked up in.
#include <algorithm>
#include <cstdint>
#include <cstdio>
#include <ctime>
#include <unordered_map>
#include <utility>
#include <vector>

static const uint32_t NODES = 100000;
static const uint32_t EDGES = 1000000;

static uint32_t draw(uint64_t& state) {
    state = state * 6364136223846793005u + 1442695040888963407u;
    return uint32_t(state >> 32);
}

// Microseconds of the processor that this thread took so far.
static int64_t processor_time() {
    timespec now;
    clock_gettime(CLOCK_THREAD_CPUTIME_ID, &now);
    return int64_t(now.tv_sec) * 1000000 + now.tv_nsec / 1000;
}

struct Totals {
    uint64_t count = 0;
    __int128 sum = 0;
};

struct Edge {
    uint32_t from, to;
    int64_t number;
};

struct Groups {
    const std::vector<uint32_t>& cells;
    const std::vector<Edge>& edges;
    std::unordered_map<uint64_t, Totals> pairs;

    void apply(const std::vector<std::pair<uint32_t, bool>>& changes) {
        for (auto [e, comes] : changes) {
            const Edge& edge = edges[e];
            uint64_t pair = uint64_t(cells[edge.from]) << 32 | cells[edge.to];
            Totals& totals = pairs[pair];
            if (comes) {
                totals.count++;
                totals.sum += edge.number;
            } else {
                totals.count--;
                totals.sum -= edge.number;
                if (totals.count == 0) pairs.erase(pair);
            }
        }
    }
};

static std::vector<std::pair<uint32_t, bool>> turns(const std::vector<bool>& present, size_t count, size_t first, size_t apart) {
    std::vector<std::pair<uint32_t, bool>> changes;
    size_t e = first;
    for (size_t i = 0; i < count; i++) {
        if (e < present.size()) changes.push_back({uint32_t(e), !present[e]});
        e += apart;
    }
    return changes;
}

static int64_t timed(Groups& groups, std::vector<bool>& present, const std::vector<std::pair<uint32_t, bool>>& changes) {
    int64_t start = processor_time();
    groups.apply(changes);
    int64_t time = processor_time() - start;
    for (auto [e, comes] : changes) present[e] = comes;
    return time;
}

static void measured(uint32_t count_of_cells, const char* name) {
    uint64_t state = 1;
    std::vector<uint32_t> cells;
    for (uint32_t id = 0; id < NODES; id++) cells.push_back(draw(state) % count_of_cells);
    state = 2;
    std::vector<Edge> edges;
    for (uint32_t i = 0; i < EDGES; i++) {
        uint32_t from = draw(state) % NODES;
        uint32_t to = draw(state) % NODES;
        edges.push_back({from, to, int64_t(draw(state))});
    }
    Groups groups{cells, edges, {}};
    std::vector<bool> present(EDGES, false);
    int64_t whole = timed(groups, present, turns(present, EDGES, 0, 1));
    int64_t least = INT64_MAX, total = 0;
    for (size_t round = 0; round < 20; round++) {
        int64_t time = timed(groups, present, turns(present, 10000, round, 97));
        least = std::min(least, time);
        total += time;
    }
    std::vector<std::pair<uint64_t, Totals>> rows(groups.pairs.begin(), groups.pairs.end());
    std::sort(rows.begin(), rows.end(), [](const auto& a, const auto& b) { return a.first < b.first; });
    uint64_t count = 0, sum = 0;
    for (const auto& row : rows) {
        count = count * 31 + row.second.count;
        sum = sum * 31 + uint64_t(row.second.sum % 1000003);
    }
    printf("rows_%s %lu %lu %lu\n", name, (unsigned long)rows.size(), (unsigned long)count, (unsigned long)sum);
    printf("apply_all_%s %ld\napply_10000_%s %ld\n", name, (long)whole, name, (long)least);
    printf("mean_of_20_%s %ld\n", name, (long)(total / 20));
}

int main() {
    measured(32, "few");
    measured(1000, "many");
}
