// What bench/pagerank/main.rt.txt times, as a plain loop: the same edges, and the same whole numbers, exact and then
// clamped.

#include <cstdint>
#include <cstdio>
#include <ctime>
#include <utility>
#include <vector>

static const uint32_t NODES = 100000;
static const uint32_t EDGES = 1000000;

static uint64_t state = 1;

static uint32_t draw() {
    state = state * 6364136223846793005u + 1442695040888963407u;
    return uint32_t(state >> 32);
}

static int64_t clamp(__int128 number) {
    if (number > INT64_MAX) return INT64_MAX;
    if (number < -__int128(INT64_MAX)) return -INT64_MAX;
    return int64_t(number);
}

// Nanoseconds of the processor that this thread took so far.
static int64_t processor_time() {
    timespec time;
    clock_gettime(CLOCK_THREAD_CPUTIME_ID, &time);
    return int64_t(time.tv_sec) * 1000000000 + time.tv_nsec;
}

static std::vector<int64_t> ranks(const std::vector<std::pair<uint32_t, uint32_t>>& edges, int rounds) {
    std::vector<int64_t> degree(NODES, 0);
    std::vector<int64_t> value(NODES, 1000000);
    std::vector<__int128> got(NODES);
    for (auto [tail, head] : edges) degree[tail] += 1;
    for (int round = 0; round < rounds; round++) {
        for (auto& sum : got) sum = 0;
        for (auto [tail, head] : edges) got[head] += value[tail] / degree[tail];
        for (uint32_t node = 0; node < NODES; node++) {
            int64_t damped = clamp(__int128(clamp(got[node])) * 850000) / 1000000;
            value[node] = clamp(__int128(150000) + damped);
        }
    }
    return value;
}

int main() {
    std::vector<std::pair<uint32_t, uint32_t>> edges;
    for (uint32_t edge = 0; edge < EDGES; edge++) {
        uint32_t tail = draw() % NODES;
        uint32_t head = draw() % NODES;
        edges.push_back({tail, head});
    }
    int64_t start = processor_time();
    std::vector<int64_t> values = ranks(edges, 10);
    int64_t time = (processor_time() - start) / 1000;
    uint64_t sum = 0;
    for (int64_t value : values) sum += uint64_t(value);
    printf("sum of the values %lld\n", (long long)sum);
    printf("ten_rounds %lld\n", (long long)time);
}
