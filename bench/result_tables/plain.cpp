// What bench/result_tables/main.rt.txt times, as plain loops over one buffer: the same tables, each built whole and handed
// over as one piece.

#include <algorithm>
#include <charconv>
#include <cstdint>
#include <cstdio>
#include <ctime>
#include <numeric>
#include <string>
#include <vector>

static const uint32_t NODES = 1000000;
static uint64_t state;
static uint64_t bytes, sum;

struct Val {
    bool some;
    int64_t number;
};

static uint64_t draw() {
    state = state * 6364136223846793005u + 1442695040888963407u;
    return state >> 20;
}

static std::vector<Val> drawn() {
    std::vector<Val> values;
    for (uint32_t i = 0; i < NODES; i++) {
        uint64_t number = draw();
        switch (number % 4) {
        case 0: values.push_back({false, 0}); break;
        case 1: values.push_back({true, int64_t(number % 100)}); break;
        case 2: values.push_back({true, int64_t(number % 1000000000)}); break;
        default: values.push_back({true, -int64_t(number % 1000000)});
        }
    }
    return values;
}

static void take(const std::string &piece) {
    bytes += piece.size();
    for (size_t i = 0; i < piece.size() / 1000; i++) sum += uint8_t(piece[i]);
}

template <class N> static void push(std::string &text, N number) {
    char room[24];
    auto end = std::to_chars(room, room + 24, number).ptr;
    text.append(room, end);
}

static int64_t processor_time() {
    timespec time;
    clock_gettime(CLOCK_THREAD_CPUTIME_ID, &time);
    return int64_t(time.tv_sec) * 1000000000 + time.tv_nsec;
}

static void head(std::string &text, uint32_t rounds) {
    text += "view C.v hops(1) settled ";
    push(text, rounds);
}

static void table(const std::vector<uint64_t> &ids, const std::vector<uint32_t> &order, const std::vector<Val> &values, uint32_t rounds) {
    std::string text;
    head(text, rounds);
    text += '\n';
    for (uint32_t node : order) {
        push(text, ids[node]);
        text += ',';
        if (values[node].some) push(text, values[node].number);
        else text += '-';
        text += '\n';
    }
    text += "end\n";
    take(text);
}

static void summary(const std::vector<Val> &values, uint32_t rounds) {
    std::string text;
    head(text, rounds);
    uint64_t count = 0;
    __int128 total = 0;
    for (auto &value : values) {
        if (value.some) {
            count++;
            total += value.number;
        }
    }
    text += " edges 7 values ";
    push(text, count);
    text += " sum ";
    push(text, int64_t(total));
    text += '\n';
    take(text);
}

int main() {
    std::vector<uint64_t> ids(NODES);
    std::iota(ids.begin(), ids.end(), 1);
    std::vector<uint32_t> order(NODES);
    std::iota(order.begin(), order.end(), 0);
    std::sort(order.begin(), order.end(), [&](uint32_t a, uint32_t b) { return ids[a] < ids[b]; });
    int64_t tables = 0, summaries = 0;
    state = 1;
    for (uint32_t rounds = 0; rounds < 16; rounds++) {
        auto values = drawn();
        int64_t start = processor_time();
        table(ids, order, values, rounds);
        tables += processor_time() - start;
    }
    state = 1;
    for (uint32_t rounds = 0; rounds < 16; rounds++) {
        auto values = drawn();
        int64_t start = processor_time();
        summary(values, rounds);
        summaries += processor_time() - start;
    }
    printf("bytes written %llu sum %llu\n", (unsigned long long)bytes, (unsigned long long)sum);
    printf("tables %lld\nsummaries %lld\n", (long long)(tables / 1000), (long long)(summaries / 1000));
}
