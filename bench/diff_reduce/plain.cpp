// What bench/diff_reduce/main.rt.txt does, in plain C++: the load and the steps with a hash map of counts, the inserts with
// layers, each at least twice as long as the next newer one.
#include <algorithm>
#include <cassert>
#include <cstdint>
#include <cstdio>
#include <ctime>
#include <tuple>
#include <unordered_map>
#include <utility>
#include <vector>

using Fed = std::vector<std::pair<uint32_t, uint32_t>>;
using Made = std::vector<std::pair<std::pair<uint32_t, uint64_t>, int64_t>>;
using Time = std::pair<uint32_t, uint32_t>;

// Nanoseconds of the processor that this thread took so far.
static int64_t processor_time() {
    timespec now;
    clock_gettime(CLOCK_THREAD_CPUTIME_ID, &now);
    return int64_t(now.tv_sec) * 1000000000 + now.tv_nsec;
}

// Microseconds of the processor since a moment.
static int64_t since(int64_t start) {
    return (processor_time() - start) / 1000;
}

struct Draws {
    uint64_t state = 1;

    uint32_t draw(uint32_t below) {
        state = state * 6364136223846793005u + 1442695040888963407u;
        return uint32_t(state >> 33) % below;
    }
};

static Fed batch(Draws& draws, uint32_t keys, uint32_t first, uint32_t count) {
    Fed list;
    for (uint32_t i = 0; i < count; i++) {
        list.emplace_back(draws.draw(keys), first + i);
    }
    std::sort(list.begin(), list.end());
    return list;
}

// Counts the records of a batch; what was made, key by key.
static Made step(std::unordered_map<uint32_t, uint64_t>& counts, const Fed& fed, uint64_t& evaluations) {
    Made made;
    for (size_t i = 0; i < fed.size();) {
        uint32_t key = fed[i].first;
        uint64_t more = 0;
        for (; i < fed.size() && fed[i].first == key; i++) {
            more++;
        }
        uint64_t& count = counts[key];
        if (count != 0) {
            made.push_back({{key, count}, -1});
        }
        count += more;
        made.push_back({{key, count}, 1});
        evaluations++;
    }
    return made;
}

static uint64_t total(const Made& made) {
    uint64_t sum = 0;
    for (const auto& entry : made) {
        sum += entry.first.second * uint64_t(entry.second);
    }
    return sum;
}

// One key that changes in each of 200 rounds of eight positions: what was fed and made of it, at their times.
struct Touched {
    std::vector<std::pair<uint32_t, Time>> fed;
    std::vector<std::pair<std::pair<uint64_t, int64_t>, Time>> made;
};

static bool leq(Time s, Time t) {
    return s.first <= t.first && s.second <= t.second;
}

// Feeds a value; the sum of the counts that are made.
static uint64_t touch(Touched& key, uint32_t value, Time t) {
    key.fed.push_back({value, t});
    std::vector<uint32_t> values;
    for (const auto& entry : key.fed) {
        if (leq(entry.second, t)) {
            values.push_back(entry.first);
        }
    }
    std::sort(values.begin(), values.end());
    values.erase(std::unique(values.begin(), values.end()), values.end());
    std::vector<std::pair<uint64_t, int64_t>> change;
    for (const auto& entry : key.made) {
        if (leq(entry.second, t)) {
            change.push_back({entry.first.first, -entry.first.second});
        }
    }
    change.push_back({values.size(), 1});
    std::sort(change.begin(), change.end());
    uint64_t sum = 0;
    for (size_t i = 0; i < change.size();) {
        uint64_t count = change[i].first;
        int64_t weight = 0;
        for (; i < change.size() && change[i].first == count; i++) {
            weight += change[i].second;
        }
        if (weight != 0) {
            key.made.push_back({{count, weight}, t});
            sum += count * uint64_t(weight);
        }
    }
    return sum;
}

// Two hundred rounds of each of some positions.
static uint64_t laps(Touched& key, uint32_t from, uint32_t to, uint64_t& evaluations) {
    uint64_t sum = 0;
    for (uint32_t position = from; position < to; position++) {
        for (uint32_t round = 0; round < 200; round++) {
            sum += touch(key, round % 100, {position, round});
            evaluations++;
        }
    }
    return sum;
}

template <typename V>
using Entry = std::pair<std::tuple<uint32_t, V, Time>, int64_t>;

// Puts a batch down as the newest layer, and merges the newest layers while one is less than twice as long as the next.
template <typename V, typename Batch>
static void insert(std::vector<std::vector<Entry<V>>>& trace, const Batch& batch, Time t) {
    std::vector<Entry<V>> newest;
    for (const auto& entry : batch) {
        newest.push_back({{entry.first.first, entry.first.second, t}, entry.second});
    }
    size_t sum = newest.size();
    while (!trace.empty() && sum > trace.back().size() / 2) {
        sum += trace.back().size();
        std::vector<Entry<V>> merged;
        merged.reserve(sum);
        std::merge(trace.back().begin(), trace.back().end(), newest.begin(), newest.end(), std::back_inserter(merged));
        newest.swap(merged);
        trace.pop_back();
    }
    trace.push_back(std::move(newest));
}

// A batch of records, each once.
static std::vector<std::pair<std::pair<uint32_t, uint32_t>, int64_t>> once(const Fed& fed) {
    std::vector<std::pair<std::pair<uint32_t, uint32_t>, int64_t>> list;
    for (const auto& record : fed) {
        list.push_back({record, 1});
    }
    return list;
}

struct Measured {
    int64_t load, steps, inserts;
    uint64_t sum, evaluations;
};

static Measured measured(uint32_t records) {
    Measured told{};
    uint32_t keys = records / 10;
    Draws draws;
    Fed first = batch(draws, keys, 0, records);
    std::vector<Fed> deltas;
    for (uint32_t i = 0; i < 100; i++) {
        deltas.push_back(batch(draws, keys, records + 1000 * i, 1000));
    }
    std::unordered_map<uint32_t, uint64_t> counts;
    int64_t start = processor_time();
    Made loaded = step(counts, first, told.evaluations);
    told.load = since(start);
    std::vector<Made> made;
    start = processor_time();
    for (const Fed& delta : deltas) {
        made.push_back(step(counts, delta, told.evaluations));
    }
    told.steps = since(start);
    std::vector<std::vector<Entry<uint32_t>>> input;
    std::vector<std::vector<Entry<uint64_t>>> output;
    insert(input, once(first), {0, 0});
    insert(output, loaded, {0, 0});
    start = processor_time();
    for (uint32_t i = 0; i < 100; i++) {
        insert(input, once(deltas[i]), {i + 1, 0});
    }
    for (uint32_t i = 0; i < 100; i++) {
        insert(output, made[i], {i + 1, 0});
    }
    told.inserts = since(start);
    told.sum = total(loaded);
    for (const Made& batch : made) {
        told.sum += total(batch);
    }
    size_t kept = 0;
    for (const auto& layer : input) {
        kept += layer.size();
    }
    assert(kept == size_t(records) + 100000);
    return told;
}

int main() {
    Measured few = measured(250000);
    Measured many = measured(1000000);
    Touched key;
    uint64_t evaluations = 0;
    uint64_t sum = laps(key, 0, 3, evaluations);
    int64_t start = processor_time();
    sum += laps(key, 3, 4, evaluations);
    int64_t fourth = since(start);
    sum += laps(key, 4, 7, evaluations);
    start = processor_time();
    sum += laps(key, 7, 8, evaluations);
    int64_t last = since(start);
    printf("counts %lu %lu %lu %lu %lu %lu\n", few.sum, few.evaluations, many.sum, many.evaluations, sum, evaluations);
    printf("load_250000 %ld\nsteps_250000 %ld\ninserts_250000 %ld\n", few.load, few.steps, few.inserts);
    printf("load_1000000 %ld\nsteps_1000000 %ld\ninserts_1000000 %ld\n", many.load, many.steps, many.inserts);
    printf("rounds_at_fourth %ld\nrounds_at_last %ld\n", fourth, last);
}
