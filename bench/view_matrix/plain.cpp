// What bench/view_matrix/main.rt.txt times, in plain C++: the same edges, windows as trees of predicates, columns of words,
// the same greedy order, and the same tree order, from a table of all distances.

#include <cstdint>
#include <cstdio>
#include <ctime>
#include <memory>
#include <optional>
#include <utility>
#include <vector>

static uint64_t state = 1;

static uint32_t draw() {
    state = state * 6364136223846793005u + 1442695040888963407u;
    return uint32_t(state >> 32);
}

// Microseconds of the processor that this thread took so far.
static int64_t processor_time() {
    timespec time;
    clock_gettime(CLOCK_THREAD_CPUTIME_ID, &time);
    return int64_t(time.tv_sec) * 1000000 + time.tv_nsec / 1000;
}

struct Place {
    enum Kind { Number, Edge } kind;
    int64_t number;
};

struct Pred {
    enum Kind { And, Or, GreaterOrEqual, Less } kind;
    Place first, second;
    std::vector<std::unique_ptr<Pred>> members;
};

using Column = std::vector<std::optional<int64_t>>;

struct Graph {
    std::vector<Column> columns;
    uint32_t edges;
};

static std::optional<int64_t> read_at(const Place& place, const Graph& graph, uint32_t edge) {
    if (place.kind == Place::Number) return place.number;
    if (size_t(place.number) >= graph.columns.size()) return std::nullopt;
    return graph.columns[place.number][edge];
}

static bool holds(const Pred& pred, const Graph& graph, uint32_t edge) {
    switch (pred.kind) {
    case Pred::And:
        for (auto& member : pred.members) if (!holds(*member, graph, edge)) return false;
        return true;
    case Pred::Or:
        for (auto& member : pred.members) if (holds(*member, graph, edge)) return true;
        return false;
    default:
        auto first = read_at(pred.first, graph, edge);
        auto second = read_at(pred.second, graph, edge);
        if (!first || !second) return false;
        return pred.kind == Pred::Less ? *first < *second : *first >= *second;
    }
}

static std::unique_ptr<Pred> compare(Pred::Kind kind, int64_t number) {
    auto pred = std::make_unique<Pred>();
    pred->kind = kind;
    pred->first = {Place::Edge, 0};
    pred->second = {Place::Number, number};
    return pred;
}

static std::unique_ptr<Pred> window(uint32_t from) {
    auto pred = std::make_unique<Pred>();
    pred->kind = Pred::And;
    pred->members.push_back(compare(Pred::GreaterOrEqual, from));
    pred->members.push_back(compare(Pred::Less, int64_t(from) + 8));
    return pred;
}

struct Matrix {
    std::vector<uint64_t> live, empty;
    std::vector<std::vector<uint64_t>> columns;
};

static uint64_t distance(const Matrix& matrix, const std::vector<uint64_t>& first, const std::vector<uint64_t>& second) {
    uint64_t total = 0;
    for (size_t place = 0; place < matrix.live.size(); place++)
        total += __builtin_popcountll((first[place] ^ second[place]) & matrix.live[place]);
    return total;
}

// The tree order by the table of all distances: between[v][count] is that of view v from the empty column. The tree's weight
// and the order's length go where they are told.
static std::vector<uint32_t> tree_order(const Matrix& matrix, uint32_t count, uint64_t& weight, uint64_t& length) {
    std::vector<std::vector<uint64_t>> between(count, std::vector<uint64_t>(count + 1, 0));
    for (uint32_t view = 0; view < count; view++) {
        between[view][count] = distance(matrix, matrix.empty, matrix.columns[view]);
        for (uint32_t other = 0; other < view; other++)
            between[view][other] = between[other][view] = distance(matrix, matrix.columns[other], matrix.columns[view]);
    }
    std::vector<uint32_t> inside = {count};
    std::vector<std::vector<uint32_t>> children(count + 1);
    std::vector<bool> joined(count, false);
    weight = 0;
    while (inside.size() <= count) {
        uint32_t next = count, parent = count;
        for (uint32_t view = 0; view < count; view++)
            for (uint32_t point : inside)
                if (!joined[view] && (next == count || between[view][point] < between[next][parent])) next = view, parent = point;
        joined[next] = true;
        inside.push_back(next);
        children[parent].push_back(next);
        weight += between[next][parent];
    }
    std::vector<uint32_t> order, waiting(children[count].rbegin(), children[count].rend());
    while (!waiting.empty()) {
        uint32_t view = waiting.back();
        waiting.pop_back();
        order.push_back(view);
        waiting.insert(waiting.end(), children[view].rbegin(), children[view].rend());
    }
    length = 0;
    uint32_t last = count;
    for (uint32_t view : order) length += between[view][last], last = view;
    return order;
}

static uint64_t hash(const std::vector<uint32_t>& order) {
    uint64_t sum = 0;
    for (uint32_t view : order) sum = sum * 31 + view;
    return sum;
}

static void timed(uint32_t edges, uint32_t count) {
    state = 1;
    Graph graph;
    graph.edges = edges;
    graph.columns.resize(1);
    for (uint32_t edge = 0; edge < edges; edge++) graph.columns[0].push_back(int64_t(draw() % count));
    std::vector<std::unique_ptr<Pred>> views;
    for (uint32_t place = 0; place < count; place++) views.push_back(window(place * 37 % count));

    int64_t start = processor_time();
    size_t words = (edges + 63) / 64;
    Matrix matrix;
    matrix.live.assign(words, 0);
    matrix.empty.assign(words, 0);
    for (uint32_t edge = 0; edge < edges; edge++) matrix.live[edge / 64] |= uint64_t(1) << (edge % 64);
    for (auto& view : views) {
        std::vector<uint64_t> column(words, 0);
        for (uint32_t edge = 0; edge < edges; edge++)
            if (holds(*view, graph, edge)) column[edge / 64] |= uint64_t(1) << (edge % 64);
        matrix.columns.push_back(std::move(column));
    }
    int64_t build = processor_time() - start;

    start = processor_time();
    std::vector<uint32_t> rest, order;
    for (uint32_t view = 0; view < count; view++) rest.push_back(view);
    const std::vector<uint64_t>* last = &matrix.empty;
    while (!rest.empty()) {
        size_t best = 0;
        uint64_t least = distance(matrix, *last, matrix.columns[rest[0]]);
        for (size_t place = 1; place < rest.size(); place++) {
            uint64_t found = distance(matrix, *last, matrix.columns[rest[place]]);
            if (found < least || (found == least && rest[place] < rest[best])) {
                best = place;
                least = found;
            }
        }
        uint32_t next = rest[best];
        rest.erase(rest.begin() + best);
        order.push_back(next);
        last = &matrix.columns[next];
    }
    int64_t greedy = processor_time() - start;

    start = processor_time();
    uint64_t differences = 0;
    last = &matrix.empty;
    for (uint32_t view : order) {
        std::vector<std::pair<uint32_t, bool>> changes;
        const auto& column = matrix.columns[view];
        for (size_t place = 0; place < words; place++) {
            uint64_t word = ((*last)[place] ^ column[place]) & matrix.live[place];
            for (; word != 0; word &= word - 1) {
                uint32_t bit = __builtin_ctzll(word);
                changes.push_back({uint32_t(64 * place + bit), (column[place] >> bit & 1) != 0});
            }
        }
        differences += changes.size();
        last = &column;
    }
    int64_t stream = processor_time() - start;

    start = processor_time();
    uint64_t weight, length;
    std::vector<uint32_t> walk = tree_order(matrix, count, weight, length);
    int64_t tree = processor_time() - start;

    std::printf("%u views, order %llu, %llu differences, tree order %llu %llu %llu\n", count, (unsigned long long)hash(order),
                (unsigned long long)differences, (unsigned long long)hash(walk), (unsigned long long)weight, (unsigned long long)length);
    std::printf("build_%u %lld\ngreedy_%u %lld\ndifferences_%u %lld\ntree_%u %lld\n", count, (long long)build, count,
                (long long)greedy, count, (long long)stream, count, (long long)tree);
}

int main() {
    timed(4000000, 64);
    timed(400000, 1024);
}
