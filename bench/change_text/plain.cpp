// What bench/change_text/main.rt.txt times, as plain loops over buffers: the same tables written as the same change text, each
// block built whole and appended; that text read line by line, each row of a change found in the table before by steps that
// double and then halve; and its tables written, each built whole and handed over as one piece.

#include <charconv>
#include <cstdint>
#include <cstdio>
#include <cstdlib>
#include <cstring>
#include <ctime>
#include <numeric>
#include <string>
#include <string_view>
#include <vector>

static const uint32_t NODES = 100000;
static uint64_t state = 1;
static uint64_t bytes, sum;

struct Val {
    bool some;
    int64_t number;
    bool operator!=(const Val &other) const { return some != other.some || (some && number != other.number); }
};

struct Row {
    uint64_t id;
    Val value;
};

struct Block {
    bool full;
    char how;
    uint32_t rounds;
    std::string head;
    size_t rows;
};

struct Changes {
    std::vector<Block> blocks;
    std::vector<Row> rows;
};

static uint64_t draw() {
    state = state * 6364136223846793005u + 1442695040888963407u;
    return state >> 20;
}

static Val value() {
    uint64_t number = draw();
    switch (number % 4) {
    case 0: return {false, 0};
    case 1: return {true, int64_t(number % 100)};
    case 2: return {true, int64_t(number % 1000000000)};
    default: return {true, -int64_t(number % 1000000)};
    }
}

static void take(std::string_view piece) {
    bytes += piece.size();
    for (size_t i = 0; i < piece.size() / 1000; i++) sum += uint8_t(piece[i]);
}

// One buffer, which is used again for each block and written through a pointer: each line has at most 43 bytes.
struct Text {
    static inline std::vector<char> room;
    char *end;

    explicit Text(size_t rows) {
        if (room.size() < 43 * rows + 256) room.resize(43 * rows + 256);
        end = room.data();
    }
    std::string_view view() const { return {room.data(), size_t(end - room.data())}; }
    void push(std::string_view text) {
        memcpy(end, text.data(), text.size());
        end += text.size();
    }
    template <class N> void number(N number) { end = std::to_chars(end, end + 20, number).ptr; }
    void row(uint64_t id, const Val &value) {
        number(id);
        *end++ = ',';
        if (value.some) number(value.number);
        else *end++ = '-';
        *end++ = '\n';
    }
};

static int64_t processor_time() {
    timespec time;
    clock_gettime(CLOCK_THREAD_CPUTIME_ID, &time);
    return int64_t(time.tv_sec) * 1000000000 + time.tv_nsec;
}

// ---- writing

static void write(std::string &out, const std::vector<uint64_t> &ids, const std::vector<uint32_t> &order, const std::vector<Val> *before, const std::vector<Val> &values, uint32_t rounds) {
    Text text(order.size());
    text.push(before ? "change C.v hops(1) settled " : "view C.v hops(1) settled ");
    text.number(rounds);
    text.push("\n");
    for (uint32_t node : order)
        if (!before || (*before)[node] != values[node]) text.row(ids[node], values[node]);
    text.push("end\n");
    out += text.view();
}

// ---- reading

static bool number(std::string_view text, uint64_t most, uint64_t &number) {
    if (text.empty() || (text[0] == '0' && text.size() > 1)) return false;
    auto done = std::from_chars(text.data(), text.data() + text.size(), number);
    return done.ec == std::errc() && done.ptr == text.data() + text.size() && number <= most;
}

static bool read_row(std::string_view line, Row &row) {
    size_t comma = line.find(',');
    if (comma == line.npos || !number(line.substr(0, comma), INT64_MAX, row.id)) return false;
    std::string_view text = line.substr(comma + 1);
    row.value = {false, 0};
    if (text == "-") return true;
    bool below = !text.empty() && text[0] == '-';
    uint64_t size;
    if (!number(text.substr(below), INT64_MAX, size) || (below && size == 0)) return false;
    row.value = {true, below ? -int64_t(size) : int64_t(size)};
    return true;
}

static bool read_opening(std::string_view line, Block &block) {
    if (line.substr(0, 5) == "view ") block.full = true, line.remove_prefix(5);
    else if (line.substr(0, 7) == "change ") block.full = false, line.remove_prefix(7);
    else return false;
    size_t blank = line.rfind(' ');
    if (blank == line.npos) return false;
    std::string_view last = line.substr(blank + 1), front = line.substr(0, blank);
    if (last == "unsettled") block.how = 'u';
    else {
        uint64_t rounds;
        if (!number(last, UINT32_MAX, rounds)) return false;
        block.rounds = uint32_t(rounds);
        blank = front.rfind(' ');
        if (blank == front.npos) return false;
        std::string_view how = front.substr(blank + 1);
        if (how != "settled" && how != "after") return false;
        block.how = how[0];
        front = front.substr(0, blank);
    }
    block.head = front;
    return !front.empty();
}

static size_t place(const std::vector<Row> &table, size_t from, uint64_t id) {
    size_t low = from, high = table.size(), step = 1;
    while (step <= high - low) {
        if (table[low + step - 1].id >= id) {
            high = low + step - 1;
            break;
        }
        low += step;
        step *= 2;
    }
    while (low < high) {
        size_t middle = low + (high - low) / 2;
        if (table[middle].id < id) low = middle + 1;
        else high = middle;
    }
    return low;
}

static bool read(std::string_view text, Changes &changes) {
    std::vector<Row> table;
    Block block;
    char last = 'u';
    bool open = false;
    uint64_t low = 0;
    size_t from = 0;
    while (!text.empty()) {
        auto end = static_cast<const char *>(memchr(text.data(), '\n', text.size()));
        if (!end) return false;
        std::string_view line = text.substr(0, end - text.data());
        text.remove_prefix(line.size() + 1);
        if (!open) {
            if (!read_opening(line, block) || (!block.full && (last == 'u' || block.how == 'u'))) return false;
            block.rows = 0;
            open = true;
        } else if (line == "end") {
            if (block.full) table.assign(changes.rows.end() - block.rows, changes.rows.end());
            last = block.how;
            changes.blocks.push_back(std::move(block));
            open = false;
            low = 0;
            from = 0;
        } else {
            Row row;
            if (!read_row(line, row) || row.id < low || block.how == 'u') return false;
            if (!block.full) {
                size_t at = place(table, from, row.id);
                if (at == table.size() || table[at].id != row.id || !(table[at].value != row.value)) return false;
                table[at] = row;
                from = at + 1;
            }
            changes.rows.push_back(row);
            block.rows++;
            low = row.id + 1;
        }
    }
    return !open;
}

// ---- replaying

static void replay(const Changes &changes) {
    std::vector<Row> table;
    const Row *row = changes.rows.data();
    for (const Block &block : changes.blocks) {
        if (block.full) table.assign(row, row + block.rows);
        else {
            size_t from = 0;
            for (size_t i = 0; i < block.rows; i++) {
                from = place(table, from, row[i].id);
                table[from++] = row[i];
            }
        }
        row += block.rows;
        Text text(table.size() + block.head.size() / 43);
        text.push("view ");
        text.push(block.head);
        text.push(block.how == 's' ? " settled " : block.how == 'a' ? " after " : " unsettled");
        if (block.how != 'u') text.number(block.rounds);
        text.push("\n");
        for (const Row &held : table) text.row(held.id, held.value);
        text.push("end\n");
        take(text.view());
    }
}

int main() {
    std::vector<uint64_t> ids(NODES);
    std::iota(ids.begin(), ids.end(), 1);
    std::vector<uint32_t> order(NODES);
    std::iota(order.begin(), order.end(), 0);
    std::vector<Val> values, before;
    for (uint32_t i = 0; i < NODES; i++) values.push_back(value());
    std::string text;
    int64_t writing = 0;
    for (uint32_t rounds = 0; rounds < 64; rounds++) {
        int64_t start = processor_time();
        write(text, ids, order, rounds ? &before : nullptr, values, rounds);
        writing += processor_time() - start;
        before = values;
        for (size_t i = rounds; i < NODES; i += 100) values[i] = value();
    }
    Changes changes;
    int64_t start = processor_time();
    if (!read(text, changes)) {
        puts("not read");
        return 1;
    }
    int64_t reading = processor_time() - start;
    start = processor_time();
    replay(changes);
    int64_t replaying = processor_time() - start;
    printf("text %zu tables %llu sum %llu\n", text.size(), (unsigned long long)bytes, (unsigned long long)sum);
    printf("writing %lld\nreading %lld\nreplaying %lld\n", (long long)(writing / 1000), (long long)(reading / 1000), (long long)(replaying / 1000));
}
