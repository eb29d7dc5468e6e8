// Reads a file of tables as surge prints them, judges each line, and writes the same bytes: beside it stands a replay of their
// change text.
//
//   tables FILE
//
// A table is a line that begins with `view `, rows `id,value` whose ids rise below 2^63, where a value is `-` or a number of 64
// bits, and `end`. The status is 1 where a line is none of these.

#include <cstdint>
#include <cstdio>
#include <cstring>
#include <vector>

static std::vector<char> held(const char *name) {
    std::vector<char> bytes;
    FILE *file = fopen(name, "rb");
    if (!file) return bytes;
    fseek(file, 0, SEEK_END);
    bytes.resize((size_t)ftell(file));
    rewind(file);
    if (fread(bytes.data(), 1, bytes.size(), file) != bytes.size()) bytes.clear();
    fclose(file);
    return bytes;
}

// The number that the digits from `at` on spell, and `at` behind them; false where there are none, one leads with 0, or it is 2^63 or more.
static bool number(const char *&at, const char *end, uint64_t &value) {
    const char *first = at;
    value = 0;
    while (at < end && *at >= '0' && *at <= '9' && at - first < 19) value = value * 10 + (uint64_t)(*at++ - '0');
    return at > first && (*first != '0' || at - first == 1) && value < (uint64_t)1 << 63;
}

static bool is_row(const char *at, const char *end, int64_t &before) {
    uint64_t id, value;
    if (!number(at, end, id) || (int64_t)id <= before || at == end || *at++ != ',') return false;
    before = (int64_t)id;
    if (at + 1 == end && *at == '-') return true;
    bool below = at < end && *at == '-';
    if (below) at++;
    return number(at, end, value) && at == end && !(below && value == 0);
}

static bool is_line(const char *at, const char *end, bool &open, int64_t &before) {
    size_t length = (size_t)(end - at);
    if (!open) {
        before = -1;
        return open = length > 5 && memcmp(at, "view ", 5) == 0;
    }
    if (length == 3 && memcmp(at, "end", 3) == 0) {
        open = false;
        return true;
    }
    return is_row(at, end, before);
}

int main(int words, char **word) {
    if (words != 2) return 2;
    std::vector<char> bytes = held(word[1]);
    const char *at = bytes.data(), *end = at + bytes.size();
    bool open = false;
    int64_t before = -1;
    while (at < end) {
        const char *stop = (const char *)memchr(at, '\n', (size_t)(end - at));
        if (!stop || !is_line(at, stop, open, before)) return 1;
        at = stop + 1;
    }
    if (open) return 1;
    return fwrite(bytes.data(), 1, bytes.size(), stdout) == bytes.size() ? 0 : 1;
}
