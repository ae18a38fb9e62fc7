// Reads a journal into a hash map of what is closed for whom, as restore.sh compares: each byte once, through a buffer of 64 KiB, publications skipped by
// their slots' lengths. usage: read_journal FILE   (prints the seconds, the number of records and how many features are closed)
#include <chrono>
#include <cstdint>
#include <cstdio>
#include <cstring>
#include <string>
#include <unordered_map>

struct Reader {
    FILE *file;
    unsigned char bytes[65536];
    size_t start = 0, end = 0;
    bool fill(size_t wanted) {
        if (end - start >= wanted) return true;
        memmove(bytes, bytes + start, end - start);
        end -= start;
        start = 0;
        end += fread(bytes + end, 1, sizeof bytes - end, file);
        return end >= wanted;
    }
    bool skip(uint64_t count) {
        while (count > 0) {
            if (!fill(1)) return false;
            size_t part = count < end - start ? count : end - start;
            start += part;
            count -= part;
        }
        return true;
    }
};

struct Hash {
    size_t operator()(const std::string &id) const {
        uint64_t low;
        memcpy(&low, id.data() + 8, 8);
        return low * 0x9e3779b97f4a7c15u;
    }
};

static uint64_t number(const unsigned char *at, int count) {
    uint64_t value = 0;
    for (int i = 0; i < count; i++) value = value << 8 | at[i];
    return value;
}

static bool publication(Reader &reader) {
    for (int slot = 0; slot < 17; slot++) {
        if (!reader.fill(1)) return false;
        unsigned char held = reader.bytes[reader.start++];
        if (held > 1) return false;
        if (held == 0) continue;
        if (!reader.fill(8)) return false;
        uint64_t length = number(reader.bytes + reader.start, 8);
        reader.start += 8;
        if (length > 33554432 || !reader.skip(length)) return false;
    }
    return true;
}

int main(int count, char **words) {
    static Reader reader;
    reader.file = count > 1 ? fopen(words[1], "rb") : nullptr;
    if (!reader.file) return 2;
    setvbuf(reader.file, nullptr, _IONBF, 0);
    auto from = std::chrono::steady_clock::now();
    std::unordered_map<std::string, uint16_t, Hash> closed;
    uint64_t records = 0;
    while (reader.fill(1) && reader.bytes[reader.start] == 1) {
        if (!reader.fill(3)) return 1;
        unsigned char kind = reader.bytes[reader.start + 1], worker = reader.bytes[reader.start + 2];
        reader.start += 3;
        if (worker > 16) return 1;
        if (kind == 1) {
            if (!publication(reader)) return 1;
        } else if (kind == 2 || kind == 3) {
            if (!reader.fill(18)) return 1;
            std::string id(reinterpret_cast<char *>(reader.bytes + reader.start), 16);
            uint16_t set = number(reader.bytes + reader.start + 16, 2);
            reader.start += 18;
            if (kind == 2) closed[id] |= set;
            else if ((closed[id] &= ~set) == 0) closed.erase(id);
        } else return 1;
        records++;
        if (!reader.fill(1)) return 1;
    }
    std::chrono::duration<double> seconds = std::chrono::steady_clock::now() - from;
    printf("%.6f %llu %zu\n", seconds.count(), static_cast<unsigned long long>(records), closed.size());
}
