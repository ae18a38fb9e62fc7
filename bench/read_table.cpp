// The yardstick of bench/price.sh: a plain reader of a table and a walk, which keeps the rows, checks the forms and sums
// the costs. It is no part of the product.
// usage: read_table FOLDER
#include <cstdint>
#include <cstdio>
#include <cstdlib>
#include <cstring>
#include <string>
#include <string_view>
#include <vector>

struct Id {
    uint64_t high, low;
};

struct Row {
    uint32_t from, to, cost;
    Id via;
};

static std::string whole(const std::string &path) {
    std::FILE *in = std::fopen(path.c_str(), "r");
    if (!in) std::exit(1);
    std::fseek(in, 0, SEEK_END);
    std::string text(std::ftell(in), '\0');
    std::fseek(in, 0, SEEK_SET);
    if (std::fread(text.data(), 1, text.size(), in) != text.size()) std::exit(1);
    std::fclose(in);
    return text;
}

struct Reader {
    std::string_view rest;

    std::string_view line() {
        const size_t end = rest.find('\n');
        if (end == std::string_view::npos) std::exit(2);
        std::string_view found = rest.substr(0, end);
        rest.remove_prefix(end + 1);
        return found;
    }
};

static bool starts(std::string_view &line, std::string_view front) {
    if (line.substr(0, front.size()) != front) return false;
    line.remove_prefix(front.size());
    return true;
}

// A decimal number without leading zeros, and the space behind it where there is one.
static bool number(std::string_view &line, uint64_t &value) {
    size_t at = 0;
    value = 0;
    while (at < line.size() && line[at] >= '0' && line[at] <= '9') {
        if (at > 18) return false;
        value = value * 10 + (line[at] - '0');
        at++;
    }
    if (at == 0 || (line[0] == '0' && at > 1)) return false;
    if (at < line.size()) {
        if (line[at] != ' ') return false;
        at++;
    }
    line.remove_prefix(at);
    return true;
}

static bool id(std::string_view line, Id &value) {
    if (line.size() != 36) return false;
    uint64_t parts[2] = {0, 0};
    int digits = 0;
    for (int at = 0; at < 36; at++) {
        const char c = line[at];
        if (at == 8 || at == 13 || at == 18 || at == 23) {
            if (c != '-') return false;
            continue;
        }
        int digit;
        if (c >= '0' && c <= '9') digit = c - '0';
        else if (c >= 'a' && c <= 'f') digit = c - 'a' + 10;
        else return false;
        parts[digits / 16] = parts[digits / 16] * 16 + digit;
        digits++;
    }
    value = {parts[0], parts[1]};
    return true;
}

int main(int argc, char **argv) {
    if (argc != 2) return 2;
    const std::string folder = argv[1];
    const std::string links_text = whole(folder + "/links.txt");
    Reader reader{links_text};
    std::vector<Id> nodes;
    std::vector<Row> links;
    if (reader.line() != "imdf-links 1") return 2;
    std::string_view line = reader.line();
    while (starts(line, "node ")) {
        Id node;
        if (!id(line, node)) return 2;
        nodes.push_back(node);
        line = reader.line();
    }
    while (starts(line, "link ")) {
        uint64_t from, to, cost;
        Id via;
        if (!number(line, from) || !number(line, to) || !number(line, cost) || !id(line, via)) return 2;
        if (from >= nodes.size() || to >= nodes.size() || cost > 6700000) return 2;
        links.push_back({uint32_t(from), uint32_t(to), uint32_t(cost), via});
        line = reader.line();
    }
    if (line != "end" || !reader.rest.empty()) return 2;
    const std::string walk_text = whole(folder + "/walk.txt");
    Reader walk{walk_text};
    if (walk.line() != "imdf-walk 1") return 2;
    line = walk.line();
    uint64_t at, step, sum = 0, place = 0;
    if (!starts(line, "from ") || !number(line, at) || at >= nodes.size()) return 2;
    std::vector<uint32_t> steps;
    line = walk.line();
    while (starts(line, "step ")) {
        if (!number(line, step) || step > UINT32_MAX) return 2;
        steps.push_back(uint32_t(step));
        line = walk.line();
    }
    if (line != "end" || !walk.rest.empty()) return 2;
    for (uint32_t k : steps) {
        place++;
        if (k >= links.size() || links[k].from != at) {
            std::printf("broken %lu\n", place);
            return 1;
        }
        at = links[k].to;
        sum += links[k].cost;
    }
    std::printf("cost %lu\n", sum);
}
