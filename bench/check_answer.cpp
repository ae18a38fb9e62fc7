// The yardstick of bench/verify.sh: a plain loop over the links that checks a certificate, with no memory beyond what was
// read, as `verify` has none. It is no part of the product, and reads the forms without judging them.
// usage: check_answer make FOLDER TO    writes FOLDER/answer.txt, a least walk from node 0 and its potentials
//        check_answer read FOLDER       reads both files
//        check_answer check FOLDER      reads them and judges the answer
//        check_answer array FOLDER      the same, with a potential for each node in an array
#include <algorithm>
#include <cstdint>
#include <cstdio>
#include <cstdlib>
#include <cstring>
#include <queue>
#include <string>
#include <utility>
#include <vector>

struct Row {
    uint32_t from, to, cost;
};

struct Potential {
    uint32_t node;
    uint64_t value;
};

static std::vector<Row> links;
static std::vector<uint32_t> steps;
static std::vector<Potential> at;
static uint64_t nodes, start, finish, cost;

static std::string whole(const std::string &path) {
    std::FILE *in = std::fopen(path.c_str(), "r");
    if (!in) std::exit(3);
    std::fseek(in, 0, SEEK_END);
    std::string text(std::ftell(in), '\0');
    std::fseek(in, 0, SEEK_SET);
    if (std::fread(text.data(), 1, text.size(), in) != text.size()) std::exit(3);
    std::fclose(in);
    return text;
}

static void read_links(const std::string &folder) {
    const std::string text = whole(folder + "/links.txt");
    char *line = const_cast<char *>(text.c_str());
    while (*line) {
        if (!std::strncmp(line, "node ", 5)) nodes++;
        if (!std::strncmp(line, "link ", 5)) {
            char *rest = line + 5;
            const uint32_t from = std::strtoul(rest, &rest, 10), to = std::strtoul(rest, &rest, 10);
            links.push_back({from, to, uint32_t(std::strtoul(rest, &rest, 10))});
        }
        line = std::strchr(line, '\n') + 1;
    }
}

static void read_answer(const std::string &folder) {
    const std::string text = whole(folder + "/answer.txt");
    char *line = const_cast<char *>(text.c_str());
    while (*line) {
        char *rest = std::strchr(line, '\n'), *words = line;
        while (*words != ' ' && *words != '\n') words++;
        if (!std::strncmp(line, "from ", 5)) start = std::strtoul(words, nullptr, 10);
        if (!std::strncmp(line, "to ", 3)) finish = std::strtoul(words, nullptr, 10);
        if (!std::strncmp(line, "route ", 6)) cost = std::strtoull(words, nullptr, 10);
        if (!std::strncmp(line, "step ", 5)) steps.push_back(std::strtoul(words, nullptr, 10));
        if (!std::strncmp(line, "at ", 3)) {
            const uint32_t node = std::strtoul(words, &words, 10);
            at.push_back({node, std::strtoull(words, nullptr, 10)});
        }
        line = rest + 1;
    }
}

// Dijkstra's least costs from node 0.
static void make(const std::string &folder, uint32_t to) {
    std::vector<std::vector<uint32_t>> leaving(nodes);
    for (uint32_t k = 0; k < links.size(); k++) leaving[links[k].from].push_back(k);
    std::vector<uint64_t> least(nodes, UINT64_MAX);
    std::vector<uint32_t> last(nodes);
    std::priority_queue<std::pair<uint64_t, uint32_t>, std::vector<std::pair<uint64_t, uint32_t>>, std::greater<>> queue;
    least[0] = 0;
    queue.push({0, 0});
    while (!queue.empty()) {
        const auto [here, node] = queue.top();
        queue.pop();
        if (here > least[node]) continue;
        for (uint32_t k : leaving[node])
            if (here + links[k].cost < least[links[k].to]) {
                least[links[k].to] = here + links[k].cost;
                last[links[k].to] = k;
                queue.push({least[links[k].to], links[k].to});
            }
    }
    std::vector<uint32_t> walk;
    for (uint32_t node = to; node != 0; node = links[last[node]].from) walk.push_back(last[node]);
    std::FILE *out = std::fopen((folder + "/answer.txt").c_str(), "w");
    std::fprintf(out, "imdf-answer 1\nfrom 0\nto %u\nroute %lu\n", to, least[to]);
    for (auto step = walk.rbegin(); step != walk.rend(); ++step) std::fprintf(out, "step %u\n", *step);
    for (uint32_t node = 0; node < nodes; node++)
        if (least[node] < least[to]) std::fprintf(out, "at %u %lu\n", node, least[node]);
    std::fprintf(out, "end\n");
    std::fclose(out);
}

template <typename PotentialOf> static const char *judge(PotentialOf potential) {
    uint64_t place = start, sum = 0;
    for (uint32_t step : steps) {
        if (step >= links.size() || links[step].from != place) return "fails step";
        place = links[step].to;
        sum += links[step].cost;
    }
    if (place != finish) return "fails end";
    if (sum != cost) return "fails sum";
    if (potential(start) != 0) return "fails start";
    if (potential(finish) != cost) return "fails finish";
    for (const Row &row : links)
        if (potential(row.to) > potential(row.from) + row.cost) return "fails link";
    return "proved";
}

int main(int argc, char **argv) {
    if (argc < 3) return 2;
    const std::string mode = argv[1], folder = argv[2];
    read_links(folder);
    if (mode == "make") return make(folder, std::strtoul(argv[3], nullptr, 10)), 0;
    read_answer(folder);
    if (mode == "check")
        std::puts(judge([](uint32_t node) {
            const auto found = std::lower_bound(at.begin(), at.end(), node, [](const Potential &p, uint32_t n) { return p.node < n; });
            return found != at.end() && found->node == node ? found->value : cost;
        }));
    if (mode == "array") {
        std::vector<uint64_t> potentials(nodes, cost);
        for (const Potential &p : at) potentials[p.node] = p.value;
        std::puts(judge([&](uint32_t node) { return potentials[node]; }));
    }
}
