// Makes the table of all links from the rows that `venue_calls FOLDER` prints: `write_links ROWS`. The text goes to standard output; the
// milliseconds from rows in memory to the last byte written go to standard error, by the clock of the processor. A length is the square
// root of the squares summed in 128 bits, rounded up to whole centimetres.
#include <charconv>
#include <cmath>
#include <cstdint>
#include <cstdio>
#include <cstring>
#include <ctime>
#include <fstream>
#include <iostream>
#include <string>
#include <unistd.h>
#include <vector>

namespace {

using wide = unsigned __int128;

constexpr std::uint64_t scale = 10'000'000;
const wide square_centimetre = static_cast<wide>(4'000'000'000) * 1'000'000'000;

struct node {
    std::string id;
    std::int64_t x, y;
};

struct area {
    std::string via;
    std::vector<std::uint32_t> members;
};

struct passage {
    std::uint32_t from, to, cost;
    std::string via;
};

struct ground {
    std::vector<node> nodes;
    std::vector<area> areas;
    std::vector<passage> passages;
};

ground read(const char *name) {
    std::ifstream in(name);
    std::size_t nodes, areas, passages;
    in >> nodes >> areas >> passages;
    ground made;
    made.nodes.resize(nodes);
    for (auto &n : made.nodes) in >> n.id >> n.x >> n.y;
    made.areas.resize(areas);
    for (auto &a : made.areas) {
        std::size_t count;
        in >> a.via >> count;
        a.members.resize(count);
        for (auto &m : a.members) in >> m;
    }
    made.passages.resize(passages);
    for (auto &p : made.passages) in >> p.from >> p.to >> p.cost >> p.via;
    return made;
}

std::uint32_t length(const node &a, const node &b) {
    const std::uint64_t dx = (a.x < b.x ? b.x - a.x : a.x - b.x) * scale, dy = (a.y < b.y ? b.y - a.y : a.y - b.y) * scale;
    const wide square = static_cast<wide>(dx) * dx + static_cast<wide>(dy) * dy;
    const std::uint64_t whole = static_cast<std::uint64_t>((square + square_centimetre - 1) / square_centimetre);
    std::uint64_t root = static_cast<std::uint64_t>(std::sqrt(static_cast<double>(whole)));
    while (root * root < whole) ++root;
    while (root > 0 && (root - 1) * (root - 1) >= whole) --root;
    return static_cast<std::uint32_t>(root);
}

class text {
public:
    explicit text(std::size_t room) : bytes(room) {}
    void word(const char *start, std::size_t size) {
        std::memcpy(bytes.data() + used, start, size);
        used += size;
    }
    void number(std::uint32_t n) { used = std::to_chars(bytes.data() + used, bytes.data() + bytes.size(), n).ptr - bytes.data(); }
    void link(std::uint32_t from, std::uint32_t to, std::uint32_t cost, const std::string &via) {
        word("link ", 5);
        number(from);
        word(" ", 1);
        number(to);
        word(" ", 1);
        number(cost);
        word(" ", 1);
        word(via.data(), via.size());
        word("\n", 1);
    }
    bool write() const {
        for (std::size_t done = 0; done < used;) {
            const auto count = ::write(1, bytes.data() + done, used - done);
            if (count <= 0) return false;
            done += static_cast<std::size_t>(count);
        }
        return true;
    }

private:
    std::vector<char> bytes;
    std::size_t used = 0;
};

bool write_table(const ground &g) {
    std::size_t links = g.passages.size();
    for (const auto &a : g.areas)
        if (a.members.size() > 1) links += a.members.size() * (a.members.size() - 1);
    text out(64 + 42 * g.nodes.size() + 80 * links);
    out.word("imdf-links 1\n", 13);
    for (const auto &n : g.nodes) {
        out.word("node ", 5);
        out.word(n.id.data(), n.id.size());
        out.word("\n", 1);
    }
    for (const auto &a : g.areas)
        for (auto from : a.members)
            for (auto to : a.members)
                if (from != to) out.link(from, to, length(g.nodes[from], g.nodes[to]), a.via);
    for (const auto &p : g.passages) out.link(p.from, p.to, p.cost, p.via);
    out.word("end\n", 4);
    return out.write();
}

}  // namespace

int main(int, char **words) {
    const ground g = read(words[1]);
    const auto start = std::clock();
    if (!write_table(g)) return 1;
    std::fprintf(stderr, "%.1f\n", 1000.0 * static_cast<double>(std::clock() - start) / CLOCKS_PER_SEC);
    return 0;
}
