// Writes FOLDER/links.txt and FOLDER/walk.txt: a ring of nodes with links to the next few, and a walk along it.
// usage: make_table FOLDER NODES LINKS STEPS
#include <cstdint>
#include <cstdio>
#include <cstdlib>
#include <string>

int main(int argc, char **argv) {
    if (argc != 5) return 2;
    std::string folder = argv[1];
    const unsigned long nodes = std::strtoul(argv[2], nullptr, 10);
    const unsigned long links = std::strtoul(argv[3], nullptr, 10);
    const unsigned long steps = std::strtoul(argv[4], nullptr, 10);
    std::FILE *out = std::fopen((folder + "/links.txt").c_str(), "w");
    if (!out) return 1;
    std::fprintf(out, "imdf-links 1\n");
    for (unsigned long n = 0; n < nodes; n++) std::fprintf(out, "node 00000000-0000-4000-8000-%012lx\n", n);
    // Link k starts at node k modulo the nodes, so that the first of each node leads to the next one.
    for (unsigned long k = 0; k < links; k++) {
        const unsigned long from = k % nodes, round = k / nodes;
        std::fprintf(out, "link %lu %lu %lu 00000000-0000-4000-9000-%012lx\n", from, (from + 1 + round * 37) % nodes,
                     100 + (k * 7919) % 90000, k % 65536);
    }
    std::fprintf(out, "end\n");
    std::fclose(out);
    out = std::fopen((folder + "/walk.txt").c_str(), "w");
    if (!out) return 1;
    std::fprintf(out, "imdf-walk 1\nfrom 0\n");
    for (unsigned long s = 0; s < steps; s++) std::fprintf(out, "step %lu\n", s % nodes);
    std::fprintf(out, "end\n");
    std::fclose(out);
}
