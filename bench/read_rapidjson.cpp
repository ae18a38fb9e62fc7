// Reads a file, then its bytes as a RapidJSON document whose numbers stay tokens, and prints the seconds of the second step.
// usage: read_rapidjson FILE
#include <rapidjson/document.h>
#include <chrono>
#include <cstdio>
#include <fstream>
#include <string>

int main(int count, char** words) {
    if (count != 2) return 2;
    std::ifstream file(words[1], std::ios::binary | std::ios::ate);
    if (!file) return 2;
    std::string bytes(static_cast<size_t>(file.tellg()), '\0');
    file.seekg(0);
    if (!file.read(bytes.data(), static_cast<std::streamsize>(bytes.size()))) return 2;
    auto start = std::chrono::steady_clock::now();
    rapidjson::Document document;
    document.Parse<rapidjson::kParseNumbersAsStringsFlag>(bytes.data(), bytes.size());
    std::chrono::duration<double> spent = std::chrono::steady_clock::now() - start;
    if (document.HasParseError()) return 1;
    std::printf("%.9f\n", spent.count());
}
