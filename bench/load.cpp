// Puts requests on a server at 127.0.0.1: load PORT REQUEST CONNECTIONS AT_ONCE SECONDS (same | free | anew)
// As many threads as connections. Each writes the request in the file REQUEST so many times at once, waits for as many replies, and does
// it again. `same`: each reply has the status and the body of the first. `free`: each has status 200. `anew`: as `same`, by a connection
// for each request, which the server is to close. Prints the requests, the requests a second, in microseconds the middle, the ninetieth
// and the ninety-ninth of a hundred of the times and the longest, and how many times were above 5, 10 and 20 milliseconds. A time is
// that of one write and its replies, and of the connect in `anew`.
#include <algorithm>
#include <arpa/inet.h>
#include <chrono>
#include <cstdint>
#include <cstdio>
#include <cstdlib>
#include <cstring>
#include <fstream>
#include <iterator>
#include <netinet/tcp.h>
#include <pthread.h>
#include <string>
#include <string_view>
#include <strings.h>
#include <sys/socket.h>
#include <thread>
#include <unistd.h>
#include <vector>

using Clock = std::chrono::steady_clock;
using Text = std::string_view;

[[noreturn]] void fail(const char* what) {
    std::fprintf(stderr, "load: %s\n", what);
    std::_Exit(1);
}

size_t content_length(Text head) {
    const Text name = "\r\ncontent-length:";
    for (size_t at = 0; at + name.size() < head.size(); ++at)
        if (strncasecmp(head.data() + at, name.data(), name.size()) == 0) return std::strtoull(head.data() + at + name.size(), nullptr, 10);
    fail("a reply without content-length");
}

struct Reply {
    Text status, body;  // the status line's first twelve bytes tell version and status
};

class Connection {
    int socket = -1;
    std::vector<char> bytes = std::vector<char>(1 << 16);
    size_t from = 0, to = 0;   // where the bytes that wait begin and end
    std::string head;          // of the reply before
    size_t length = 0;         // that reply's body

    Text waiting() const { return {bytes.data() + from, to - from}; }

    // Reads more. Whether the server has not closed.
    bool more() {
        if (from == to) from = to = 0;
        if (to == bytes.size() && from > 0) {
            std::copy(bytes.begin() + from, bytes.end(), bytes.begin());
            to -= from;
            from = 0;
        }
        if (to == bytes.size()) bytes.resize(2 * bytes.size());
        ssize_t count = recv(socket, bytes.data() + to, bytes.size() - to, 0);
        if (count < 0) fail("a read failed, or no reply within ten seconds");
        to += count;
        return count > 0;
    }

    void read_head() {
        if (waiting().substr(0, head.size()) == head && !head.empty()) return;
        size_t end;
        while ((end = waiting().find("\r\n\r\n")) == Text::npos)
            if (!more()) fail("the server closed before a reply's head");
        head = waiting().substr(0, end + 4);
        length = content_length(head);
    }

public:
    void open(const sockaddr_in& address) {
        socket = ::socket(AF_INET, SOCK_STREAM, 0);
        const int one = 1;
        const timeval wait{10, 0};
        setsockopt(socket, IPPROTO_TCP, TCP_NODELAY, &one, sizeof one);
        setsockopt(socket, SOL_SOCKET, SO_RCVTIMEO, &wait, sizeof wait);
        if (connect(socket, reinterpret_cast<const sockaddr*>(&address), sizeof address) < 0) fail("no connection");
        from = to = 0;
    }

    void write(Text text) {
        while (!text.empty()) {
            ssize_t count = send(socket, text.data(), text.size(), MSG_NOSIGNAL);
            if (count <= 0) fail("a write failed");
            text.remove_prefix(count);
        }
    }

    // The next reply, which stays until the next read.
    Reply read() {
        if (from == to) more();
        read_head();
        while (to - from < head.size() + length)
            if (!more()) fail("the server closed within a reply");
        Reply reply{Text(bytes.data() + from, 12), Text(bytes.data() + from + head.size(), length)};
        from += head.size() + length;
        return reply;
    }

    void await_close() {
        if (from != to || more()) fail("bytes behind the last reply");
    }

    void close() { ::close(socket); }
};

struct Task {
    sockaddr_in address;
    std::string request, requests;  // one, and as many as are written at once
    int at_once;
    double seconds;
    bool free, anew;
    std::string status, body;  // of the first reply
    pthread_barrier_t ready;
};

struct Tally {
    std::vector<uint32_t> times;  // in nanoseconds
    uint64_t requests = 0;
    double seconds = 0;
};

void judge(const Task& task, const Reply& reply) {
    if (task.free ? reply.status != "HTTP/1.1 200" : reply.status != task.status || reply.body != task.body) fail("another reply than is wanted");
}

void ask(Task& task, Tally& tally) {
    Connection connection;
    if (!task.anew) connection.open(task.address);
    pthread_barrier_wait(&task.ready);
    const auto begin = Clock::now();
    const auto end = begin + std::chrono::duration_cast<Clock::duration>(std::chrono::duration<double>(task.seconds));
    auto now = begin;
    while (now < end) {
        const auto sent = now;
        if (task.anew) connection.open(task.address);
        connection.write(task.requests);
        for (int k = 0; k < task.at_once; ++k) judge(task, connection.read());
        if (task.anew) {
            connection.await_close();
            connection.close();
        }
        now = Clock::now();
        const auto took = std::chrono::nanoseconds(now - sent).count();
        tally.times.push_back(static_cast<uint32_t>(std::min<int64_t>(took, UINT32_MAX)));
        tally.requests += task.at_once;
    }
    tally.seconds = std::chrono::duration<double>(now - begin).count();
    if (!task.anew) connection.close();
}

// The first reply.
void keep_first(Task& task) {
    Connection connection;
    connection.open(task.address);
    connection.write(task.request);
    const Reply reply = connection.read();
    task.status = reply.status;
    task.body = reply.body;
    connection.close();
    if (task.status != "HTTP/1.1 200") fail("the first reply isn't of status 200");
}

void print(const std::vector<Tally>& tallies) {
    uint64_t requests = 0;
    double rate = 0;
    std::vector<uint32_t> times;
    for (const Tally& tally : tallies) {
        requests += tally.requests;
        rate += tally.requests / tally.seconds;
        times.insert(times.end(), tally.times.begin(), tally.times.end());
    }
    std::sort(times.begin(), times.end());
    std::printf("%llu %.1f", static_cast<unsigned long long>(requests), rate);
    for (int hundredth : {50, 90, 99}) std::printf(" %.1f", times[(times.size() - 1) * hundredth / 100] / 1e3);
    std::printf(" %.1f", times.back() / 1e3);
    for (uint32_t mark : {5'000'000, 10'000'000, 20'000'000})
        std::printf(" %lld", static_cast<long long>(times.end() - std::upper_bound(times.begin(), times.end(), mark)));
    std::printf("\n");
}

int main(int count, char** words) {
    if (count != 7) fail("usage: load PORT REQUEST CONNECTIONS AT_ONCE SECONDS (same | free | anew)");
    Task task{};
    task.address.sin_family = AF_INET;
    task.address.sin_port = htons(std::atoi(words[1]));
    task.address.sin_addr.s_addr = htonl(INADDR_LOOPBACK);
    std::ifstream file(words[2], std::ios::binary);
    task.request.assign(std::istreambuf_iterator<char>(file), {});
    const int connections = std::atoi(words[3]);
    task.at_once = std::atoi(words[4]);
    task.seconds = std::atof(words[5]);
    task.free = std::string(words[6]) == "free";
    task.anew = std::string(words[6]) == "anew";
    for (int k = 0; k < task.at_once; ++k) task.requests += task.request;
    keep_first(task);
    pthread_barrier_init(&task.ready, nullptr, connections);
    std::vector<Tally> tallies(connections);
    std::vector<std::thread> threads;
    for (Tally& tally : tallies) threads.emplace_back(ask, std::ref(task), std::ref(tally));
    for (std::thread& thread : threads) thread.join();
    print(tallies);
}
