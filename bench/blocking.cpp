// A server at 127.0.0.1 that says the same to everybody: blocking PORT REPLY
// One thread a connection, one read for what has come and one write a reply. It looks for the empty line alone, and writes the file REPLY
// for each: the least that a server of this form can do.
#include <arpa/inet.h>
#include <cstdio>
#include <cstdlib>
#include <cstring>
#include <fstream>
#include <iterator>
#include <netinet/tcp.h>
#include <string>
#include <sys/socket.h>
#include <thread>
#include <unistd.h>

// Whether the whole text was written.
bool write_all(int socket, const std::string& text) {
    for (size_t done = 0; done < text.size();) {
        ssize_t count = send(socket, text.data() + done, text.size() - done, MSG_NOSIGNAL);
        if (count <= 0) return false;
        done += count;
    }
    return true;
}

void answer(int socket, const std::string& reply) {
    char bytes[1 << 16];
    size_t held = 0;
    bool open = true;
    while (open) {
        ssize_t count = recv(socket, bytes + held, sizeof bytes - held, 0);
        if (count <= 0) break;
        held += count;
        const char *from = bytes, *end = bytes + held;
        while (open) {
            const void* line = memmem(from, end - from, "\r\n\r\n", 4);
            if (line == nullptr) break;
            from = static_cast<const char*>(line) + 4;
            open = write_all(socket, reply);
        }
        held = end - from;
        std::memmove(bytes, from, held);
        if (held == sizeof bytes) break;
    }
    close(socket);
}

int main(int count, char** words) {
    if (count != 3) return 2;
    std::ifstream file(words[2], std::ios::binary);
    const std::string reply(std::istreambuf_iterator<char>(file), {});
    const int listener = socket(AF_INET, SOCK_STREAM, 0), one = 1;
    setsockopt(listener, SOL_SOCKET, SO_REUSEADDR, &one, sizeof one);
    sockaddr_in address{};
    address.sin_family = AF_INET;
    address.sin_port = htons(std::atoi(words[1]));
    address.sin_addr.s_addr = htonl(INADDR_LOOPBACK);
    if (bind(listener, reinterpret_cast<sockaddr*>(&address), sizeof address) < 0 || listen(listener, 128) < 0) {
        std::perror("blocking");
        return 1;
    }
    for (;;) {
        const int socket = accept(listener, nullptr, nullptr);
        if (socket < 0) continue;
        setsockopt(socket, IPPROTO_TCP, TCP_NODELAY, &one, sizeof one);
        std::thread(answer, socket, std::cref(reply)).detach();
    }
}
