/* Loaded before a program that serves one connection after the other (LD_PRELOAD), it makes so many calls end as if a signal had cut them short before
   each one that is made: CUT_READS of recv, CUT_WRITES of send, counted anew for each connection. And it refuses UNPREPARED connections an option before
   each one that gets all of them: the three options below, each in its turn. A recv that leaves the bytes where they are is made as it is. */
#include <errno.h>
#include <netinet/in.h>
#include <netinet/tcp.h>
#include <stdlib.h>
#include <sys/socket.h>
#include <sys/syscall.h>
#include <unistd.h>

static const struct {
    int level, name;
} options[] = {{IPPROTO_TCP, TCP_NODELAY}, {SOL_SOCKET, SO_RCVTIMEO}, {SOL_SOCKET, SO_SNDTIMEO}};

/* How many reads, writes and connections were held back since one wasn't, and which option of each socket is refused, counted from 1. */
static unsigned long reads, writes, connections;
static unsigned char refused[65536];

static int is_held_back(unsigned long *count, const char *name) {
    const char *most = getenv(name);
    if (*count < (most ? strtoul(most, NULL, 10) : 0))
        return ++*count, 1;
    *count = 0;
    return 0;
}

static int fails(int error) {
    errno = error;
    return -1;
}

/* The calls themselves are made by other names, or by number, since these names are taken here. */
ssize_t recv(int socket, void *buffer, size_t size, int flags) {
    int is_cut = !(flags & MSG_PEEK) && is_held_back(&reads, "CUT_READS");
    return is_cut ? fails(EINTR) : recvfrom(socket, buffer, size, flags, NULL, NULL);
}

ssize_t send(int socket, const void *buffer, size_t size, int flags) {
    return is_held_back(&writes, "CUT_WRITES") ? fails(EINTR) : sendto(socket, buffer, size, flags, NULL, 0);
}

int accept4(int socket, struct sockaddr *address, socklen_t *size, int flags) {
    int connection = syscall(SYS_accept4, socket, address, size, flags);
    if (connection >= 0 && connection < (int)sizeof refused) {
        reads = writes = 0;
        refused[connection] = is_held_back(&connections, "UNPREPARED") ? connections % 3 + 1 : 0;
    }
    return connection;
}

int setsockopt(int socket, int level, int name, const void *value, socklen_t size) {
    int which = socket >= 0 && socket < (int)sizeof refused ? refused[socket] : 0;
    if (which && options[which - 1].level == level && options[which - 1].name == name)
        return fails(EINVAL);
    return syscall(SYS_setsockopt, socket, level, name, value, size);
}
