/* Stands in for the program, so that refused_faults.py sees whether refused_memory.py finds faults. It answers all questions and changes alike, and
   takes memory as the program might. A journal has what it knows of changes. FAULT is 0 for none, or the number of one of the faults that
   refused_faults.py names. */
#include <arpa/inet.h>
#include <fcntl.h>
#include <poll.h>
#include <stdio.h>
#include <stdlib.h>
#include <string.h>
#include <unistd.h>

static void *volatile block;
static struct {
    int version;
    char last[256];
} known = {.version = 1};
static int journal = -1;

static void keep(void) {
    if (journal >= 0)
        pwrite(journal, &known, sizeof known, 0);
}

/* Keeps one change more than there are. */
static void keep_more(void) {
    known.version++;
    keep();
    known.version--;
}

/* Goes on with what the journal has, or begins it. */
static void open_journal(const char *base, const char *name) {
    char path[512];
    sprintf(path, "%s/%s.journal", base, name);
    journal = open(path, O_RDWR);
    if (pread(journal, &known, sizeof known, 0) <= 0)
        keep();
}

static int has_memory(void) {
    block = malloc(16);
    free(block);
    return block != NULL;
}

static void say(int out, const char *status, const char *body) {
    static char text[512];
    int size = sprintf(text, "HTTP/1.1 %s\r\ncontent-type: application/json\r\ncontent-length: %zu\r\n\r\n%s", status, strlen(body), body);
    write(out, text, FAULT == 4 && out == 1 && *status == '5' ? size / 2 : size);
}

static void say_want(int out) {
    if (FAULT == 5)
        abort();
    say(out, "503 Service Unavailable", "{\"error\":\"want_of_memory\"}");
}

/* Answers a request, and tells whether there was memory to say so. */
static int answer(int out, const char *request, const char *body, size_t size) {
    char text[64];
    int is_change = *request == 'P' && (strlen(known.last) != size || strncmp(known.last, body, size));
    if (FAULT == 1 && is_change)
        known.version++;
    if (!has_memory()) {
        if (FAULT == 8 && is_change)
            keep_more();
        if (FAULT == 7 && *request == 'G')
            return 0;
        say_want(out);
        return 1;
    }
    if (is_change) {
        known.version += FAULT != 1;
        sprintf(known.last, "%.*s", (int)size, body);
        keep();
    }
    if (!has_memory()) {
        if (is_change && FAULT != 2)
            return 0;
        say_want(out);
        return 1;
    }
    sprintf(text, "{\"changed\":%s,\"version\":%d}", is_change ? "true" : "false", known.version);
    say(out, "200 OK", text);
    return 1;
}

/* Answers the requests that begin in a text, and tells whether there was memory. */
static int answer_all(int out, const char *at) {
    while (*at) {
        const char *body = strstr(at, "\r\n\r\n") + 4, *length = strstr(at, "content-length: ");
        size_t size = length && length < body ? strtoul(length + 16, NULL, 10) : 0;
        if (!answer(out, at, body, size))
            return 0;
        at = body + size;
    }
    return 1;
}

static size_t take(int in, char *text, size_t room) {
    ssize_t size = read(in, text, room);
    text[size > 0 ? size : 0] = 0;
    return size > 0 ? size : 0;
}

static int serve(const char *address, int workers) {
    static char text[65536];
    struct sockaddr_in at = {.sin_family = AF_INET, .sin_port = htons(atoi(strchr(address, ':') + 1))};
    char host[32];
    sprintf(host, "%.*s", (int)(strchr(address, ':') - address), address);
    inet_pton(AF_INET, host, &at.sin_addr);
    int door = socket(AF_INET, SOCK_STREAM, 0), left = 2, open = 0, begun = FAULT == 6 ? 0 : known.version;
    struct pollfd seats[2];
    if (bind(door, (struct sockaddr *)&at, sizeof at) || listen(door, 8))
        return 3;
    write(1, text, sprintf(text, "listening %s\n", address));
    while (left || open) {
        for (; left && open < workers; left--, open++)
            seats[open] = (struct pollfd){.fd = accept(door, NULL, NULL), .events = POLLIN};
        poll(seats, open, -1);
        for (int k = open - 1; k >= 0; k--)
            if (seats[k].revents && !(take(seats[k].fd, text, sizeof text - 1) && answer_all(seats[k].fd, text))) {
                close(seats[k].fd);
                seats[k] = seats[--open];
            }
    }
    if (!has_memory())
        return 4;
    write(1, text, sprintf(text, "workers %d sessions 2 versions %d changes %d\n", workers, known.version, known.version - begun));
    return 0;
}

int main(int count, char **words) {
    static char text[65536];
    if (!has_memory())
        return FAULT == 3 ? 2 : 4;
    int is_serve = count > 5 && !strcmp(words[1], "serve"), is_session = count > 3 && !strcmp(words[1], "session");
    if (is_serve ? count > 7 : is_session && count > 4)
        open_journal(words[2], words[count - 1]);
    if (is_serve)
        return serve(words[4], atoi(words[5]));
    if (!has_memory()) {
        if (FAULT == 9)
            keep_more();
        return 4;
    }
    if (!is_session) {
        write(1, "done\n", 5);
        return 0;
    }
    for (size_t size = 0, more = 1; more; size += more)
        more = take(0, text + size, sizeof text - 1 - size);
    return answer_all(1, text) ? 0 : 4;
}
