/* What the sockets cost alone: the bytes of the first connection to all others, by the calls of the system that a station
   makes, and without any server. `bench/bench_serve` compiles it, and measures a station beside it. It tells the port
   that it has taken, and serves until it is killed. */
#define _GNU_SOURCE
#include <arpa/inet.h>
#include <errno.h>
#include <netinet/in.h>
#include <netinet/tcp.h>
#include <stdio.h>
#include <string.h>
#include <sys/epoll.h>
#include <sys/socket.h>

enum { READ = 4096, WRITTEN = 16384, KEPT = 1 << 20, MOST = 65536, IDLE_MS = 10, LISTENER = -1 };

/* A connection, and up to where it was handed the bytes. */
struct line {
    int socket;
    size_t place;
    int is_ready;
};

static struct line lines[MOST];
static size_t count;

/* The bytes of the first connection, from a place on. */
static unsigned char kept[3 * KEPT];
static size_t start, length;

static void add(const unsigned char *more, size_t size) {
    if (length > 2 * KEPT) {
        length -= KEPT;
        memmove(kept, kept + KEPT, length);
        start += KEPT;
    }
    memcpy(kept + length, more, size);
    length += size;
}

static int read_from(struct line *source) {
    unsigned char buffer[READ];
    if (!source->is_ready)
        return 0;
    ssize_t size = recv(source->socket, buffer, READ, 0);
    if (size > 0)
        add(buffer, (size_t)size);
    source->is_ready = size > 0 || (size < 0 && errno != EAGAIN);
    return size > 0;
}

static int write_to(struct line *line) {
    if (!line->is_ready || line->place >= start + length)
        return 0;
    if (line->place < start)
        line->place = start;
    size_t from = line->place - start, room = length - from;
    ssize_t size = send(line->socket, kept + from, room < WRITTEN ? room : WRITTEN, MSG_NOSIGNAL);
    if (size <= 0) {
        line->is_ready = 0;
        return 0;
    }
    line->place += (size_t)size;
    return 1;
}

/* One read of the first connection, and one write to each other. Whether a byte moved. */
static int turn(void) {
    int has_moved = count > 0 && read_from(&lines[0]);
    for (size_t at = 1; at < count; at++)
        has_moved |= write_to(&lines[at]);
    return has_moved;
}

static void watch(int poll, int socket, int name) {
    struct epoll_event event = {.events = EPOLLIN | EPOLLOUT | EPOLLET, .data.fd = name};
    epoll_ctl(poll, EPOLL_CTL_ADD, socket, &event);
}

static void accept_all(int poll, int listener) {
    int socket, yes = 1;
    while (count < MOST && (socket = accept4(listener, NULL, NULL, SOCK_NONBLOCK)) >= 0) {
        setsockopt(socket, IPPROTO_TCP, TCP_NODELAY, &yes, sizeof yes);
        watch(poll, socket, (int)count);
        lines[count++] = (struct line){.socket = socket, .place = 0, .is_ready = 1};
    }
}

int main(void) {
    struct sockaddr_in address = {.sin_family = AF_INET, .sin_addr.s_addr = htonl(INADDR_LOOPBACK)};
    socklen_t size = sizeof address;
    struct epoll_event events[1024];
    int listener = socket(AF_INET, SOCK_STREAM | SOCK_NONBLOCK, 0), poll = epoll_create1(0), wait_ms = IDLE_MS;
    if (bind(listener, (struct sockaddr *)&address, size) || listen(listener, 1024) || getsockname(listener, (struct sockaddr *)&address, &size))
        return 1;
    printf("listening on 127.0.0.1:%d\n", ntohs(address.sin_port));
    fflush(stdout);
    watch(poll, listener, LISTENER);
    for (;;) {
        int ready = epoll_wait(poll, events, 1024, wait_ms);
        for (int at = 0; at < ready; at++)
            if (events[at].data.fd != LISTENER)
                lines[events[at].data.fd].is_ready = 1;
        accept_all(poll, listener);
        wait_ms = turn() ? 0 : IDLE_MS;
    }
}
