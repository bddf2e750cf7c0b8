/* The least that a server can do, for bench/serve.py: it answers each frame with one of a fixed length, and looks at
 * nothing but lengths. One thread over epoll.
 *
 *   echo LENGTH
 *
 * It listens on 127.0.0.1, prints `serving PORT`, and serves until standard input, a pipe, ends. An answer has LENGTH
 * bytes after its length: zeros, but for the last byte of its second number, so that it passes for the answer to a
 * connect too. */
#define _GNU_SOURCE
#include <arpa/inet.h>
#include <errno.h>
#include <fcntl.h>
#include <netinet/tcp.h>
#include <stdint.h>
#include <stdio.h>
#include <stdlib.h>
#include <string.h>
#include <sys/epoll.h>
#include <sys/socket.h>
#include <unistd.h>

enum { BUFFER = 1 << 16, LEAST = 20, MOST = 4096, ANSWERS = 4096 };

struct connection {
    int socket;
    size_t held;
    unsigned char in[BUFFER];
};

static unsigned char answers[ANSWERS * (4 + MOST)];
static size_t answer;

static void fail(const char *what) {
    perror(what);
    exit(1);
}

static void make_answers(size_t length) {
    answer = 4 + length;
    for (size_t k = 0; k < ANSWERS; k++) {
        uint32_t number = htonl(length);
        memcpy(answers + k * answer, &number, 4);
        answers[k * answer + 11] = 1;
    }
}

static int listen_anywhere(void) {
    struct sockaddr_in address = {.sin_family = AF_INET};
    address.sin_addr.s_addr = htonl(INADDR_LOOPBACK);
    socklen_t length = sizeof address;
    int it = socket(AF_INET, SOCK_STREAM | SOCK_NONBLOCK, 0);
    if (bind(it, (struct sockaddr *)&address, length) || listen(it, 1024)) fail("listen");
    getsockname(it, (struct sockaddr *)&address, &length);
    printf("serving %d\n", ntohs(address.sin_port));
    fflush(stdout);
    return it;
}

static void watch(int poll, int socket, void *what) {
    struct epoll_event event = {.events = EPOLLIN, .data.ptr = what};
    if (epoll_ctl(poll, EPOLL_CTL_ADD, socket, &event)) fail("epoll_ctl");
}

static void accept_all(int poll, int listener) {
    for (int it, on = 1; (it = accept4(listener, NULL, NULL, SOCK_NONBLOCK)) >= 0;) {
        setsockopt(it, IPPROTO_TCP, TCP_NODELAY, &on, sizeof on);
        struct connection *made = calloc(1, sizeof *made);
        if (!made) fail("calloc");
        made->socket = it;
        watch(poll, it, made);
    }
}

static int write_answers(int socket, size_t count) {
    for (size_t left = count * answer; left;) {
        size_t done = (answer - left % answer) % answer; /* bytes of the next answer that are written already */
        size_t most = ANSWERS * answer - done;
        ssize_t wrote = write(socket, answers + done, left < most ? left : most);
        if (wrote < 0 && errno != EAGAIN) return 0;
        if (wrote > 0) left -= wrote;
    }
    return 1;
}

/* Answers the whole frames that came. Returns whether the connection stays open. */
static int serve(struct connection *it) {
    ssize_t got = read(it->socket, it->in + it->held, BUFFER - it->held);
    if (got <= 0) return got < 0 && errno == EAGAIN;
    it->held += got;
    size_t at = 0, count = 0;
    while (it->held - at >= 4) {
        uint32_t length;
        memcpy(&length, it->in + at, 4);
        length = ntohl(length);
        if (length > BUFFER - 4) return 0;
        if (it->held - at < 4 + length) break;
        at += 4 + length;
        count++;
    }
    memmove(it->in, it->in + at, it->held - at);
    it->held -= at;
    return write_answers(it->socket, count);
}

int main(int count, char **words) {
    size_t length = count == 2 ? atoi(words[1]) : 0;
    if (length < LEAST || length > MOST) return 2;
    make_answers(length);
    int poll = epoll_create1(0), listener = listen_anywhere(), input = 0;
    watch(poll, listener, &listener);
    watch(poll, input, &input);
    for (;;) {
        struct epoll_event events[64];
        int ready = epoll_wait(poll, events, 64, -1);
        for (int k = 0; k < ready; k++) {
            void *what = events[k].data.ptr;
            if (what == &input) return 0;
            if (what == &listener) {
                accept_all(poll, listener);
            } else if (!serve(what)) {
                close(((struct connection *)what)->socket);
                free(what);
            }
        }
    }
}
