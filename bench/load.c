/* Clients of a ZooKeeper server on 127.0.0.1, for bench/serve.py, bench/writes.py and bench/beside.py.
 *
 *   load read PORT CONNECTIONS DEPTH SECONDS PARENTS CHILDREN
 *       opens CONNECTIONS sessions, keeps DEPTH getDatas under way on each, of nodes /pNN/nNNN chosen by chance, and
 *       prints `rate=R p50=U p99=U max=U all=N`: answers a second, microseconds from a request to its answer, and how
 *       many answers came in all, with those of the first WARM_UP seconds, which the others leave out
 *   load windows PORT CONNECTIONS DEPTH SECONDS COUNT PARENTS CHILDREN
 *       does the same for COUNT windows of so many SECONDS, one after the other, and prints `begins=T`, the time by
 *       CLOCK_MONOTONIC at which the first one begins, and then how many answers came in each, a line a window
 *   load idle PORT CONNECTIONS
 *       opens so many sessions, prints `open`, and keeps them until standard input ends
 *
 * These have one session, with DEPTH requests under way. LETTER is how the names of the parents begin, and LENGTH the
 * bytes of a node's data, at least 8. At times the leader of ZooKeeper 3.8.0 leaves writes undone that it has logged,
 * until another request comes. So where no answer has come for SILENCE, the session is pinged, and another one at the
 * leader's port. `woken=N` is how often that was:
 *
 *   load create LEADER DEPTH COUNT LETTER LENGTH
 *       creates COUNT nodes: /LNN, which are 100, and in turn a child below each of them, /LNN/nNNN and on
 *   load set PORT LEADER DEPTH SECONDS LETTER CHILDREN LENGTH
 *       sets nodes below 100 parents with so many children each, and prints `rate=R all=N woken=N`
 *   load follow LEADER OBSERVER DEPTH COUNT LETTER CHILDREN LENGTH PID
 *       makes COUNT setDatas at the port LEADER, and then reads the node that was set last at the port OBSERVER until
 *       it shows that write. Prints `leader=S observer=S woken=N`: the seconds until the last answer, and until the
 *       write showed. Where PID isn't 0, that process, which is the observer, stands still from before the writes to
 *       the last answer
 *
 * One thread over epoll. Each answer has to say that there was no error. Status 0, or 1 and what went wrong. */
#define _GNU_SOURCE
#include <arpa/inet.h>
#include <errno.h>
#include <fcntl.h>
#include <netinet/tcp.h>
#include <poll.h>
#include <signal.h>
#include <stdint.h>
#include <stdio.h>
#include <stdlib.h>
#include <string.h>
#include <sys/epoll.h>
#include <sys/socket.h>
#include <time.h>
#include <unistd.h>

enum { MOST_DEPTH = 1024, REQUESTS = 1 << 16, BUFFER = 1 << 18, CONNECT = 48, REQUEST = 26, LATENCIES = 1 << 23 };
/* PAUSE is in microseconds, SILENCE in milliseconds, and the other two in seconds. */
enum { PAUSE = 200, SILENCE = 20, PINGED = 5, WAIT = 120 };
enum { NODE = 32, MOST_DATA = 1 << 16, PARENTS = 100 };
enum { CREATE = 1, GET_DATA = 4, SET_DATA = 5, PING = 11, PING_XID = -2 };
/* Before this many seconds answers aren't counted, and for so many at most is one waited for. */
static const double WARM_UP = 0.3, DEADLINE = 10;

struct connection {
    int socket;
    unsigned char in[BUFFER];
    size_t held;         /* bytes of `in` that are no whole frame yet */
    size_t next, owed;   /* the request written next, and how many are to be written */
    size_t part;         /* bytes of the next one that are written already */
    double asked[MOST_DEPTH]; /* when each request under way was asked, by its answer's turn */
    size_t turn;
};

static unsigned char requests[2 * REQUESTS][REQUEST];
static float latencies[LATENCIES];
static size_t latency_count;

static void fail(const char *what) {
    fprintf(stderr, "load: %s%s%s\n", what, errno ? ": " : "", errno ? strerror(errno) : "");
    exit(1);
}

static double now(void) {
    struct timespec it;
    clock_gettime(CLOCK_MONOTONIC, &it);
    return it.tv_sec + it.tv_nsec * 1e-9;
}

static void put_int(unsigned char *at, uint32_t number) {
    number = htonl(number);
    memcpy(at, &number, 4);
}

static uint32_t int_at(const unsigned char *at) {
    uint32_t number;
    memcpy(&number, at, 4);
    return ntohl(number);
}

static int dial(int port) {
    struct sockaddr_in address = {.sin_family = AF_INET, .sin_port = htons(port)};
    address.sin_addr.s_addr = htonl(INADDR_LOOPBACK);
    int it = socket(AF_INET, SOCK_STREAM, 0), on = 1;
    if (it < 0 || connect(it, (struct sockaddr *)&address, sizeof address)) fail("can't connect");
    setsockopt(it, IPPROTO_TCP, TCP_NODELAY, &on, sizeof on);
    return it;
}

static void read_all(int from, unsigned char *to, size_t count) {
    for (size_t have = 0; have < count;) {
        ssize_t got = read(from, to + have, count - have);
        if (got <= 0) fail("the server closed a connection");
        have += got;
    }
}

/* Opens a connection and a session on it, whose timeout must not be 0. */
static int open_session(int port) {
    unsigned char frame[CONNECT] = {0}, answer[256];
    put_int(frame, CONNECT - 4);
    put_int(frame + 16, 30000);
    put_int(frame + 28, 16);
    int it = dial(port);
    if (write(it, frame, sizeof frame) != sizeof frame) fail("can't write");
    read_all(it, answer, 4);
    uint32_t length = int_at(answer);
    if (length < 8 || length > sizeof answer) fail("no answer to a connect");
    read_all(it, answer, length);
    if (!int_at(answer + 4)) fail("no session");
    return it;
}

/* getDatas of nodes by chance, twice in a row, so that any REQUESTS of them lie one behind the other. */
static void make_requests(unsigned parents, unsigned children) {
    uint64_t state = 1;
    for (size_t at = 0; at < REQUESTS; at++) {
        state = state * 6364136223846793005u + 1442695040888963407u;
        unsigned parent = (state >> 33) % parents, child = (state >> 40) % children;
        unsigned char *to = requests[at];
        char path[16];
        snprintf(path, sizeof path, "/p%02u/n%03u", parent % 100, child % 1000);
        put_int(to, REQUEST - 4);
        put_int(to + 4, 1);
        put_int(to + 8, 4);
        put_int(to + 12, 9);
        memcpy(to + 16, path, 9);
        to[25] = 0;
    }
    memcpy(requests[REQUESTS], requests[0], sizeof requests / 2);
}

/* Writes requests that are owed, as far as the socket takes them. */
static void ask(struct connection *it) {
    while (it->owed) {
        size_t many = it->owed < REQUESTS ? it->owed : REQUESTS;
        ssize_t wrote = write(it->socket, requests[it->next] + it->part, many * REQUEST - it->part);
        if (wrote < 0 && errno == EAGAIN) return;
        if (wrote < 0) fail("can't write");
        size_t whole = (it->part + wrote) / REQUEST;
        it->part = (it->part + wrote) % REQUEST;
        it->next = (it->next + whole) % REQUESTS;
        it->owed -= whole;
    }
}

/* Takes whole answers off what came. Returns how many. */
static size_t take_answers(struct connection *it, size_t depth, double when, int is_counted) {
    size_t at = 0, count = 0;
    while (it->held - at >= 4) {
        uint32_t length = int_at(it->in + at);
        if (length < 16 || length > BUFFER - 4) fail("an answer that is none");
        if (it->held - at < 4 + length) break;
        if (int_at(it->in + at + 16)) fail("an answer with an error");
        if (is_counted && latency_count < LATENCIES) latencies[latency_count++] = when - it->asked[it->turn];
        it->asked[it->turn] = when;
        it->turn = (it->turn + 1) % depth;
        at += 4 + length;
        count++;
    }
    memmove(it->in, it->in + at, it->held - at);
    it->held -= at;
    return count;
}

static int by_size(const void *one, const void *other) {
    float a = *(const float *)one, b = *(const float *)other;
    return a < b ? -1 : a > b;
}

static void print_figures(size_t count, double seconds, size_t all) {
    qsort(latencies, latency_count, sizeof *latencies, by_size);
    double at[3] = {0.5, 0.99, 1.0}, found[3];
    for (int k = 0; k < 3; k++) {
        size_t place = at[k] * latency_count;
        found[k] = latency_count ? latencies[place < latency_count ? place : latency_count - 1] * 1e6 : 0;
    }
    printf("rate=%.0f p50=%.1f p99=%.1f max=%.1f all=%zu\n", count / seconds, found[0], found[1], found[2], all);
}

static struct connection *open_all(int poll, int port, size_t count, size_t depth) {
    struct connection *all = calloc(count, sizeof *all);
    if (!all) fail("no memory");
    for (size_t k = 0; k < count; k++) {
        struct connection *it = &all[k];
        it->socket = open_session(port);
        it->next = k * 7919 % REQUESTS;
        it->owed = depth;
        fcntl(it->socket, F_SETFL, O_NONBLOCK);
        struct epoll_event event = {.events = EPOLLIN | EPOLLOUT | EPOLLET, .data.ptr = it};
        if (epoll_ctl(poll, EPOLL_CTL_ADD, it->socket, &event)) fail("epoll_ctl");
    }
    return all;
}

/* Reads all that has come on a connection, and asks as much anew. Returns how many answers came. */
static size_t go_on(struct connection *it, size_t depth, int is_counted) {
    size_t count = 0;
    for (;;) {
        ssize_t got = read(it->socket, it->in + it->held, BUFFER - it->held);
        if (got < 0 && errno == EAGAIN) break;
        if (got <= 0) fail("the server closed a connection");
        it->held += got;
        size_t found = take_answers(it, depth, now(), is_counted);
        count += found;
        it->owed += found;
        ask(it);
    }
    ask(it);
    return count;
}

/* Opens sessions with DEPTH requests under way on each. */
static void begin_all(int poll, int port, size_t connections, size_t depth) {
    struct connection *all = open_all(poll, port, connections, depth);
    double began = now();
    for (size_t k = 0; k < connections; k++) {
        for (size_t turn = 0; turn < depth; turn++) all[k].asked[turn] = began;
        ask(&all[k]);
    }
}

/* Goes on with all connections until that time. Returns how many answers came. */
static size_t go_on_until(double end, int poll, size_t depth, int is_counted) {
    size_t count = 0;
    while (now() < end) {
        struct epoll_event events[64];
        int ready = epoll_wait(poll, events, 64, 1000 * DEADLINE);
        if (!ready) fail("no answer for too long");
        for (int k = 0; k < ready; k++) count += go_on(events[k].data.ptr, depth, is_counted);
    }
    return count;
}

static int read_load(int port, size_t connections, size_t depth, double seconds) {
    int poll = epoll_create1(0);
    begin_all(poll, port, connections, depth);
    size_t before = go_on_until(now() + WARM_UP, poll, depth, 0);
    double warm = now();
    size_t count = go_on_until(warm + seconds, poll, depth, 1);
    print_figures(count, now() - warm, before + count);
    return 0;
}

static int windows_load(int port, size_t connections, size_t depth, double seconds, size_t windows) {
    int poll = epoll_create1(0);
    begin_all(poll, port, connections, depth);
    go_on_until(now() + WARM_UP, poll, depth, 0);
    double began = now();
    printf("begins=%.6f\n", began);
    fflush(stdout);
    for (size_t k = 1; k <= windows; k++) printf("%zu\n", go_on_until(began + k * seconds, poll, depth, 0));
    return 0;
}

static int idle_load(int port, size_t connections) {
    for (size_t k = 0; k < connections; k++) open_session(port);
    puts("open");
    fflush(stdout);
    while (getchar() != EOF) {}
    return 0;
}

/* ---- One session that sets or creates nodes */

static unsigned char node_data[MOST_DATA];
static size_t data_length;
static char letter;
static unsigned children;
/* The data of request number N begins with first_value + N. No other run's is the same. */
static uint64_t first_value;

struct pipeline {
    int socket, other; /* where requests go, and another session, which is the leader's */
    double pinged;     /* when that was pinged */
    size_t depth, asked, answered, held, woken;
    unsigned char in[BUFFER], *out;
    size_t (*make)(unsigned char *to, size_t number);
};

static unsigned char *put_path(unsigned char *to, const char *path) {
    size_t length = strlen(path);
    put_int(to, length);
    memcpy(to + 4, path, length);
    return to + 4 + length;
}

static unsigned char *put_data(unsigned char *to, size_t number) {
    put_int(to, data_length);
    memcpy(to + 4, node_data, data_length);
    put_int(to + 4, (first_value + number) >> 32);
    put_int(to + 8, first_value + number);
    return to + 4 + data_length;
}

static unsigned char *put_head(unsigned char *frame, size_t number, int kind, const char *path) {
    put_int(frame + 4, number + 1);
    put_int(frame + 8, kind);
    return put_path(frame + 12, path);
}

/* The length of a frame that ends here, which is written in front of it. */
static size_t framed(unsigned char *frame, unsigned char *end) {
    put_int(frame, end - frame - 4);
    return end - frame;
}

static void node_of(char path[NODE], size_t number) {
    uint64_t state = (number + 1) * 6364136223846793005u + 1442695040888963407u;
    unsigned parent = (state >> 33) % PARENTS, child = (state >> 40) % children;
    snprintf(path, NODE, "/%c%02u/n%03u", letter, parent, child);
}

static size_t make_set(unsigned char *frame, size_t number) {
    char path[NODE];
    node_of(path, number);
    unsigned char *at = put_data(put_head(frame, number, SET_DATA, path), number);
    put_int(at, -1);
    return framed(frame, at + 4);
}

static size_t make_get(unsigned char *frame, size_t number) {
    char path[NODE];
    node_of(path, number);
    unsigned char *at = put_head(frame, number, GET_DATA, path);
    *at = 0;
    return framed(frame, at + 1);
}

static size_t make_create(unsigned char *frame, size_t number) {
    char path[NODE];
    if (number < PARENTS) snprintf(path, NODE, "/%c%02zu", letter, number);
    else snprintf(path, NODE, "/%c%02zu/n%03zu", letter, number % PARENTS, number / PARENTS - 1);
    unsigned char *at = put_data(put_head(frame, number, CREATE, path), number);
    put_int(at, 1);
    put_int(at + 4, 31);
    at = put_path(put_path(at + 8, "world"), "anyone");
    put_int(at, 0);
    return framed(frame, at + 4);
}

static void read_settings(const char *of_letter, const char *of_children, const char *length) {
    letter = *of_letter;
    children = atoi(of_children);
    data_length = atoi(length);
    if (!children || data_length < 8 || data_length > MOST_DATA) fail("no such nodes");
    memset(node_data, 'x', data_length);
    first_value = now() * 1e9;
}

static struct pipeline *begun(int port, int leader, size_t depth, size_t (*make)(unsigned char *, size_t)) {
    struct pipeline *it = calloc(1, sizeof *it);
    if (!it || !depth || depth > MOST_DEPTH) fail("no such pipeline");
    it->out = malloc(depth * (data_length + 128));
    if (!it->out) fail("no memory");
    it->socket = open_session(port);
    it->other = open_session(leader);
    it->depth = depth;
    it->make = make;
    return it;
}

static void ping(int to) {
    unsigned char frame[12];
    put_int(frame, 8);
    put_int(frame + 4, PING_XID);
    put_int(frame + 8, PING);
    if (write(to, frame, sizeof frame) != sizeof frame) fail("can't write");
}

/* Waits until an answer comes. What the other session is answered is left unread: that is little. */
static void await(struct pipeline *it) {
    struct pollfd coming = {.fd = it->socket, .events = POLLIN};
    if (now() > it->pinged + PINGED) {
        ping(it->other);
        it->pinged = now();
    }
    for (double until = now() + DEADLINE; !poll(&coming, 1, SILENCE); it->woken++) {
        if (now() > until) fail("no answer for too long");
        ping(it->socket);
        ping(it->other);
    }
}

/* Asks until DEPTH requests, or all of them, are under way, and takes the answers that come in one read. */
static void step(struct pipeline *it, size_t all) {
    size_t length = 0;
    for (; it->asked < all && it->asked - it->answered < it->depth; it->asked++)
        length += it->make(it->out + length, it->asked);
    for (size_t sent = 0; sent < length;) {
        ssize_t wrote = write(it->socket, it->out + sent, length - sent);
        if (wrote <= 0) fail("can't write");
        sent += wrote;
    }
    await(it);
    ssize_t got = read(it->socket, it->in + it->held, BUFFER - it->held);
    if (got <= 0) fail("the server closed a connection");
    it->held += got;
    size_t at = 0;
    for (; it->held - at >= 4 && it->held - at - 4 >= int_at(it->in + at); at += 4 + int_at(it->in + at)) {
        if (int_at(it->in + at) < 16 || int_at(it->in + at + 16)) fail("an answer with an error");
        if ((int32_t)int_at(it->in + at + 4) != PING_XID) it->answered++;
    }
    memmove(it->in, it->in + at, it->held - at);
    it->held -= at;
}

static int create(int port, size_t depth, size_t count) {
    struct pipeline *it = begun(port, port, depth, make_create);
    while (it->answered < count) step(it, count);
    return 0;
}

static int set(int port, int leader, size_t depth, double seconds) {
    struct pipeline *it = begun(port, leader, depth, make_set);
    double began = now() + WARM_UP, at = began;
    while (now() < began) step(it, SIZE_MAX);
    size_t before = it->answered;
    for (began = now(); at < began + seconds; at = now()) step(it, SIZE_MAX);
    double rate = (it->answered - before) / (at - began);
    for (size_t all = it->asked; it->answered < all;) step(it, all);
    printf("rate=%.0f all=%zu woken=%zu\n", rate, it->answered, it->woken);
    return 0;
}

/* Reads the node of this request. Returns whether it has the request's data. */
static int shows(int from, size_t number) {
    static unsigned char wanted[4 + MOST_DATA], answer[BUFFER];
    unsigned char frame[128];
    put_data(wanted, number);
    size_t length = make_get(frame, number);
    if (write(from, frame, length) != (ssize_t)length) fail("can't write");
    read_all(from, answer, 4);
    size_t have = int_at(answer);
    if (have > sizeof answer) fail("an answer that is none");
    read_all(from, answer, have);
    if (have < 32 || int_at(answer + 12)) fail("an answer with an error");
    return !memcmp(answer + 20, wanted + 4, 8);
}

static int follow(int leader, int observer, size_t depth, size_t count, pid_t held) {
    struct pipeline *it = begun(leader, leader, depth, make_set);
    /* This session is opened before, since a session that is opened comes after all writes before it. */
    int reader = open_session(observer);
    if (held && kill(held, SIGSTOP)) fail("can't hold the observer");
    double began = now(), heard = began;
    while (it->answered < count) {
        step(it, count);
        if (held || now() < heard + DEADLINE) continue;
        /* The session's timeout is longer than this. */
        shows(reader, 0);
        heard = now();
    }
    double answered = now();
    if (held && kill(held, SIGCONT)) fail("can't let the observer go on");
    while (!shows(reader, count - 1)) {
        if (now() > answered + WAIT) fail("the last write doesn't show");
        usleep(PAUSE);
    }
    printf("leader=%.6f observer=%.6f woken=%zu\n", answered - began, now() - began, it->woken);
    return 0;
}

static int usage(void) {
    fprintf(stderr, "usage: load read PORT CONNECTIONS DEPTH SECONDS PARENTS CHILDREN | idle PORT CONNECTIONS |\n"
                    "  create LEADER DEPTH COUNT LETTER LENGTH |\n"
                    "  set PORT LEADER DEPTH SECONDS LETTER CHILDREN LENGTH |\n"
                    "  follow LEADER OBSERVER DEPTH COUNT LETTER CHILDREN LENGTH PID\n");
    return 2;
}

int main(int count, char **words) {
    if (count < 2) return usage();
    const char *what = words[1];
    if (count == 4 && !strcmp(what, "idle")) return idle_load(atoi(words[2]), atoi(words[3]));
    if (count == 8 && !strcmp(what, "read")) {
        size_t connections = atoi(words[3]), depth = atoi(words[4]);
        if (!connections || !depth || depth > MOST_DEPTH) return 2;
        make_requests(atoi(words[6]), atoi(words[7]));
        return read_load(atoi(words[2]), connections, depth, atof(words[5]));
    }
    if (count == 9 && !strcmp(what, "windows")) {
        size_t connections = atoi(words[3]), depth = atoi(words[4]);
        if (!connections || !depth || depth > MOST_DEPTH) return 2;
        make_requests(atoi(words[7]), atoi(words[8]));
        return windows_load(atoi(words[2]), connections, depth, atof(words[5]), atoi(words[6]));
    }
    if (count == 7 && !strcmp(what, "create")) {
        read_settings(words[5], "1", words[6]);
        return create(atoi(words[2]), atoi(words[3]), atoi(words[4]));
    }
    if (count == 9 && !strcmp(what, "set")) {
        read_settings(words[6], words[7], words[8]);
        return set(atoi(words[2]), atoi(words[3]), atoi(words[4]), atof(words[5]));
    }
    if (count == 10 && !strcmp(what, "follow")) {
        read_settings(words[6], words[7], words[8]);
        return follow(atoi(words[2]), atoi(words[3]), atoi(words[4]), atoi(words[5]), atoi(words[9]));
    }
    return usage();
}
