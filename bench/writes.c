/* A leader of one observer, and the observer's clients, for bench/writes.py.
 *
 *   writes
 *
 * It listens on 127.0.0.1, prints `leading PORT`, and brings the observer that comes up to date. Then it does the
 * commands on its standard input, a pipe, a line each, until that ends; each is answered by a line when it is done:
 *
 *   feed FILE COUNT           sends the INFORMs in a file, which has the first COUNT transactions, until all are done,
 *                             which the answer to a PING shows
 *   open PORT COUNT           opens so many connections, each with a session and a node of its own
 *   pipeline DEPTH SECONDS PARTS
 *                             sets the first connection's node and reads it, again and again, with DEPTH requests under
 *                             way; it is set by a setData, or by a multi of so many setDatas where PARTS isn't 0
 *   hold FRAMES write|sync    has FRAMES requests wait on each connection, one connection after the other: a setData or
 *                             a sync that isn't answered yet, and getDatas
 *   answer                    answers what waits, connection by connection
 *   close                     deletes the connections' nodes, and closes their sessions
 *
 * The leader does sessions, creates, deletes, setDatas, multis of these and syncs at once, in the order in which they come, also between
 * the commands. Each reply is looked at: it has to come in its turn, without an error, and a read has to show the write
 * before it and nothing later. One thread over epoll. Status 0, or 1 and what went wrong, as when no byte comes or goes
 * for DEADLINE seconds. */
#define _GNU_SOURCE
#include <arpa/inet.h>
#include <endian.h>
#include <errno.h>
#include <fcntl.h>
#include <netinet/tcp.h>
#include <poll.h>
#include <signal.h>
#include <stdint.h>
#include <stdio.h>
#include <stdlib.h>
#include <string.h>
#include <sys/epoll.h>
#include <sys/resource.h>
#include <sys/socket.h>
#include <time.h>
#include <unistd.h>

enum { BUFFER = 1 << 18, REST = 1024, MOST_CONNECTIONS = 10000, MOST_WAITING = 1024, LINE = 4096 };
/* Seconds, and requests. */
enum { DEADLINE = 30, PIECE = 250 };
enum { REQUEST = 1, ACK = 3, PING = 5, SYNC = 7, INFORM = 8, NEWLEADER = 10, UPTODATE = 12, DIFF = 13 };
enum { OBSERVERINFO = 16, LEADERINFO = 17, ACKEPOCH = 18 };
enum { CREATE = 1, DELETE = 2, GET_DATA = 4, SET_DATA = 5, SYNC_PATH = 9, MULTI = 14, AUTH = 100 };
enum { CREATE_SESSION = -10, CLOSE_SESSION = -11, AUTH_XID = -4 };
enum { PATH = 10, VALUE = 16, HEADER = 16, STAT = 68 };
/* A setData of a multi: a type, a byte and an error, and then as it is alone. The end of a multi is as long as the first. */
enum { PART_HEADER = 9, SET = PATH + 4 + VALUE + 4, PART = PART_HEADER + SET, MOST_PARTS = 10 };
static const uint64_t EPOCH = (uint64_t)1 << 32;
/* Before this many seconds writes aren't counted. */
static const double WARM_UP = 0.3;

/* Bytes to be written: those from `from` to `to`. */
struct bytes {
    unsigned char *at;
    size_t from, to, room;
};

struct stream {
    int socket;
    size_t held; /* bytes in `rest`, which are no whole frame yet */
    unsigned char rest[REST];
    struct bytes out;
};

struct connection {
    struct stream stream; /* the first, so that each stream but the leader's is a connection */
    void (*judge)(struct connection *, const unsigned char *frame, size_t length);
    unsigned char path[PATH]; /* its node's, as it is written */
    int32_t asked, answered;  /* the xids of the last request, and of the last one that was answered */
    int32_t front;            /* the xid of the request that the others wait for */
    uint64_t value;           /* of its node, which is how often that was set */
    uint64_t zxid;            /* of the last reply */
    int is_fenced, is_leaving;
};

static int poll_set;
static double last_byte;
static unsigned char buffer[BUFFER];
static struct stream leader;
static struct connection *connections[MOST_CONNECTIONS];
static size_t open_count;
static char line[LINE];
static size_t line_length;

/* The leader's state. Answers to setDatas and syncs are kept in `kept` while it holds them back. */
static uint64_t zxid;
static int32_t versions[MOST_CONNECTIONS];
static unsigned acks, pings;
static int is_holding;
static struct bytes kept;
static size_t kept_ends[MOST_CONNECTIONS], kept_count;
static struct connection *answering;
/* The setDatas of each multi of a pipeline, or 0 where its writes are setDatas alone. */
static int parts;

/* Says what went wrong, with why the last call of the system failed, if it did. */
static void fail(const char *what) {
    fprintf(stderr, "writes: %s%s%s\n", what, errno ? ": " : "", errno ? strerror(errno) : "");
    exit(1);
}

static void expect(const char *what, int64_t found, int64_t wanted) {
    if (found == wanted) return;
    fprintf(stderr, "writes: %s: %lld in place of %lld\n", what, (long long)found, (long long)wanted);
    exit(1);
}

static double now(void) {
    struct timespec it;
    clock_gettime(CLOCK_MONOTONIC, &it);
    return it.tv_sec + it.tv_nsec * 1e-9;
}

/* The seconds that this process has used of a processor. */
static double used(void) {
    struct rusage it;
    getrusage(RUSAGE_SELF, &it);
    return it.ru_utime.tv_sec + it.ru_stime.tv_sec + (it.ru_utime.tv_usec + it.ru_stime.tv_usec) * 1e-6;
}

static uint32_t int_at(const unsigned char *at) {
    uint32_t number;
    memcpy(&number, at, 4);
    return ntohl(number);
}

static uint64_t long_at(const unsigned char *at) {
    uint64_t number;
    memcpy(&number, at, 8);
    return be64toh(number);
}

/* ---- Bytes to be written */

static unsigned char *room_for(struct bytes *it, size_t count) {
    if (it->from == it->to) it->from = it->to = 0;
    if (it->room - it->to < count) {
        it->room = 2 * (it->to + count);
        it->at = realloc(it->at, it->room);
        if (!it->at) fail("no memory");
    }
    it->to += count;
    return it->at + it->to - count;
}

static void put(struct bytes *to, const void *what, size_t count) {
    if (count) memcpy(room_for(to, count), what, count);
}

static void put_int(struct bytes *to, uint32_t number) {
    number = htonl(number);
    put(to, &number, 4);
}

static void put_long(struct bytes *to, uint64_t number) {
    number = htobe64(number);
    put(to, &number, 8);
}

static void put_text(struct bytes *to, const char *text) {
    put_int(to, strlen(text));
    put(to, text, strlen(text));
}

/* The data of a node that has this value, with its length in front. */
static void put_value(struct bytes *to, uint64_t value) {
    put_int(to, VALUE);
    put_long(to, 0);
    put_long(to, value);
}

/* Writes as far as the socket takes it. */
static void flush(struct stream *it) {
    while (it->out.from < it->out.to) {
        errno = 0;
        ssize_t wrote = write(it->socket, it->out.at + it->out.from, it->out.to - it->out.from);
        if (wrote < 0 && errno == EAGAIN) return;
        if (wrote < 0) fail("can't write");
        it->out.from += wrote;
        last_byte = now();
    }
}

/* ---- The leader */

static void put_packet(int kind, uint64_t of_zxid) {
    put_int(&leader.out, kind);
    put_long(&leader.out, of_zxid);
    put_int(&leader.out, -1);
    put_int(&leader.out, -1);
}

/* Tells of the transaction that a request makes: what the request begins with, a body and what follows the body. */
static void inform(struct bytes *to, const unsigned char *request, size_t body, const void *tail, size_t tail_length) {
    zxid++;
    put_int(to, INFORM);
    put_long(to, zxid);
    put_int(to, 32 + body + tail_length);
    put(to, request, 12);
    put_long(to, zxid);
    put_long(to, 1000);
    put(to, request + 12, 4 + body);
    put(to, tail, tail_length);
    put_int(to, -1);
}

/* The version of the node /wNNNN, whose path a request's body begins with. */
static int32_t *version_of(const unsigned char *body, size_t length) {
    char digits[5] = {0};
    if (length < PATH || int_at(body) != PATH - 4 || memcmp(body + 4, "/w", 2)) fail("a node that isn't one of these");
    memcpy(digits, body + 6, 4);
    return &versions[atoi(digits)];
}

/* Tells of a multi of setDatas: its parts lie in buffers, each with the version that its node has then. */
static void inform_multi(struct bytes *to, const unsigned char *request, size_t length) {
    static struct bytes done;
    done.from = done.to = 0;
    if (length < PART_HEADER || (length - PART_HEADER) % PART) fail("a multi of something else");
    put_int(&done, (length - PART_HEADER) / PART);
    for (const unsigned char *part = request + 16; length > PART; part += PART, length -= PART) {
        expect("the type of a part", int_at(part), SET_DATA);
        put_int(&done, SET_DATA);
        put_int(&done, SET);
        put(&done, part + PART_HEADER, SET - 4);
        put_int(&done, ++*version_of(part + PART_HEADER, PATH));
    }
    inform(to, request, 0, done.at, done.to);
}

/* Answers a request of the observer, or keeps the answer. */
static void do_request(const unsigned char *request, size_t length) {
    static const unsigned char lasting[5] = {0, 255, 255, 255, 255};
    if (length < 16) fail("a request that is none");
    const unsigned char *body = request + 16;
    int kind = int_at(request + 12), is_kept = is_holding && (kind == SET_DATA || kind == SYNC_PATH);
    struct bytes *to = is_kept ? &kept : &leader.out;
    uint32_t version;
    length -= 16;
    if (kind == CREATE_SESSION || kind == CLOSE_SESSION) {
        inform(to, request, length, NULL, 0);
    } else if (kind == CREATE) {
        *version_of(body, length) = 0;
        inform(to, request, length - 4, lasting, sizeof lasting);
    } else if (kind == DELETE) {
        version_of(body, length);
        inform(to, request, length - 4, NULL, 0);
    } else if (kind == SET_DATA) {
        version = htonl(++*version_of(body, length));
        inform(to, request, length - 4, &version, 4);
    } else if (kind == MULTI) {
        inform_multi(to, request, length);
    } else if (kind == SYNC_PATH) {
        put_int(to, SYNC);
        put_long(to, 0);
        put_long(to, -1);
    } else {
        fail("a request of another kind");
    }
    if (!is_kept) return;
    if (kept_count == MOST_CONNECTIONS) fail("too many requests that wait");
    kept_ends[kept_count++] = kept.to;
}

/* The length of the packet in front, or 0 where not all of it has come. */
static size_t packet_length(const unsigned char *at, size_t have) {
    size_t length = 16;
    if (have < length) return 0;
    if ((int32_t)int_at(at + 12) > 0) length += int_at(at + 12);
    if (have < length + 4) return 0;
    int32_t texts = 2 * (int32_t)int_at(at + length);
    for (length += 4; texts > 0; texts--) {
        if (have < length + 4) return 0;
        length += 4 + int_at(at + length);
    }
    return have < length ? 0 : length;
}

static size_t take_packet(struct stream *from, const unsigned char *at, size_t have) {
    size_t length = packet_length(at, have);
    if (!length) return 0;
    switch (int_at(at)) {
    case OBSERVERINFO:
        put_int(&from->out, LEADERINFO);
        put_long(&from->out, EPOCH);
        put_int(&from->out, 4);
        put_int(&from->out, 0x10000);
        put_int(&from->out, -1);
        break;
    case ACKEPOCH:
        put_packet(DIFF, 0);
        put_packet(NEWLEADER, EPOCH);
        put_packet(UPTODATE, -1);
        break;
    case ACK: acks++; break;
    case PING: pings++; break;
    case REQUEST: do_request(at + 16, int_at(at + 12)); break;
    default: fail("a packet of another kind");
    }
    return length;
}

/* ---- The clients */

static void put_request(struct connection *it, int32_t xid, int kind, const void *body, size_t length) {
    put_int(&it->stream.out, 8 + length);
    put_int(&it->stream.out, xid);
    put_int(&it->stream.out, kind);
    put(&it->stream.out, body, length);
}

/* A request whose body begins with the node's path. What follows is appended by the caller: `more` bytes. */
static void ask_of_node(struct connection *it, int kind, size_t more) {
    put_request(it, ++it->asked, kind, it->path, PATH);
    uint32_t length = htonl(8 + PATH + more);
    memcpy(it->stream.out.at + it->stream.out.to - PATH - 12, &length, 4);
}

static void ask_create(struct connection *it) {
    ask_of_node(it, CREATE, 4 + VALUE + 27 + 4);
    put_value(&it->stream.out, 0);
    put_int(&it->stream.out, 1);
    put_int(&it->stream.out, 31);
    put_text(&it->stream.out, "world");
    put_text(&it->stream.out, "anyone");
    put_int(&it->stream.out, 0);
}

static void ask_set(struct connection *it, uint64_t value) {
    ask_of_node(it, SET_DATA, 4 + VALUE + 4);
    put_value(&it->stream.out, value);
    put_int(&it->stream.out, -1);
}

static void put_part_header(struct bytes *to, int kind, int is_last, int error) {
    put_int(to, kind);
    put(to, &(unsigned char){is_last}, 1);
    put_int(to, error);
}

/* A multi that sets the node to this value and to those after it. */
static void ask_multi(struct connection *it, uint64_t value) {
    struct bytes *to = &it->stream.out;
    put_int(to, 8 + parts * PART + PART_HEADER);
    put_int(to, ++it->asked);
    put_int(to, MULTI);
    for (int k = 0; k < parts; k++) {
        put_part_header(to, SET_DATA, 0, -1);
        put(to, it->path, PATH);
        put_value(to, value + k);
        put_int(to, -1);
    }
    put_part_header(to, -1, 1, -1);
}

static void ask_get(struct connection *it) {
    ask_of_node(it, GET_DATA, 1);
    put(&it->stream.out, "", 1);
}

/* An auth, which is answered at once, whatever waits: so its answer shows that all before it has been taken. */
static void ask_fence(struct connection *it) {
    put_int(&it->stream.out, 8 + 4 + 10 + 15);
    put_int(&it->stream.out, AUTH_XID);
    put_int(&it->stream.out, AUTH);
    put_int(&it->stream.out, 0);
    put_text(&it->stream.out, "digest");
    put_text(&it->stream.out, "bench:bench");
}

static void judge_header(struct connection *it, const unsigned char *frame, size_t length) {
    if (length < HEADER) fail("a reply that is none");
    expect("a reply's xid", (int32_t)int_at(frame), it->answered + 1);
    expect("a reply's error", (int32_t)int_at(frame + 12), 0);
    it->answered++;
}

static void judge_plain(struct connection *it, const unsigned char *frame, size_t length) {
    judge_header(it, frame, length);
    it->zxid = long_at(frame + 4);
}

static void judge_connect(struct connection *it, const unsigned char *frame, size_t length) {
    if (length < 36 || !int_at(frame + 4)) fail("no session");
    it->judge = judge_plain;
}

/* The Stat of the node as the last write left it. */
static void judge_stat(struct connection *it, const unsigned char *stat) {
    expect("a node's mzxid", long_at(stat + 8), it->zxid);
    expect("a node's version", int_at(stat + 32), it->value);
}

static void judge_set(struct connection *it, const unsigned char *frame, size_t length) {
    judge_header(it, frame, length);
    expect("the length of a setData's reply", length, HEADER + STAT);
    if (long_at(frame + 4) <= it->zxid) fail("a write's zxid that isn't above the last one");
    it->zxid = long_at(frame + 4);
    it->value++;
    judge_stat(it, frame + HEADER);
}

static void judge_part_header(const unsigned char *at, int kind, int is_last, int error) {
    expect("the type of a result", (int32_t)int_at(at), kind);
    expect("whether a result is the last", at[4], is_last);
    expect("the error of a result", (int32_t)int_at(at + 5), error);
}

static void judge_multi(struct connection *it, const unsigned char *frame, size_t length) {
    judge_header(it, frame, length);
    expect("the length of a multi's reply", length, HEADER + parts * (PART_HEADER + STAT) + PART_HEADER);
    if (long_at(frame + 4) <= it->zxid) fail("a write's zxid that isn't above the last one");
    it->zxid = long_at(frame + 4);
    frame += HEADER;
    for (int k = 0; k < parts; k++, frame += PART_HEADER + STAT) {
        judge_part_header(frame, SET_DATA, 0, 0);
        it->value++;
        judge_stat(it, frame + PART_HEADER);
    }
    judge_part_header(frame, -1, 1, -1);
}

static void judge_get(struct connection *it, const unsigned char *frame, size_t length) {
    judge_header(it, frame, length);
    expect("the length of a getData's reply", length, HEADER + 4 + VALUE + STAT);
    expect("a value that was read", long_at(frame + HEADER + 12), it->value);
    judge_stat(it, frame + HEADER + 4 + VALUE);
}

/* Setting and reading the node in turns; the read is answered in the state that the write made. */
static void judge_pair(struct connection *it, const unsigned char *frame, size_t length) {
    if (it->answered % 2) {
        if (parts) judge_multi(it, frame, length);
        else judge_set(it, frame, length);
        return;
    }
    judge_get(it, frame, length);
    expect("a read's zxid", long_at(frame + 4), it->zxid);
}

static void judge_waiting(struct connection *it, const unsigned char *frame, size_t length) {
    if (length == HEADER && (int32_t)int_at(frame) == AUTH_XID) {
        expect("an auth's error", int_at(frame + 12), 0);
        it->is_fenced = 1;
        return;
    }
    if (answering != it) fail("a reply to what waits for the leader");
    if (it->answered + 1 != it->front) {
        judge_get(it, frame, length);
    } else if (length == HEADER + STAT) {
        judge_set(it, frame, length);
    } else {
        judge_header(it, frame, length);
        expect("the length of a sync's reply", length, HEADER + PATH);
    }
}

static size_t take_frame(struct stream *from, const unsigned char *at, size_t have) {
    struct connection *it = (struct connection *)from;
    if (have < 4 || have - 4 < int_at(at)) return 0;
    it->judge(it, at + 4, int_at(at));
    return 4 + int_at(at);
}

/* ---- Turns */

/* Takes all that has come on a stream. Returns whether the stream goes on. */
static int take_all(struct stream *it, size_t (*take)(struct stream *, const unsigned char *, size_t)) {
    for (;;) {
        memcpy(buffer, it->rest, it->held);
        errno = 0;
        ssize_t got = read(it->socket, buffer + it->held, BUFFER - it->held);
        if (got < 0 && errno == EAGAIN) return 1;
        if (got < 0) fail("can't read");
        if (!got) return 0;
        last_byte = now();
        size_t have = it->held + got, at = 0;
        for (size_t length; (length = take(it, buffer + at, have - at));) at += length;
        if (have - at > REST) fail("a frame that is too long");
        it->held = have - at;
        memcpy(it->rest, buffer + at, it->held);
    }
}

static void go_on(struct stream *it) {
    if (it == &leader) {
        if (!take_all(it, take_packet)) fail("the observer has gone");
        flush(it);
        return;
    }
    struct connection *client = (struct connection *)it;
    if (take_all(it, take_frame)) {
        flush(it);
        return;
    }
    if (!client->is_leaving || client->answered != client->asked) fail("the observer closed a connection");
    close(it->socket);
    it->socket = -1;
    open_count--;
}

/* Waits until there is something to do, and does it. Between the commands it waits for the next one, for any time. */
static void turn(int is_between) {
    struct epoll_event events[64];
    double left = last_byte + DEADLINE - now();
    errno = 0;
    int ready = epoll_wait(poll_set, events, 64, is_between ? -1 : left < 0 ? 0 : (int)(1000 * left) + 1);
    if (!ready) fail("nothing has come for too long");
    for (int k = 0; k < ready; k++) {
        if (events[k].data.ptr) {
            go_on(events[k].data.ptr);
            continue;
        }
        ssize_t got = read(0, line + line_length, LINE - 1 - line_length);
        if (got <= 0) exit(is_between ? 0 : 1);
        line_length += got;
    }
}

static void watch(struct stream *it) {
    int on = 1;
    setsockopt(it->socket, IPPROTO_TCP, TCP_NODELAY, &on, sizeof on);
    fcntl(it->socket, F_SETFL, O_NONBLOCK);
    struct epoll_event event = {.events = EPOLLIN | EPOLLOUT | EPOLLET, .data.ptr = it};
    if (epoll_ctl(poll_set, EPOLL_CTL_ADD, it->socket, &event)) fail("epoll_ctl");
}

static struct sockaddr_in address_of(int port) {
    struct sockaddr_in address = {.sin_family = AF_INET, .sin_port = htons(port)};
    address.sin_addr.s_addr = htonl(INADDR_LOOPBACK);
    return address;
}

/* ---- The commands */

static double feed(const char *name, size_t count) {
    FILE *from = fopen(name, "rb");
    if (!from) fail(name);
    if (fseek(from, 0, SEEK_END)) fail(name);
    size_t length = ftell(from);
    rewind(from);
    if (zxid != EPOCH) fail("there are transactions already");
    if (length && fread(room_for(&leader.out, length), 1, length, from) != length) fail(name);
    fclose(from);
    zxid += count;
    put_packet(PING, 0);
    unsigned before = pings;
    double began = now();
    for (flush(&leader); pings == before;) turn(0);
    began = now() - began;
    free(leader.out.at);
    memset(&leader.out, 0, sizeof leader.out);
    return began;
}

/* Opens a connection. Its client asks for a session, and for its node without waiting for the session. */
static void open_one(struct connection *it, size_t number, int port) {
    static const unsigned char connect_request[48] = {[3] = 44, [18] = 0x75, [19] = 0x30, [31] = 16};
    struct timeval longest = {.tv_sec = DEADLINE};
    struct sockaddr_in address = address_of(port);
    char name[16];
    snprintf(name, sizeof name, "/w%04zu", number % MOST_CONNECTIONS);
    memset(it, 0, sizeof *it);
    it->path[3] = PATH - 4;
    memcpy(it->path + 4, name, PATH - 4);
    it->judge = judge_connect;
    it->stream.socket = socket(AF_INET, SOCK_STREAM, 0);
    if (it->stream.socket < 0) fail("socket");
    setsockopt(it->stream.socket, SOL_SOCKET, SO_SNDTIMEO, &longest, sizeof longest);
    if (connect(it->stream.socket, (struct sockaddr *)&address, sizeof address)) fail("can't connect");
    last_byte = now();
    put(&it->stream.out, connect_request, sizeof connect_request);
    ask_create(it);
    watch(&it->stream);
    open_count++;
}

static size_t open_all(int port, size_t count) {
    if (open_count || !count || count > MOST_CONNECTIONS) fail("so many connections can't be opened");
    for (size_t k = 0; k < count; k++) {
        struct connection *it = connections[k] ? connections[k] : malloc(sizeof *it);
        if (!it) fail("no memory");
        connections[k] = it;
        open_one(it, k, port);
        for (flush(&it->stream); it->answered < it->asked;) turn(0);
    }
    return count;
}

/* Keeps requests under way for so many seconds. Returns how many writes were answered, in how many seconds, and the
 * seconds of a processor that this process took for them. */
static void pipeline(int depth, double seconds, double figures[3]) {
    if (!open_count || depth < 2 || depth > MOST_WAITING || parts < 0 || parts > MOST_PARTS) fail("no such pipeline");
    struct connection *it = connections[0];
    it->judge = judge_pair;
    double warm = now() + WARM_UP, began = 0, took = 0, at;
    int32_t first = 0;
    for (int is_counted = 0; (at = now()) < warm + seconds || !is_counted; turn(0)) {
        if (!is_counted && at >= warm) {
            is_counted = 1;
            warm = began = at;
            took = used();
            first = it->answered;
        }
        while (it->asked - it->answered < depth) {
            if (it->asked % 2 == 0) ask_get(it);
            else if (parts) ask_multi(it, (uint64_t)parts * (it->asked / 2) + 1);
            else ask_set(it, it->asked / 2 + 1);
        }
        flush(&it->stream);
    }
    figures[0] = (it->answered - first) / 2;
    figures[1] = at - began;
    figures[2] = used() - took;
    if (it->asked % 2 == 0) ask_get(it);
    for (flush(&it->stream); it->answered < it->asked;) turn(0);
}

/* Asks for what waits on a connection, a piece at a time: so each piece finds the observer's buffer empty. */
static void wait_on(struct connection *it, int frames, int is_write) {
    it->judge = judge_waiting;
    it->front = it->asked + 1;
    for (int many = 0; many < frames;) {
        for (int last = many + PIECE; many < last && many < frames; many++) {
            if (many) ask_get(it);
            else if (is_write) ask_set(it, it->value + 1);
            else ask_of_node(it, SYNC_PATH, 0);
        }
        it->is_fenced = 0;
        ask_fence(it);
        for (flush(&it->stream); !it->is_fenced;) turn(0);
    }
}

static double hold(int frames, const char *front, size_t count) {
    if (open_count != count || kept_count || frames < 1 || frames > MOST_WAITING) fail("so many can't wait");
    double began = now();
    is_holding = 1;
    for (size_t k = 0; k < count; k++) {
        wait_on(connections[k], frames, *front == 'w');
        while (kept_count <= k) turn(0);
    }
    return now() - began;
}

static double answer(size_t count) {
    expect("answers that are kept", kept_count, count);
    double began = now();
    for (size_t k = 0; k < count; k++) {
        answering = connections[k];
        put(&leader.out, kept.at + kept.from, kept_ends[k] - kept.from);
        kept.from = kept_ends[k];
        for (flush(&leader); answering->answered < answering->asked;) turn(0);
    }
    began = now() - began;
    is_holding = 0;
    answering = NULL;
    kept_count = 0;
    return began;
}

static void close_all(size_t count) {
    for (size_t k = 0; k < count; k++) {
        struct connection *it = connections[k];
        it->judge = judge_plain;
        it->is_leaving = 1;
        ask_of_node(it, DELETE, 4);
        put_int(&it->stream.out, -1);
        put_request(it, ++it->asked, CLOSE_SESSION, NULL, 0);
        flush(&it->stream);
    }
    while (open_count) turn(0);
    for (size_t k = 0; k < count; k++) free(connections[k]->stream.out.at);
}

/* Does the command in the line, and tells what it took. */
static void command(char *it) {
    static size_t count;
    char word[LINE];
    double number, figures[3];
    int first;
    errno = 0;
    last_byte = now();
    if (sscanf(it, "feed %s %lf", word, &number) == 2) printf("seconds=%.6f\n", feed(word, number));
    else if (sscanf(it, "open %d %lf", &first, &number) == 2) printf("open=%zu\n", count = open_all(first, number));
    else if (sscanf(it, "hold %d %s", &first, word) == 2) printf("seconds=%.6f\n", hold(first, word, count));
    else if (sscanf(it, "pipeline %d %lf %d", &first, &number, &parts) == 3) {
        pipeline(first, number, figures);
        printf("writes=%.0f seconds=%.6f used=%.6f\n", figures[0], figures[1], figures[2]);
    } else if (!strcmp(it, "answer")) printf("seconds=%.6f\n", answer(count));
    else if (!strcmp(it, "close")) {
        close_all(count);
        puts("open=0");
    } else fail("no such command");
    fflush(stdout);
}

/* Listens until an observer comes, and brings it up to date. */
static void lead(void) {
    struct sockaddr_in address = address_of(0);
    socklen_t length = sizeof address;
    int listener = socket(AF_INET, SOCK_STREAM, 0);
    if (bind(listener, (struct sockaddr *)&address, length) || listen(listener, 1)) fail("listen");
    getsockname(listener, (struct sockaddr *)&address, &length);
    printf("leading %d\n", ntohs(address.sin_port));
    fflush(stdout);
    struct pollfd coming = {.fd = listener, .events = POLLIN};
    if (poll(&coming, 1, 1000 * DEADLINE) != 1) fail("no observer has come");
    leader.socket = accept(listener, NULL, NULL);
    if (leader.socket < 0) fail("accept");
    close(listener);
    zxid = EPOCH;
    last_byte = now();
    watch(&leader);
    while (acks < 2) turn(0);
}

int main(int count, char **words) {
    if (count != 1) {
        fprintf(stderr, "usage: %s\n", words[0]);
        return 2;
    }
    signal(SIGPIPE, SIG_IGN);
    poll_set = epoll_create1(0);
    struct epoll_event input = {.events = EPOLLIN, .data.ptr = NULL};
    if (epoll_ctl(poll_set, EPOLL_CTL_ADD, 0, &input)) fail("standard input is no pipe");
    lead();
    for (;;) {
        char *end;
        while (!(end = memchr(line, '\n', line_length))) turn(1);
        *end = 0;
        line_length = 0;
        command(line);
    }
}
