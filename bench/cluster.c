/* A closed loop of clients, for `bench/cluster`, which compiles it.
 *
 * usage: cluster PROTOCOL COPIES BYTES CLIENTS FIRST WARM SECONDS PORT...
 *
 * Each client keeps connections to 127.0.0.1 open, to COPIES of the ports one after the other, and the clients begin at the ports by turns. It sends
 * one command of BYTES bytes by each, waits until all have replied, and sends the next. Replies of RITAS must name one position. Clients have the
 * numbers FIRST, FIRST + 1 and so on, so that with other numbers all commands are new. Nothing counts in the first WARM seconds. One line is
 * printed: the commands that were answered in the SECONDS behind them, the median and the 99th percentile of their latencies in microseconds, the
 * commands answered in all, how many were refused, as by a full window, and sent again, and how many clients have waited for more than a second at
 * the end, as where a node is left behind. Where none was answered in these SECONDS, their times are 0.
 *
 * PROTOCOL is `ritas` (docs/FORMATS.md, client messages), `json` (etcd's gateway, POST /v3/kv/put over HTTP/1.1) or `grpc` (etcd's own
 * KV/Put over HTTP/2, with one stream at a time). A command is the client's and the command's number, which are etcd's key, and a value.
 */
#include <errno.h>
#include <netinet/in.h>
#include <netinet/tcp.h>
#include <stdint.h>
#include <stdio.h>
#include <stdlib.h>
#include <string.h>
#include <sys/epoll.h>
#include <sys/socket.h>
#include <time.h>
#include <unistd.h>

enum { MOST = 1024, LINKS = 4, BYTES = 16384, KEY = 8, MOST_VALUE = 4088, REPLY = 15 };

struct client;

struct link {
    struct client *client;
    int socket, waits;
    int has_data; /* of grpc: the reply's message came */
    size_t held;
    uint8_t came[BYTES];
};

struct client {
    uint32_t number, request, position;
    double sent;
    int waits; /* for so many replies */
    struct link links[LINKS];
};

static struct client clients[MOST];
static uint64_t refused;
static uint8_t value[MOST_VALUE];
static size_t value_bytes;

static void fail(const char *what, const struct client *c) {
    fprintf(stderr, "cluster: %s (client %u, request %u)\n", what, c->number, c->request);
    exit(1);
}

static double now(void) {
    struct timespec t;
    clock_gettime(CLOCK_MONOTONIC, &t);
    return (double)t.tv_sec + 1e-9 * (double)t.tv_nsec;
}

static uint8_t *put(uint8_t *to, const void *bytes, size_t count) {
    memcpy(to, bytes, count);
    return to + count;
}

static uint8_t *put_number(uint8_t *to, uint32_t number, int count) {
    for (int k = count - 1; k >= 0; k--) *to++ = (uint8_t)(number >> (8 * k));
    return to;
}

static uint32_t number_at(const uint8_t *from, int count) {
    uint32_t number = 0;
    for (int k = 0; k < count; k++) number = number << 8 | from[k];
    return number;
}

/* A request is small and its connection has nothing else to go out, so it is taken whole. */
static void send_whole(struct link *l, const uint8_t *bytes, size_t count) {
    if (send(l->socket, bytes, count, MSG_NOSIGNAL) != (ssize_t)count) fail("a send failed", l->client);
}

static uint8_t *put_key(uint8_t *to, const struct link *l) {
    return put_number(put_number(to, l->client->number, 4), l->client->request, 4);
}

/* RITAS: a length of two bytes, and so many bytes. */

static void send_ritas(struct link *l) {
    uint8_t out[2 + KEY + MOST_VALUE], *end = put(put_key(put_number(out, (uint32_t)(KEY + value_bytes), 2), l), value, value_bytes);
    send_whole(l, out, (size_t)(end - out));
}

static int take_ritas(struct link *l) {
    struct client *c = l->client;
    if (l->held < REPLY) return 0;
    uint8_t key[KEY];
    put_key(key, l);
    if (number_at(l->came, 2) != REPLY - 2 || memcmp(l->came + 3, key, KEY) != 0) fail("a reply isn't that of the request", c);
    int form = l->came[2];
    uint32_t number = number_at(l->came + 11, 4);
    memmove(l->came, l->came + REPLY, l->held -= REPLY);
    if (form == 1) {
        if (c->position != UINT32_MAX && c->position != number) fail("two nodes give two positions", c);
        c->position = number;
        return 1;
    }
    if (form != 2 || number != 7) fail("a request is refused", c);
    refused++;
    send_ritas(l);
    return 0;
}

/* etcd's gateway: one POST, and a reply with its length. */

static uint8_t *put_base64(uint8_t *to, const uint8_t *bytes, size_t count) {
    static const char digits[] = "ABCDEFGHIJKLMNOPQRSTUVWXYZabcdefghijklmnopqrstuvwxyz0123456789+/";
    for (size_t k = 0; k < count; k += 3) {
        uint32_t v = (uint32_t)bytes[k] << 16;
        if (k + 1 < count) v |= (uint32_t)bytes[k + 1] << 8;
        if (k + 2 < count) v |= bytes[k + 2];
        *to++ = (uint8_t)digits[v >> 18];
        *to++ = (uint8_t)digits[v >> 12 & 63];
        *to++ = k + 1 < count ? (uint8_t)digits[v >> 6 & 63] : '=';
        *to++ = k + 2 < count ? (uint8_t)digits[v & 63] : '=';
    }
    return to;
}

static void send_json(struct link *l) {
    static uint8_t body[2 * MOST_VALUE], out[2 * MOST_VALUE + 512];
    uint8_t key[KEY], *end = put(body, "{\"key\":\"", 8);
    put_key(key, l);
    end = put(put_base64(end, key, KEY), "\",\"value\":\"", 11);
    end = put(put_base64(end, value, value_bytes), "\"}", 2);
    int head = sprintf((char *)out, "POST /v3/kv/put HTTP/1.1\r\nHost: 127.0.0.1\r\nContent-Length: %zu\r\n\r\n", (size_t)(end - body));
    put(out + head, body, (size_t)(end - body));
    send_whole(l, out, (size_t)(head + (end - body)));
}

static int take_json(struct link *l) {
    l->came[l->held] = 0;
    char *text = (char *)l->came, *head = strstr(text, "\r\n\r\n");
    if (!head) return 0;
    if (strncmp(text, "HTTP/1.1 200", 12) != 0) fail("the gateway refuses", l->client);
    char *length = strcasestr(text, "\r\nContent-Length:");
    if (!length || length > head) fail("a reply has no length", l->client);
    size_t whole = (size_t)(head + 4 - text) + strtoul(length + 17, NULL, 10);
    if (l->held < whole) return 0;
    if (l->held > whole) fail("a reply has too many bytes", l->client);
    l->held = 0;
    return 1;
}

/* etcd's own interface: HTTP/2 (RFC 9113) with header fields that are spelled out (RFC 7541), and one stream after the other. */

static uint8_t *put_frame(uint8_t *to, uint32_t length, uint8_t type, uint8_t flags, uint32_t stream) {
    to = put_number(to, length, 3);
    *to++ = type;
    *to++ = flags;
    return put_number(to, stream, 4);
}

static void greet_grpc(struct link *l) {
    uint8_t out[64], *end = put(out, "PRI * HTTP/2.0\r\n\r\nSM\r\n\r\n", 24);
    end = put_frame(end, 0, 4, 0, 0);
    end = put_number(put_frame(end, 4, 8, 0, 0), 0x7fff0000u, 4); /* what it may send in all */
    send_whole(l, out, (size_t)(end - out));
}

/* A length of Protocol Buffers: seven bits a byte, the lowest first. */
static uint8_t *put_length(uint8_t *to, size_t length) {
    for (; length > 127; length >>= 7) *to++ = (uint8_t)(length | 128);
    *to++ = (uint8_t)length;
    return to;
}

static void send_grpc(struct link *l) {
    static const char fields[] =
        "\x83\x86\x04\x14/etcdserverpb.KV/Put\x01\x09" "127.0.0.1\x0f\x10\x10" "application/grpc\x00\x02te\x08trailers";
    uint8_t put_request[MOST_VALUE + 64], out[MOST_VALUE + 256];
    uint32_t stream = 2 * l->client->request + 1;
    uint8_t *last = put_key(put(put_request, "\x0a\x08", 2), l);
    *last++ = 0x12;
    last = put(put_length(last, value_bytes), value, value_bytes);
    uint32_t message = (uint32_t)(last - put_request);
    uint8_t *end = put(put_frame(out, sizeof fields - 1, 1, 4, stream), fields, sizeof fields - 1);
    end = put_number(put_frame(end, 5 + message, 0, 1, stream), 0, 1);
    end = put(put_number(end, message, 4), put_request, message);
    l->has_data = 0;
    send_whole(l, out, (size_t)(end - out));
}

static int take_grpc(struct link *l) {
    size_t at = 0;
    int is_done = 0;
    while (l->held - at >= 9) {
        const uint8_t *f = l->came + at;
        size_t length = number_at(f, 3);
        if (length > BYTES - 10) fail("a frame is too long", l->client);
        if (l->held - at < 9 + length) break;
        uint8_t out[32], type = f[3], flags = f[4];
        if (type == 0 && length > 5) l->has_data = 1;
        if (type == 4 && !(flags & 1)) send_whole(l, out, (size_t)(put_frame(out, 0, 4, 1, 0) - out));
        if (type == 6 && !(flags & 1)) send_whole(l, out, (size_t)(put(put_frame(out, 8, 6, 1, 0), f + 9, 8) - out));
        if (type == 3 || type == 7) fail("the server ends it", l->client);
        if (type == 1 && flags & 1) {
            if (!l->has_data) fail("the server refuses", l->client);
            is_done = 1;
        }
        at += 9 + length;
    }
    memmove(l->came, l->came + at, l->held -= at);
    return is_done;
}

static const struct protocol {
    const char *name;
    void (*greet)(struct link *);
    void (*send)(struct link *);
    int (*take)(struct link *);
} protocols[] = {{"ritas", NULL, send_ritas, take_ritas}, {"json", NULL, send_json, take_json}, {"grpc", greet_grpc, send_grpc, take_grpc}};

static void reach(struct link *l, int port, int poll) {
    struct sockaddr_in to = {.sin_family = AF_INET, .sin_port = htons((uint16_t)port), .sin_addr.s_addr = htonl(INADDR_LOOPBACK)};
    struct epoll_event event = {.events = EPOLLIN, .data.ptr = l};
    int one = 1;
    l->socket = socket(AF_INET, SOCK_STREAM, 0);
    if (l->socket < 0 || connect(l->socket, (struct sockaddr *)&to, sizeof to) != 0) fail("it can't connect", l->client);
    if (setsockopt(l->socket, IPPROTO_TCP, TCP_NODELAY, &one, sizeof one) != 0) fail("no socket option", l->client);
    if (epoll_ctl(poll, EPOLL_CTL_ADD, l->socket, &event) != 0) fail("no poll", l->client);
}

/* One command, by each of its client's connections. */
static void send_next(const struct protocol *p, struct client *c, int copies, double at) {
    c->sent = at;
    c->waits = copies;
    c->position = UINT32_MAX;
    for (int k = 0; k < copies; k++) {
        c->links[k].waits = 1;
        p->send(&c->links[k]);
    }
}

/* Whether the last of the replies that a client waits for is whole now. */
static int has_all(const struct protocol *p, struct link *l) {
    ssize_t got = recv(l->socket, l->came + l->held, BYTES - 1 - l->held, 0);
    if (got <= 0) fail("a connection ended", l->client);
    l->held += (size_t)got;
    if (!p->take(l)) return 0;
    if (!l->waits) fail("a second reply", l->client);
    l->waits = 0;
    return --l->client->waits == 0;
}

static int by_time(const void *a, const void *b) {
    float x = *(const float *)a, y = *(const float *)b;
    return (x > y) - (x < y);
}

int main(int words, char **word) {
    const struct protocol *p = NULL;
    for (size_t k = 0; words > 8 && k < 3; k++)
        if (strcmp(word[1], protocols[k].name) == 0) p = &protocols[k];
    int copies = p ? atoi(word[2]) : 0, bytes = p ? atoi(word[3]) : 0, count = p ? atoi(word[4]) : 0, ports = words - 8;
    if (copies < 1 || copies > LINKS || copies > ports || bytes < KEY || bytes > KEY + MOST_VALUE || count < 1 || count > MOST) return 2;
    double warm = atof(word[6]), seconds = atof(word[7]);
    uint64_t all = 0, measured = 0, room = 1 << 20;
    float *times = malloc(room * sizeof *times);
    int poll = epoll_create1(0);
    value_bytes = (size_t)bytes - KEY;
    for (size_t k = 0; k < value_bytes; k++) value[k] = (uint8_t)"0123456789abcdef"[k % 16];
    for (int k = 0; k < count; k++) {
        clients[k].number = (uint32_t)(atoi(word[5]) + k);
        for (int j = 0; j < copies; j++) {
            clients[k].links[j].client = &clients[k];
            reach(&clients[k].links[j], atoi(word[8 + (k + j) % ports]), poll);
            if (p->greet) p->greet(&clients[k].links[j]);
        }
    }
    double from = now() + warm, to = from + seconds;
    for (int k = 0; k < count; k++) send_next(p, &clients[k], copies, now());
    for (;;) {
        struct epoll_event events[64];
        int ready = epoll_wait(poll, events, 64, 100);
        double at = now();
        if (at >= to) break;
        for (int k = 0; k < ready; k++) {
            struct link *l = events[k].data.ptr;
            if (!has_all(p, l)) continue;
            at = now();
            all++;
            if (at >= from && at < to) {
                if (measured == room) times = realloc(times, (room *= 2) * sizeof *times);
                times[measured++] = (float)(1e6 * (at - l->client->sent));
            }
            l->client->request++;
            send_next(p, l->client, copies, at);
        }
    }
    qsort(times, measured, sizeof *times, by_time);
    int waiting = 0;
    for (int k = 0; k < count; k++) waiting += to - clients[k].sent > 1;
    double median = measured ? times[measured / 2] : 0, high = measured ? times[measured - 1 - measured / 100] : 0;
    printf("%llu %.1f %.1f %llu %llu %d\n", (unsigned long long)measured, median, high, (unsigned long long)all, (unsigned long long)refused, waiting);
    return 0;
}
