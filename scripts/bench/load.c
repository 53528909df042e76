/* A load for memcached's text protocol over TCP on 127.0.0.1: each connection is a thread that sends requests and reads
 * their replies. Each value is made from its key, and each hit is compared with it.
 *
 * Build: cc -O2 -pthread -o load load.c         Use: ./load --help
 */
#define _GNU_SOURCE
#include <arpa/inet.h>
#include <getopt.h>
#include <netinet/tcp.h>
#include <pthread.h>
#include <stdint.h>
#include <stdio.h>
#include <stdlib.h>
#include <string.h>
#include <sys/socket.h>
#include <time.h>
#include <unistd.h>

#define MOST_LATENCIES 4000000

/* What is asked for on the command line. */
static int port = 11211, connections = 1, depth = 1, keys_per_get = 1, is_fill = 0;
static uint32_t keys = 100000, size = 100, gets_percent = 100;
static double seconds = 1.0;

/* One connection, and what it counted. */
struct connection {
    pthread_t thread;
    int socket, number;
    uint64_t random, requests, keys_asked, hits, wrong;
    char *out, *in;
    size_t room, filled, taken;
    uint32_t *asked;   /* the keys of the requests whose replies are awaited */
    char *is_get;
    uint32_t *latencies, latency_count;   /* in microseconds, for one batch of `depth` requests */
};

static uint64_t now_ns(void) {
    struct timespec t;
    clock_gettime(CLOCK_MONOTONIC, &t);
    return (uint64_t)t.tv_sec * 1000000000u + t.tv_nsec;
}

static uint32_t draw(struct connection *c) {
    c->random = c->random * 6364136223846793005u + 1442695040888963407u;
    return c->random >> 33;
}

static void fill_value(char *to, uint32_t key) {
    for (uint32_t at = 0; at < size; at++) to[at] = 'a' + (key + at * 7) % 26;
}

static int is_value(const char *bytes, uint32_t key) {
    for (uint32_t at = 0; at < size; at++)
        if (bytes[at] != (char)('a' + (key + at * 7) % 26)) return 0;
    return 1;
}

static void fail(const char *why) {
    fprintf(stderr, "load: %s\n", why);
    exit(1);
}

/* The bytes from `taken` on, at least so many. */
static char *wait_for(struct connection *c, size_t wanted) {
    if (c->room - c->taken < wanted) {
        memmove(c->in, c->in + c->taken, c->filled - c->taken);
        c->filled -= c->taken;
        c->taken = 0;
    }
    while (c->filled - c->taken < wanted) {
        ssize_t n = recv(c->socket, c->in + c->filled, c->room - c->filled, 0);
        if (n <= 0) fail("the connection was closed, or no reply came within 10 s");
        c->filled += n;
    }
    return c->in + c->taken;
}

/* One line with its line feed; it counts as taken. */
static char *line_of(struct connection *c, size_t *length) {
    size_t seen = 0;
    for (;;) {
        char *from = wait_for(c, seen + 1), *end = memchr(from + seen, '\n', c->filled - c->taken - seen);
        if (end) {
            *length = end - from + 1;
            c->taken += *length;
            return from;
        }
        seen = c->filled - c->taken;
    }
}

static size_t put_set(char *to, uint32_t key) {
    size_t n = sprintf(to, "set key:%010u %u 0 %u\r\n", key, key & 0xffff, size);
    fill_value(to + n, key);
    memcpy(to + n + size, "\r\n", 2);
    return n + size + 2;
}

static size_t put_get(struct connection *c, char *to, uint32_t *asked) {
    size_t n = sprintf(to, "get");
    for (int i = 0; i < keys_per_get; i++) {
        asked[i] = draw(c) % keys;
        n += sprintf(to + n, " key:%010u", asked[i]);
    }
    memcpy(to + n, "\r\n", 2);
    return n + 2;
}

static void read_stored(struct connection *c) {
    size_t length;
    char *line = line_of(c, &length);
    if (length != 8 || memcmp(line, "STORED\r\n", 8)) fail("a set wasn't answered by STORED");
}

/* The hits of a get, each the value of the next of the keys that has that number. */
static void read_values(struct connection *c, const uint32_t *asked) {
    for (int i = 0;;) {
        size_t length;
        char *line = line_of(c, &length);
        unsigned key, flags, bytes;
        if (length == 5 && !memcmp(line, "END\r\n", 5)) return;
        if (sscanf(line, "VALUE key:%u %u %u\r\n", &key, &flags, &bytes) != 3) fail("a get has a reply that is none");
        while (i < keys_per_get && asked[i] != key) i++;
        char *value = wait_for(c, bytes + 2);
        c->wrong += i++ == keys_per_get || bytes != size || flags != (key & 0xffff) || !is_value(value, key);
        c->taken += bytes + 2;
        c->hits++;
    }
}

static void send_all(struct connection *c, size_t length) {
    for (size_t sent = 0; sent < length;) {
        ssize_t n = send(c->socket, c->out + sent, length - sent, MSG_NOSIGNAL);
        if (n <= 0) fail("the connection was closed");
        sent += n;
    }
}

/* As many requests as the depth, sent at once, and their replies. */
static void one_batch(struct connection *c, uint32_t *next_key) {
    size_t length = 0;
    int count = 0;
    for (; count < depth; count++) {
        if (is_fill && *next_key >= keys) break;
        uint32_t *asked = c->asked + count * keys_per_get;
        c->is_get[count] = !is_fill && draw(c) % 100 < gets_percent;
        if (c->is_get[count]) length += put_get(c, c->out + length, asked);
        else {
            length += put_set(c->out + length, is_fill ? *next_key : draw(c) % keys);
            *next_key += connections;
        }
        c->keys_asked += c->is_get[count] ? keys_per_get : 1;
    }
    uint64_t began = now_ns();
    send_all(c, length);
    for (int i = 0; i < count; i++) {
        if (c->is_get[i]) read_values(c, c->asked + i * keys_per_get);
        else read_stored(c);
    }
    if (c->latency_count < MOST_LATENCIES) c->latencies[c->latency_count++] = (now_ns() - began) / 1000;
    c->requests += count;
}

static void *run(void *of) {
    struct connection *c = of;
    uint64_t end = now_ns() + (uint64_t)(seconds * 1e9);
    uint32_t next_key = c->number;
    while (is_fill ? next_key < keys : now_ns() < end) one_batch(c, &next_key);
    return NULL;
}

static void open_connection(struct connection *c, int number) {
    struct sockaddr_in to = { .sin_family = AF_INET, .sin_port = htons(port), .sin_addr.s_addr = htonl(INADDR_LOOPBACK) };
    struct timeval limit = { .tv_sec = 10 };
    int one = 1;
    size_t request = (size_t)keys_per_get * 16 + size + 64;
    c->number = number;
    c->random = number * 7919 + 1;
    c->room = 1 << 20;
    c->in = malloc(c->room + size);
    c->out = malloc(depth * request);
    c->asked = calloc((size_t)depth * keys_per_get, sizeof *c->asked);
    c->is_get = calloc(depth, 1);
    c->latencies = malloc(MOST_LATENCIES * sizeof *c->latencies);
    c->socket = socket(AF_INET, SOCK_STREAM, 0);
    setsockopt(c->socket, IPPROTO_TCP, TCP_NODELAY, &one, sizeof one);
    setsockopt(c->socket, SOL_SOCKET, SO_RCVTIMEO, &limit, sizeof limit);
    if (connect(c->socket, (struct sockaddr *)&to, sizeof to)) fail("no server at that port");
}

static int by_size(const void *one, const void *other) {
    uint32_t a = *(const uint32_t *)one, b = *(const uint32_t *)other;
    return (a > b) - (a < b);
}

static void usage(void) {
    puts("load --port N [--connections 1] [--depth 1] [--keys 100000] [--size 100] [--gets 100] [--keys-per-get 1]\n"
         "     [--seconds 1] [--fill]\n"
         "Sends requests for that many seconds: so many percent of them gets, the others sets of values of that size,\n"
         "`--depth` of them before the replies are read. With --fill it sets each key once.\n"
         "Prints requests and keys a second, the share of hits, latencies of a batch in microseconds, and wrong values.\n"
         "Ends with 1 where a value or a reply was wrong.");
}

static void read_options(int count, char **words) {
    static const struct option known[] = {
        { "port", 1, 0, 'p' }, { "connections", 1, 0, 'c' }, { "depth", 1, 0, 'd' }, { "keys", 1, 0, 'k' },
        { "size", 1, 0, 'v' }, { "gets", 1, 0, 'g' }, { "keys-per-get", 1, 0, 'm' }, { "seconds", 1, 0, 's' },
        { "fill", 0, 0, 'f' }, { "help", 0, 0, 'h' }, { 0, 0, 0, 0 },
    };
    for (int option; (option = getopt_long(count, words, "", known, NULL)) != -1;) switch (option) {
        case 'p': port = atoi(optarg); break;
        case 'c': connections = atoi(optarg); break;
        case 'd': depth = atoi(optarg); break;
        case 'k': keys = strtoul(optarg, NULL, 10); break;
        case 'v': size = strtoul(optarg, NULL, 10); break;
        case 'g': gets_percent = strtoul(optarg, NULL, 10); break;
        case 'm': keys_per_get = atoi(optarg); break;
        case 's': seconds = atof(optarg); break;
        case 'f': is_fill = 1; break;
        case 'h': usage(); exit(0);
        default: usage(); exit(2);
    }
    if (connections < 1 || depth < 1 || keys < 1 || keys_per_get < 1 || size > 1000000 || optind < count) { usage(); exit(2); }
}

static void report(struct connection *all, double took) {
    uint64_t requests = 0, asked = 0, hits = 0, wrong = 0, count = 0;
    for (int i = 0; i < connections; i++) count += all[i].latency_count;
    uint32_t *latencies = malloc((count + 1) * sizeof *latencies);
    count = 0;
    for (int i = 0; i < connections; i++) {
        struct connection *c = &all[i];
        requests += c->requests, asked += c->keys_asked, hits += c->hits, wrong += c->wrong;
        memcpy(latencies + count, c->latencies, c->latency_count * sizeof *latencies);
        count += c->latency_count;
    }
    latencies[count] = 0;
    qsort(latencies, count, sizeof *latencies, by_size);
    printf("requests=%llu requests_s=%.0f keys_s=%.0f hits=%.4f p50=%u p99=%u wrong=%llu\n", (unsigned long long)requests,
           requests / took, asked / took, asked ? (double)hits / asked : 0.0, latencies[count / 2],
           latencies[count * 99 / 100], (unsigned long long)wrong);
    if (wrong) exit(1);
}

int main(int count, char **words) {
    read_options(count, words);
    struct connection *all = calloc(connections, sizeof *all);
    for (int i = 0; i < connections; i++) open_connection(&all[i], i);
    uint64_t began = now_ns();
    for (int i = 0; i < connections; i++) pthread_create(&all[i].thread, NULL, run, &all[i]);
    for (int i = 0; i < connections; i++) pthread_join(all[i].thread, NULL);
    report(all, (now_ns() - began) / 1e9);
    return 0;
}
