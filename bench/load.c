/* A load of one request over many connections: requests a second, latencies, and the front's own processor time.
 *
 * usage: load PORT CONNECTIONS REQUESTS PATH [BODY_BYTES [FRONT_PID]]     speaks HTTP/1.1 to 127.0.0.1:PORT
 *        load PORT CONNECTIONS 5s PATH ..                                 for 5 seconds, instead of a number of requests
 *        load PORT CONNECTIONS REQUESTS /size/%                           each asks for another length, up to 9,972 bytes
 *        load PORT CONNECTIONS REQUESTS ajp:PATH                          speaks AJPv1.3, as a connector does
 *
 * Each connection is kept, and has one request under way at a time. It ends once REQUESTS replies have come, or after
 * 120 seconds, or after the seconds that were given. It prints one line; a reply that isn't whole, or whose status isn't 200, counts as wrong, and so does one of
 * another length than the one that was asked for by `%`: it would be the reply to another request.
 */
#define _GNU_SOURCE
#include <arpa/inet.h>
#include <errno.h>
#include <fcntl.h>
#include <netinet/tcp.h>
#include <stdint.h>
#include <stdio.h>
#include <stdlib.h>
#include <string.h>
#include <sys/epoll.h>
#include <sys/socket.h>
#include <time.h>
#include <unistd.h>

enum { MOST_CONNECTIONS = 1024, HEAD_ROOM = 16384, LIMIT_SECONDS = 120, OWN_ROOM = 256, LENGTHS = 9973, MOST_TIMED = 16000000 };

struct connection {
    int fd;
    size_t sent;          /* of the request */
    uint64_t begun;       /* when the request was begun, in nanoseconds */
    unsigned char head[HEAD_ROOM];
    size_t got;           /* bytes of the reply's head, or of an AJP packet's front, in head */
    long left;            /* bytes of the body that are to come; -1 while the head isn't whole */
    int wrong;
    long wanted;          /* the length that it asked for, where each asks for another one; else -1 */
    unsigned char own[OWN_ROOM];
    const unsigned char *request;
    size_t request_len;
};

static struct connection connections[MOST_CONNECTIONS];
static unsigned char request[1 << 20];
static size_t request_len;
static int is_ajp;
static const char *numbered; /* the path in which `%` stands for a length */

static uint64_t now_ns(void) {
    struct timespec t;
    clock_gettime(CLOCK_MONOTONIC, &t);
    return (uint64_t)t.tv_sec * 1000000000u + (uint64_t)t.tv_nsec;
}

/* the processor time of a process and its threads, in microseconds */
static double cpu_of(int pid) {
    char name[64], text[1024];
    unsigned long user = 0, system = 0;
    snprintf(name, sizeof name, "/proc/%d/stat", pid);
    FILE *file = fopen(name, "r");
    if (!file) return 0;
    size_t n = fread(text, 1, sizeof text - 1, file);
    fclose(file);
    text[n] = 0;
    char *at = strrchr(text, ')');
    if (at) sscanf(at + 2, "%*c %*d %*d %*d %*d %*d %*u %*u %*u %*u %*u %lu %lu", &user, &system);
    return (double)(user + system) * 1e6 / (double)sysconf(_SC_CLK_TCK);
}

static long memory_of(int pid) {
    char name[64], line[256];
    long kb = 0;
    snprintf(name, sizeof name, "/proc/%d/status", pid);
    FILE *file = fopen(name, "r");
    if (!file) return 0;
    while (fgets(line, sizeof line, file))
        if (sscanf(line, "VmRSS: %ld", &kb) == 1) break;
    fclose(file);
    return kb;
}

static void put_string(const char *text) {
    size_t n = strlen(text);
    request[request_len++] = (unsigned char)(n >> 8);
    request[request_len++] = (unsigned char)n;
    memcpy(request + request_len, text, n + 1);
    request_len += n + 1;
}

/* a Forward Request for GET of a path with one header, Host */
static void make_ajp(const char *path) {
    static const unsigned char start[] = {0x12, 0x34, 0, 0, 2, 2};
    memcpy(request, start, sizeof start);
    request_len = sizeof start;
    put_string("HTTP/1.1");
    put_string(path);
    put_string("127.0.0.1");
    put_string("127.0.0.1");
    put_string("localhost");
    static const unsigned char middle[] = {0, 80, 0, 0, 1, 0xa0, 0x0b};
    memcpy(request + request_len, middle, sizeof middle);
    request_len += sizeof middle;
    put_string("localhost");
    request[request_len++] = 0xff;
    request[2] = (unsigned char)((request_len - 4) >> 8);
    request[3] = (unsigned char)(request_len - 4);
}

static void make_http(const char *path, size_t body) {
    char *text = (char *)request;
    int n = body ? snprintf(text, sizeof request, "POST %s HTTP/1.1\r\nHost: localhost\r\nContent-Length: %zu\r\n\r\n", path, body)
                 : snprintf(text, sizeof request, "GET %s HTTP/1.1\r\nHost: localhost\r\n\r\n", path);
    request_len = (size_t)n;
    if (request_len + body > sizeof request) { fprintf(stderr, "load: the body is too long\n"); exit(2); }
    memset(request + request_len, 'b', body);
    request_len += body;
}

static int dial(int port) {
    int fd = socket(AF_INET, SOCK_STREAM, 0), one = 1;
    struct sockaddr_in to = {.sin_family = AF_INET, .sin_port = htons((uint16_t)port)};
    to.sin_addr.s_addr = htonl(INADDR_LOOPBACK);
    if (fd < 0 || connect(fd, (struct sockaddr *)&to, sizeof to)) { perror("load: connect"); exit(2); }
    setsockopt(fd, IPPROTO_TCP, TCP_NODELAY, &one, sizeof one);
    fcntl(fd, F_SETFL, O_NONBLOCK);
    return fd;
}

/* begins the request of this number */
static void begin(struct connection *c, long number) {
    c->sent = 0;
    c->got = 0;
    c->left = -1;
    c->wanted = -1;
    c->request = request;
    c->request_len = request_len;
    if (numbered) {
        c->wanted = number * 31 % LENGTHS;
        c->request = c->own;
        c->request_len = (size_t)snprintf((char *)c->own, OWN_ROOM, "GET %.*s%ld%s HTTP/1.1\r\nHost: localhost\r\n\r\n",
            (int)(strchr(numbered, '%') - numbered), numbered, c->wanted, strchr(numbered, '%') + 1);
    }
    c->begun = now_ns();
}

/* 1: all was sent, 0: not yet, -1: the connection failed */
static int send_on(struct connection *c) {
    while (c->sent < c->request_len) {
        ssize_t n = send(c->fd, c->request + c->sent, c->request_len - c->sent, MSG_NOSIGNAL);
        if (n < 0) return errno == EAGAIN ? 0 : -1;
        c->sent += (size_t)n;
    }
    return 1;
}

/* takes bytes of an HTTP reply; 1 once it is whole */
static int take_http(struct connection *c, const unsigned char *bytes, size_t n) {
    size_t at = 0;
    while (c->left < 0 && at < n) {
        if (c->got == HEAD_ROOM - 1) { c->wrong = 1; return 1; }
        c->head[c->got++] = bytes[at++];
        if (c->got >= 4 && !memcmp(c->head + c->got - 4, "\r\n\r\n", 4)) {
            c->head[c->got] = 0;
            char *len = strcasestr((char *)c->head, "\r\nContent-Length:");
            if (memcmp(c->head, "HTTP/1.1 200", 12)) c->wrong = 1;
            if (!len) { c->wrong = 1; return 1; }
            c->left = strtol(len + 17, NULL, 10);
            if (c->wanted >= 0 && c->left != c->wanted) c->wrong = 1;
        }
    }
    if (c->left >= 0) c->left -= (long)(n - at);
    if (c->left < 0 && c->got && !memcmp(c->head + c->got - 4, "\r\n\r\n", 4)) c->wrong = 1;
    return c->left == 0;
}

/* takes bytes of AJP packets; 1 after End Response */
static int take_ajp(struct connection *c, const unsigned char *bytes, size_t n) {
    for (size_t at = 0; at < n;) {
        if (c->left <= 0 && c->got < 5) {
            c->head[c->got++] = bytes[at++];
            if (c->got == 5) {
                c->left = (c->head[2] << 8 | c->head[3]) - 1;
                if (c->left == 0) c->got = 0;
            }
            continue;
        }
        size_t more = n - at < (size_t)c->left ? n - at : (size_t)c->left;
        at += more;
        c->left -= (long)more;
        if (c->left == 0) {
            if (c->head[4] == 5) return 1;
            c->got = 0;
        }
    }
    return 0;
}

static int by_size(const void *a, const void *b) {
    uint64_t x = *(const uint64_t *)a, y = *(const uint64_t *)b;
    return x < y ? -1 : x > y;
}

int main(int argc, char **argv) {
    if (argc < 5 || argc > 7) { fprintf(stderr, "usage: load PORT CONNECTIONS REQUESTS PATH [BODY_BYTES [FRONT_PID]]\n"); return 2; }
    int port = atoi(argv[1]), count = atoi(argv[2]), pid = argc > 6 ? atoi(argv[6]) : 0;
    long total = atol(argv[3]), begun = 0, done = 0, wrong = 0, broken = 0, reopened = 0;
    int is_timed = strchr(argv[3], 's') != NULL;
    uint64_t limit = (uint64_t)(is_timed ? total : LIMIT_SECONDS) * 1000000000u;
    if (is_timed) total = MOST_TIMED;
    if (count < 1 || count > MOST_CONNECTIONS || total < count) { fprintf(stderr, "load: bad counts\n"); return 2; }
    is_ajp = !strncmp(argv[4], "ajp:", 4);
    if (is_ajp) make_ajp(argv[4] + 4); else make_http(argv[4], argc > 5 ? (size_t)atol(argv[5]) : 0);
    numbered = !is_ajp && strchr(argv[4], '%') && strlen(argv[4]) < OWN_ROOM - 64 ? argv[4] : NULL;
    uint64_t *took = calloc((size_t)total, sizeof *took);
    int poll = epoll_create1(0);
    double cpu = pid ? cpu_of(pid) : 0;
    uint64_t start = now_ns();
    for (int i = 0; i < count; i++) {
        struct connection *c = &connections[i];
        c->fd = dial(port);
        begin(c, begun);
        begun++;
        struct epoll_event event = {.events = EPOLLIN | EPOLLOUT | EPOLLET, .data.ptr = c};
        epoll_ctl(poll, EPOLL_CTL_ADD, c->fd, &event);
    }
    int open = count;
    while (open && done < total && now_ns() - start < limit) {
        struct epoll_event events[64];
        int n = epoll_wait(poll, events, 64, 1000);
        for (int i = 0; i < n; i++) {
            struct connection *c = events[i].data.ptr;
            static unsigned char bytes[1 << 16];
            int ok = send_on(c) >= 0;
            while (ok) {
                ssize_t got = recv(c->fd, bytes, sizeof bytes, 0);
                if (got < 0 && errno == EAGAIN) break;
                if (got <= 0) { ok = 0; break; }
                if (!(is_ajp ? take_ajp(c, bytes, (size_t)got) : take_http(c, bytes, (size_t)got))) continue;
                took[done++] = now_ns() - c->begun;
                wrong += c->wrong;
                c->wrong = 0;
                if (begun == total) { ok = 2; break; }
                begin(c, begun);
                begun++;
                if (send_on(c) < 0) ok = 0;
            }
            if (!ok && c->got == 0 && done < total) {
                /* the front closed a connection between two requests, as after its 1,000th: the request goes on a new one */
                close(c->fd);
                c->fd = dial(port);
                c->sent = 0;
                reopened++;
                struct epoll_event event = {.events = EPOLLIN | EPOLLOUT | EPOLLET, .data.ptr = c};
                epoll_ctl(poll, EPOLL_CTL_ADD, c->fd, &event);
                continue;
            }
            if (ok != 1) {
                broken += !ok;
                close(c->fd);
                open--;
            }
        }
    }
    double seconds = (double)(now_ns() - start) / 1e9;
    qsort(took, (size_t)done, sizeof *took, by_size);
    printf("%-14s %3d connections %8.0f requests/s  p50 %7.1f us  p99 %7.1f us  wrong %ld  broken %ld  reopened %ld", argv[4], count,
           (double)done / seconds, done ? (double)took[done / 2] / 1e3 : 0, done ? (double)took[done * 99 / 100] / 1e3 : 0, wrong, broken, reopened);
    if (pid) printf("  front %5.1f us/request %ld KB", (cpu_of(pid) - cpu) / (double)(done ? done : 1), memory_of(pid));
    printf("\n");
    return wrong || broken || (!is_timed && done < total);
}
