/* A plain relay: each client's bytes go to one port of this machine, and that port's bytes to the client, unread.
 *
 * usage: relay PORT TO_PORT THREADS     a thread serves one client at a time, as a worker of jkd does
 * It ends with the signal that ends it.
 */
#define _GNU_SOURCE
#include <arpa/inet.h>
#include <netinet/tcp.h>
#include <poll.h>
#include <pthread.h>
#include <stdio.h>
#include <stdlib.h>
#include <sys/socket.h>
#include <unistd.h>

static int listener, to_port;

static int dial(void) {
    int fd = socket(AF_INET, SOCK_STREAM, 0), one = 1;
    struct sockaddr_in to = {.sin_family = AF_INET, .sin_port = htons((unsigned short)to_port)};
    to.sin_addr.s_addr = htonl(INADDR_LOOPBACK);
    if (fd < 0 || connect(fd, (struct sockaddr *)&to, sizeof to)) { perror("relay: connect"); exit(1); }
    setsockopt(fd, IPPROTO_TCP, TCP_NODELAY, &one, sizeof one);
    return fd;
}

/* copies what one side has to the other; 0 at its end */
static int copy(int from, int to) {
    static _Thread_local char bytes[1 << 16];
    ssize_t n = recv(from, bytes, sizeof bytes, 0);
    if (n <= 0) return 0;
    for (ssize_t at = 0; at < n;) {
        ssize_t put = send(to, bytes + at, (size_t)(n - at), MSG_NOSIGNAL);
        if (put <= 0) return 0;
        at += put;
    }
    return 1;
}

static void *serve(void *unused) {
    (void)unused;
    for (;;) {
        int one = 1, client = accept(listener, NULL, NULL);
        if (client < 0) continue;
        setsockopt(client, IPPROTO_TCP, TCP_NODELAY, &one, sizeof one);
        int server = dial();
        struct pollfd both[2] = {{.fd = client, .events = POLLIN}, {.fd = server, .events = POLLIN}};
        while (poll(both, 2, -1) > 0) {
            if (both[0].revents && !copy(client, server)) break;
            if (both[1].revents && !copy(server, client)) break;
        }
        close(client);
        close(server);
    }
    return NULL;
}

int main(int argc, char **argv) {
    if (argc != 4) { fprintf(stderr, "usage: relay PORT TO_PORT THREADS\n"); return 2; }
    int threads = atoi(argv[3]), one = 1;
    to_port = atoi(argv[2]);
    struct sockaddr_in at = {.sin_family = AF_INET, .sin_port = htons((unsigned short)atoi(argv[1]))};
    at.sin_addr.s_addr = htonl(INADDR_LOOPBACK);
    listener = socket(AF_INET, SOCK_STREAM, 0);
    setsockopt(listener, SOL_SOCKET, SO_REUSEADDR, &one, sizeof one);
    if (bind(listener, (struct sockaddr *)&at, sizeof at) || listen(listener, 128)) { perror("relay: listen"); return 1; }
    for (int i = 1; i < threads; i++) {
        pthread_t thread;
        pthread_create(&thread, NULL, serve, NULL);
    }
    serve(NULL);
}
