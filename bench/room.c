/* A front that does next to nothing, by how its clients wait: what the waiting alone costs.
 *
 * usage: room member PORT                      a member: answers each piece with 200 bytes, a thread for each link
 *        room PORT MEMBER_PORT THREADS SHAPE [CLIENTS]
 * SHAPE: thread   a thread serves one client to its end
 *        room     clients stand in a set; one free worker leads, puts who is ready into a queue, and passes the lead on
 *        watched  the same, and a worker that has answered first looks at its own client for a millisecond, unless somebody is
 *                 ready or more than CLIENTS clients (16) are with workers
 *        alone    the same, and its client isn't in the set meanwhile, nor as long as it comes again within the millisecond
 *        taken    the same, but it is taken out of the set before each look, though it may be out already
 * A request is any piece of a client: the worker looks whether its link to the member is quiet, sends 300 bytes, waits for the
 * answer, sends a reply, and looks whether the client waits. It ends with the signal that ends it.
 */
#define _GNU_SOURCE
#include <arpa/inet.h>
#include <errno.h>
#include <netinet/tcp.h>
#include <poll.h>
#include <pthread.h>
#include <stdio.h>
#include <stdlib.h>
#include <string.h>
#include <sys/epoll.h>
#include <sys/socket.h>
#include <unistd.h>

enum { PLACES = 4096, EVENTS = 1024, PIECE = 16384, LEAD_MILLIS = 500, WORK = 2500 };
enum shape { THREAD, ROOM, WATCHED, ALONE, TAKEN };
enum state { FREE, WAITS, AWAY, AWAY_AND_MORE };

struct place { int fd; enum state state; int is_out; /* of the set */ };

static const char *const SHAPES[] = {"thread", "room", "watched", "alone", "taken"};
static const char REPLY[] = "HTTP/1.1 200 OK\r\nServer: jkd\r\nContent-Type: text/plain\r\nContent-Length: 3\r\n\r\nhi\n";

static enum shape shape;
static int listener, member_port, most_away = 16, set;
static pthread_mutex_t lead = PTHREAD_MUTEX_INITIALIZER, table = PTHREAD_MUTEX_INITIALIZER;
static struct place places[PLACES];
static int ready[PLACES], first, count, away, is_owed = 1;

static void fail(const char *what) { perror(what); exit(1); }

static void send_at_once(int fd) {
    int one = 1;
    setsockopt(fd, IPPROTO_TCP, TCP_NODELAY, &one, sizeof one);
}

static struct sockaddr_in here(int port) {
    struct sockaddr_in at = {.sin_family = AF_INET, .sin_port = htons((unsigned short)port)};
    at.sin_addr.s_addr = htonl(INADDR_LOOPBACK);
    return at;
}

static int listen_at(int port, int flags) {
    int fd = socket(AF_INET, SOCK_STREAM | flags, 0), one = 1;
    struct sockaddr_in at = here(port);
    setsockopt(fd, SOL_SOCKET, SO_REUSEADDR, &one, sizeof one);
    if (bind(fd, (struct sockaddr *)&at, sizeof at) || listen(fd, 1024)) fail("room: listen");
    return fd;
}

static int dial(void) {
    int fd = socket(AF_INET, SOCK_STREAM, 0);
    struct sockaddr_in to = here(member_port);
    if (fd < 0 || connect(fd, (struct sockaddr *)&to, sizeof to)) fail("room: connect");
    send_at_once(fd);
    return fd;
}

/* what else a request takes of the processor, a few microseconds */
static void work(void) {
    volatile unsigned sum = 0;
    for (unsigned i = 0; i < WORK; i++) sum += i;
}

/* one request, once its piece came; 0 where a link is broken */
static int talk(int client, int member) {
    char bytes[PIECE];
    work();
    if (recv(member, bytes, 1, MSG_DONTWAIT | MSG_PEEK) >= 0) return 0;
    memset(bytes, 'x', 300);
    if (send(member, bytes, 300, MSG_NOSIGNAL) != 300 || recv(member, bytes, sizeof bytes, 0) <= 0) return 0;
    return send(client, REPLY, sizeof REPLY - 1, MSG_NOSIGNAL) > 0;
}

static void *serve_to_the_end(void *unused) {
    char bytes[PIECE];
    int member = dial();
    for (;;) {
        int client = accept(listener, NULL, NULL);
        if (client < 0) continue;
        send_at_once(client);
        while (recv(client, bytes, sizeof bytes, 0) > 0 && talk(client, member)) {}
        close(client);
    }
    return unused;
}

/* a place's client is watched; one that is already stays so */
static void watch(int at) {
    struct epoll_event event = {.events = EPOLLIN | EPOLLRDHUP | EPOLLET, .data.u32 = (unsigned)at};
    epoll_ctl(set, EPOLL_CTL_ADD, places[at].fd, &event);
    places[at].is_out = 0;
}

static void put_into_queue(int at) {
    ready[(first + count++) % PLACES] = at;
    places[at].state = AWAY;
}

static int take(void) {
    int at = -1;
    pthread_mutex_lock(&table);
    if (count > 0) {
        at = ready[first];
        first = (first + 1) % PLACES;
        count--;
        away++;
        places[at].state = AWAY;
    }
    pthread_mutex_unlock(&table);
    return at;
}

static void let_in(int client) {
    int at = 0;
    send_at_once(client);
    pthread_mutex_lock(&table);
    while (places[at].state != FREE) at++;
    places[at] = (struct place){.fd = client, .state = WAITS};
    watch(at);
    pthread_mutex_unlock(&table);
}

static void lead_once(void) {
    struct epoll_event events[EVENTS];
    int came = epoll_wait(set, events, EVENTS, LEAD_MILLIS);
    pthread_mutex_lock(&table);
    for (int i = 0; i < came; i++) {
        unsigned at = events[i].data.u32;
        if (at == PLACES) is_owed = 1;
        else if (places[at].state == WAITS) put_into_queue((int)at);
        else if (places[at].state == AWAY) places[at].state = AWAY_AND_MORE;
    }
    pthread_mutex_unlock(&table);
    while (is_owed) {
        int client = accept(listener, NULL, NULL);
        if (client < 0) is_owed = 0;
        else let_in(client);
    }
}

static int next(void) {
    for (;;) {
        int at = take();
        if (at >= 0) return at;
        pthread_mutex_lock(&lead);
        at = take();
        if (at < 0) { lead_once(); at = take(); }
        pthread_mutex_unlock(&lead);
        if (at >= 0) return at;
    }
}

/* whether something comes of a worker's own client within a millisecond */
static int comes_soon(int at) {
    struct pollfd own = {.fd = places[at].fd, .events = POLLIN};
    pthread_mutex_lock(&table);
    int may = count == 0 && away <= most_away;
    pthread_mutex_unlock(&table);
    if (!may) return 0;
    if (shape == TAKEN || (shape == ALONE && !places[at].is_out)) {
        epoll_ctl(set, EPOLL_CTL_DEL, own.fd, NULL);
        places[at].is_out = 1;
    }
    return poll(&own, 1, 1) > 0;
}

static void give_back(int at, int comes) {
    pthread_mutex_lock(&table);
    away--;
    if (comes || places[at].state == AWAY_AND_MORE) {
        put_into_queue(at);
    } else {
        places[at].state = WAITS;
        if (shape == TAKEN || places[at].is_out) watch(at);
    }
    pthread_mutex_unlock(&table);
}

static void leave(int at) {
    pthread_mutex_lock(&table);
    away--;
    places[at].state = FREE;
    close(places[at].fd);
    pthread_mutex_unlock(&table);
}

static void *serve_from_the_room(void *unused) {
    char bytes[PIECE];
    int member = dial();
    for (;;) {
        int at = next(), client = places[at].fd, is_whole = 1;
        ssize_t came = recv(client, bytes, sizeof bytes, MSG_DONTWAIT);
        int was_there = came > 0;
        while (came > 0 && (is_whole = talk(client, member))) came = recv(client, bytes, sizeof bytes, MSG_DONTWAIT);
        if (!is_whole || came == 0) leave(at);
        else give_back(at, was_there && shape > ROOM && comes_soon(at));
    }
    return unused;
}

static void *answer(void *link) {
    char bytes[PIECE];
    int fd = (int)(long)link;
    while (recv(fd, bytes, sizeof bytes, 0) > 0) {
        work();
        if (send(fd, bytes, 200, MSG_NOSIGNAL) <= 0) break;
    }
    close(fd);
    return NULL;
}

static void be_member(int port) {
    listener = listen_at(port, 0);
    for (;;) {
        pthread_t thread;
        int fd = accept(listener, NULL, NULL);
        if (fd < 0) continue;
        send_at_once(fd);
        pthread_create(&thread, NULL, answer, (void *)(long)fd);
        pthread_detach(thread);
    }
}

int main(int argc, char **argv) {
    if (argc == 3 && !strcmp(argv[1], "member")) be_member(atoi(argv[2]));
    while (argc >= 5 && shape <= TAKEN && strcmp(argv[4], SHAPES[shape])) shape++;
    if (argc < 5 || shape > TAKEN) { fprintf(stderr, "usage: room member PORT | room PORT MEMBER_PORT THREADS SHAPE [CLIENTS]\n"); return 2; }
    if (argc > 5) most_away = atoi(argv[5]);
    member_port = atoi(argv[2]);
    listener = listen_at(atoi(argv[1]), shape == THREAD ? 0 : SOCK_NONBLOCK);
    void *(*serve)(void *) = shape == THREAD ? serve_to_the_end : serve_from_the_room;
    if (shape != THREAD) {
        struct epoll_event event = {.events = EPOLLIN | EPOLLET, .data.u32 = PLACES};
        set = epoll_create1(0);
        if (set < 0 || epoll_ctl(set, EPOLL_CTL_ADD, listener, &event)) fail("room: epoll");
    }
    for (int i = 1; i < atoi(argv[3]); i++) {
        pthread_t thread;
        pthread_create(&thread, NULL, serve, NULL);
    }
    serve(NULL);
}
