/* How many bytes a second a plain loop takes of bodies of 64 KiB by each framing, and writes of replies in chunks of
   8 KiB; and how many memcpy copies. Beside `bench bodies`.

       cc -O2 -o bodies bench/bodies.c && ./bodies 100000 */
#include <stdio.h>
#include <stdlib.h>
#include <string.h>
#include <time.h>

enum { BODY = 65536, CHUNK = 8192, PIECE = 8186, AHEAD = 16384, TEXT = BODY + BODY / CHUNK * 8 + 5 };

/* A client whose bytes are there, and who copies what is written to it. */
static const unsigned char *left, *text_end;
static unsigned char taken[AHEAD];

static size_t least(size_t a, size_t b) { return a < b ? a : b; }

static size_t wire_read(unsigned char *to, size_t n)
{
    n = least(n, text_end - left);
    memcpy(to, left, n);
    left += n;
    return n;
}

static void wire_write(const unsigned char *from, size_t n)
{
    while (n) {
        size_t now = least(n, AHEAD);
        memcpy(taken, from, now);
        from += now;
        n -= now;
    }
}

/* What was read and not yet used. */
static unsigned char ahead[AHEAD];
static size_t from, to;

static int next_byte(void)
{
    if (from == to) {
        from = 0;
        to = wire_read(ahead, AHEAD);
        if (!to)
            return -1;
    }
    return ahead[from++];
}

/* Data for a piece: what was read, or straight from the client. */
static size_t data(unsigned char *piece, size_t n)
{
    if (from == to)
        return wire_read(piece, n);
    n = least(n, to - from);
    memcpy(piece, ahead + from, n);
    from += n;
    return n;
}

static int digit(int b)
{
    return b >= '0' && b <= '9' ? b - '0' : b >= 'a' && b <= 'f' ? b - 'a' + 10 : b >= 'A' && b <= 'F' ? b - 'A' + 10 : -1;
}

/* The size in a chunk line. */
static size_t size_line(void)
{
    size_t size = 0;
    int b;
    while (digit(b = next_byte()) >= 0)
        size = size * 16 + digit(b);
    if (b != '\r' || next_byte() != '\n')
        exit(1);
    return size;
}

static void line_end(void)
{
    if (next_byte() != '\r' || next_byte() != '\n')
        exit(1);
}

static unsigned long by_length(void)
{
    size_t due = BODY;
    unsigned long sum = 0;
    while (due) {
        unsigned char *piece = malloc(PIECE);
        size_t want = least(due, PIECE), n = 0;
        if (!piece)
            exit(1);
        while (n < want)
            n += data(piece + n, want - n);
        due -= n;
        sum += piece[n - 1];
        free(piece);
    }
    return sum;
}

static unsigned long by_chunks(void)
{
    size_t due = size_line();
    unsigned long sum = 0;
    while (due) {
        unsigned char *piece = malloc(PIECE);
        size_t n = 0;
        if (!piece)
            exit(1);
        while (n < PIECE && due) {
            size_t came = data(piece + n, least(due, PIECE - n));
            n += came;
            due -= came;
            if (!due) {
                line_end();
                due = size_line();
            }
        }
        sum += piece[n - 1];
        free(piece);
    }
    line_end();
    return sum;
}

static unsigned long write_by_length(const unsigned char *body)
{
    static const char head[] = "HTTP/1.1 200 OK\r\nContent-Length: 65536\r\n\r\n";
    unsigned char *first = malloc(sizeof head - 1 + CHUNK);
    if (!first)
        exit(1);
    memcpy(first, head, sizeof head - 1);
    memcpy(first + sizeof head - 1, body, CHUNK);
    wire_write(first, sizeof head - 1 + CHUNK);
    free(first);
    for (size_t at = CHUNK; at < BODY; at += CHUNK)
        wire_write(body + at, CHUNK);
    return taken[0];
}

static unsigned long write_by_chunks(const unsigned char *body)
{
    static const char head[] = "HTTP/1.1 200 OK\r\nTransfer-Encoding: chunked\r\n\r\n";
    unsigned char *text = malloc(sizeof head + CHUNK + 24);
    size_t n = sizeof head - 1;
    if (!text)
        exit(1);
    memcpy(text, head, n);
    for (size_t at = 0; at < BODY; at += CHUNK) {
        n += sprintf((char *)text + n, "%x\r\n", CHUNK);
        memcpy(text + n, body + at, CHUNK);
        n += CHUNK;
        memcpy(text + n, "\r\n", 2);
        wire_write(text, n + 2);
        n = 0;
    }
    free(text);
    wire_write((const unsigned char *)"0\r\n\r\n", 5);
    return taken[0];
}

int main(int argc, char **argv)
{
    static const char *names[] = {"TakeByLength", "TakeChunks", "WriteByLength", "WriteChunks", "memcpy"};
    static unsigned char body[BODY], chunks[TEXT], copy[BODY];
    long rounds = argc > 1 ? atol(argv[1]) : 1;
    unsigned long sum = 0;
    size_t n = 0;
    memset(body, 'x', BODY);
    for (size_t at = 0; at < BODY; at += CHUNK) {
        n += sprintf((char *)chunks + n, "%x\r\n", CHUNK);
        memcpy(chunks + n, body + at, CHUNK);
        memcpy(chunks + n + CHUNK, "\r\n", 2);
        n += CHUNK + 2;
    }
    memcpy(chunks + n, "0\r\n\r\n", 5);
    n += 5;
    for (int work = 0; work < 5; work++) {
        struct timespec start, end;
        clock_gettime(CLOCK_MONOTONIC, &start);
        for (long round = 0; round < rounds; round++) {
            left = work == 1 ? chunks : body;
            text_end = left + (work == 1 ? n : BODY);
            from = to = 0;
            switch (work) {
            case 0: sum += by_length(); break;
            case 1: sum += by_chunks(); break;
            case 2: sum += write_by_length(body); break;
            case 3: sum += write_by_chunks(body); break;
            default:
                body[round % BODY] = (unsigned char)round;
                memcpy(copy, body, BODY);
                sum += copy[(round + 1) % BODY];
            }
        }
        clock_gettime(CLOCK_MONOTONIC, &end);
        double spent = (end.tv_sec - start.tv_sec) + (end.tv_nsec - start.tv_nsec) / 1e9;
        printf("%s: %.0f MB a second\n", names[work], (double)BODY * rounds / spent / 1e6);
    }
    return sum == 0;
}
