/* How many times a second a plain loop reads one head: memchr for the line ends and the colons, and a copy of each
   part in memory of its own. It judges nothing. Beside `bench heads`, over the same bytes.

       cc -O2 -o heads bench/heads.c && ./heads 1000000 */
#include <stdio.h>
#include <stdlib.h>
#include <string.h>
#include <time.h>

static const char HEAD[] =
    "GET /shop/list;jsessionid=8F3A1C77D2.tomcat1/items?page=2&sort=price HTTP/1.1\r\n"
    "Host: shop.example.org:8080\r\n"
    "User-Agent: Mozilla/5.0 (X11; Linux x86_64; rv:128.0) Gecko/20100101 Firefox/128.0\r\n"
    "Accept: text/html,application/xhtml+xml,application/xml;q=0.9,*/*;q=0.8\r\n"
    "Accept-Language: en-US,en;q=0.5\r\n"
    "Accept-Encoding: gzip, deflate, br\r\n"
    "Referer: http://shop.example.org:8080/shop/list\r\n"
    "Cookie: JSESSIONID=8F3A1C77D2.tomcat1; theme=dark\r\n"
    "Connection: keep-alive\r\n"
    "Upgrade-Insecure-Requests: 1\r\n"
    "If-Modified-Since: Fri, 27 Nov 2026 03:46:00 GMT\r\n"
    "Cache-Control: max-age=0\r\n"
    "X-Forwarded-For: 192.0.2.17\r\n"
    "\r\n";

enum { MAX_PARTS = 208, BUFFER_BYTES = 16384 };

struct head {
    char *parts[MAX_PARTS];
    size_t count;
};

static void keep(struct head *head, const char *from, const char *to)
{
    char *part = malloc((size_t)(to - from) + 1);
    if (!part || head->count == MAX_PARTS)
        exit(1);
    memcpy(part, from, (size_t)(to - from));
    head->parts[head->count++] = part;
}

/* The method, the target, the path and the query, and then the name and the value of each line. */
static void first_line(struct head *head, const char *line, const char *end)
{
    const char *target = (const char *)memchr(line, ' ', (size_t)(end - line)) + 1;
    const char *version = memchr(target, ' ', (size_t)(end - target));
    const char *query = memchr(target, '?', (size_t)(version - target));
    keep(head, line, target - 1);
    keep(head, target, version);
    keep(head, target, query ? query : version);
    if (query)
        keep(head, query + 1, version);
}

static size_t read_head(struct head *head, const char *bytes, size_t len)
{
    const char *line = bytes;
    size_t lines = 0;
    head->count = 0;
    for (;;) {
        const char *end = memchr(line, '\n', len - (size_t)(line - bytes));
        const char *colon;
        if (!end)
            exit(1);
        if (end - line < 2)
            return lines;
        if (line == bytes) {
            first_line(head, line, end - 1);
        } else {
            colon = memchr(line, ':', (size_t)(end - line));
            if (!colon)
                exit(1);
            keep(head, line, colon);
            keep(head, colon + 2, end - 1);
            lines++;
        }
        line = end + 1;
    }
}

int main(int argc, char **argv)
{
    long rounds = argc > 1 ? atol(argv[1]) : 1;
    char *buffer = malloc(BUFFER_BYTES);
    struct timespec start, end;
    struct head head;
    size_t lines = 0;
    double spent;
    if (!buffer)
        return 1;
    clock_gettime(CLOCK_MONOTONIC, &start);
    for (long round = 0; round < rounds; round++) {
        memcpy(buffer, HEAD, sizeof HEAD - 1);
        lines += read_head(&head, buffer, sizeof HEAD - 1);
        for (size_t i = 0; i < head.count; i++)
            free(head.parts[i]);
    }
    clock_gettime(CLOCK_MONOTONIC, &end);
    spent = (double)(end.tv_sec - start.tv_sec) + (double)(end.tv_nsec - start.tv_nsec) / 1e9;
    printf("%ld heads, %zu lines, in %.6f s, %.0f a second\n", rounds, lines, spent, (double)rounds / spent);
    free(buffer);
    return 0;
}
