/* The plain program beside mint's reading of requests and making of responses: it reads requests from a
   stream in memory, some bytes at a read, and answers each with its target, or with its body where it is
   no GET. It prints how many there were, a sum over the responses and the nanoseconds; with a second
   word it writes the responses.
   Usage: plain_http PIECE [write] */
#include <stdint.h>
#include <stdio.h>
#include <stdlib.h>
#include <string.h>
#include <strings.h>
#include <time.h>

enum { HEAD_LIMIT = 8192, BODY_LIMIT = 65536, CAPACITY = HEAD_LIMIT + BODY_LIMIT, FIELD_LIMIT = 64 };

typedef struct { const char *start, *end; } text;
typedef struct { int is_get, is_post, close; text target, body; } request;

static char *stream;
static size_t stream_len, stream_at, piece;
static char buffer[CAPACITY];
static size_t from, to;
static char response[CAPACITY + 512];

/* Reads once behind the bytes that are held, for which there is room. */
static size_t read_more(void) {
    if (from > 0 && to + piece > CAPACITY) {
        memmove(buffer, buffer + from, to - from);
        to -= from;
        from = 0;
    }
    size_t count = piece;
    if (count > stream_len - stream_at) count = stream_len - stream_at;
    if (count > CAPACITY - to) count = CAPACITY - to;
    memcpy(buffer + to, stream + stream_at, count);
    stream_at += count;
    to += count;
    return count;
}

static int is_token(char c) {
    return (c >= 'a' && c <= 'z') || (c >= 'A' && c <= 'Z') || (c >= '0' && c <= '9')
        || (c != 0 && strchr("!#$%&'*+-.^_`|~", c));
}

static int is_same(text word, const char *other) {
    size_t len = (size_t)(word.end - word.start);
    return strlen(other) == len && strncasecmp(word.start, other, len) == 0;
}

/* How many bytes the head has that begins at `from`, or 0 where its end is not held. */
static size_t head_len(size_t seen) {
    const char *start = buffer + from, *end = buffer + to, *at = start + (seen > 3 ? seen - 3 : 0);
    while ((at = memchr(at, '\n', (size_t)(end - at)))) {
        at++;
        if (at < end && *at == '\n') return (size_t)(at + 1 - start);
        if (at + 1 < end && *at == '\r' && at[1] == '\n') return (size_t)(at + 2 - start);
    }
    return 0;
}

/* The next line of the head, without its end. */
static text next_line(const char **at, const char *end) {
    const char *start = *at, *stop = memchr(start, '\n', (size_t)(end - start));
    *at = stop + 1;
    if (stop > start && stop[-1] == '\r') stop--;
    return (text){start, stop};
}

static int read_request_line(text line, request *found, int *minor) {
    const char *at = line.start;
    while (at < line.end && is_token(*at)) at++;
    text method = {line.start, at};
    if (method.start == method.end || at == line.end || *at++ != ' ') return 0;
    found->target.start = at;
    while (at < line.end && *at > ' ' && *at != 127) at++;
    found->target.end = at;
    if (found->target.start == at || line.end - at != 9 || memcmp(at, " HTTP/1.", 8) != 0) return 0;
    *minor = at[8] - '0';
    found->is_get = method.end - method.start == 3 && memcmp(method.start, "GET", 3) == 0;
    found->is_post = method.end - method.start == 4 && memcmp(method.start, "POST", 4) == 0;
    return *minor == 0 || *minor == 1;
}

static int read_field(text line, text *name, text *value) {
    const char *at = line.start;
    while (at < line.end && is_token(*at)) at++;
    *name = (text){line.start, at};
    if (name->start == name->end || at == line.end || *at++ != ':') return 0;
    while (at < line.end && (*at == ' ' || *at == '\t')) at++;
    const char *end = line.end;
    while (end > at && (end[-1] == ' ' || end[-1] == '\t')) end--;
    *value = (text){at, end};
    for (; at < end; at++)
        if (((unsigned char)*at < ' ' && *at != '\t') || *at == 127) return 0;
    return 1;
}

/* The number of 1 to 19 digits, or -1. */
static int64_t number_of(text digits) {
    uint64_t number = 0;
    if (digits.start == digits.end || digits.end - digits.start > 19) return -1;
    for (const char *at = digits.start; at < digits.end; at++) {
        if (*at < '0' || *at > '9') return -1;
        number = number * 10 + (uint64_t)(*at - '0');
    }
    return number > BODY_LIMIT ? BODY_LIMIT + 1 : (int64_t)number;
}

/* The length of the body that the head asks for, or -1 where it is refused. */
static int64_t read_head(const char *start, const char *end, request *found) {
    const char *at = start;
    int minor, fields = 0;
    int64_t len = -1;
    if (!read_request_line(next_line(&at, end), found, &minor)) return -1;
    found->close = minor == 0;
    for (text line = next_line(&at, end); line.start < line.end; line = next_line(&at, end)) {
        text name, value;
        if (++fields > FIELD_LIMIT || !read_field(line, &name, &value)) return -1;
        if (is_same(name, "transfer-encoding")) return -1;
        if (is_same(name, "content-length")) {
            int64_t next = number_of(value);
            if (next < 0 || (len >= 0 && len != next)) return -1;
            len = next;
        }
        if (is_same(name, "connection") && is_same(value, "close")) found->close = 1;
    }
    if (len < 0) return found->is_post ? -1 : 0;
    return len > BODY_LIMIT ? -1 : len;
}

/* Whether there is a next request, which is found in the buffer. */
static int read_request(request *found) {
    size_t len, seen = 0;
    for (;;) {
        while (from < to && seen == 0 && (buffer[from] == '\r' || buffer[from] == '\n')) from++;
        if ((len = head_len(seen))) break;
        seen = to - from;
        if (seen >= HEAD_LIMIT || read_more() == 0) return 0;
    }
    /* the body may move the head, so its parts are found behind it */
    int64_t body = read_head(buffer + from, buffer + from + len, found);
    if (body < 0) return 0;
    if (to - from < len + (size_t)body) {
        while (to - from < len + (size_t)body)
            if (read_more() == 0) return 0;
        read_head(buffer + from, buffer + from + len, found);
    }
    found->body = (text){buffer + from + len, buffer + from + len + body};
    from += len + (size_t)body;
    return 1;
}

static char *append(char *at, const char *bytes, size_t len) {
    memcpy(at, bytes, len);
    return at + len;
}

static char *append_text(char *at, const char *words) { return append(at, words, strlen(words)); }

static char *append_number(char *at, size_t number) {
    char digits[20], *start = digits + sizeof digits;
    do *--start = (char)('0' + number % 10);
    while (number /= 10);
    return append(at, start, (size_t)(digits + sizeof digits - start));
}

/* Makes the response in its buffer, and answers its length. */
static size_t respond(const request *found) {
    text body = found->is_get ? found->target : found->body;
    size_t len = (size_t)(body.end - body.start);
    char *at = append_text(response, "HTTP/1.1 200 OK\r\nContent-Type: application/json\r\nContent-Length: ");
    at = append_number(at, len);
    at = append_text(at, found->close ? "\r\nConnection: close\r\n\r\n" : "\r\n\r\n");
    at = append(at, body.start, len);
    return (size_t)(at - response);
}

static int read_stream(void) {
    size_t room = 1 << 20;
    stream = malloc(room);
    while (stream) {
        size_t count = fread(stream + stream_len, 1, room - stream_len, stdin);
        if (count == 0) return 1;
        stream_len += count;
        if (stream_len == room) stream = realloc(stream, room *= 2);
    }
    return 0;
}

static uint64_t now(void) {
    struct timespec time;
    clock_gettime(CLOCK_MONOTONIC, &time);
    return (uint64_t)time.tv_sec * 1000000000u + (uint64_t)time.tv_nsec;
}

int main(int count, char **words) {
    if (count < 2 || (piece = (size_t)atol(words[1])) == 0 || piece > CAPACITY || !read_stream()) return 2;
    uint64_t requests = 0, sum = 0, start = now();
    request found;
    while (read_request(&found)) {
        size_t len = respond(&found);
        if (count > 2) fwrite(response, 1, len, stdout);
        sum += len + (unsigned char)response[len - 1];
        requests++;
    }
    uint64_t nanos = now() - start;
    if (count == 2)
        printf("%llu %llu %llu\n", (unsigned long long)requests, (unsigned long long)sum, (unsigned long long)nanos);
    return 0;
}
