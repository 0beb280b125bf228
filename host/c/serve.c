/* The door for a program that cannot link it, being of another processor
 * (host/src/door/piped.rs): answers requests from standard input until it ends.
 *
 * A request is a letter for the call (t, r, d, p, l, w or v) and the call's
 * slices in the order of taksherub.h, so the output last: of each its length and
 * its bytes. The response is the call's answer and the bytes that are in the
 * output after it. A length or an answer has 8 bytes, low byte first, as in
 * x86-64. */
#include "taksherub.h"

#include <stdio.h>
#include <stdlib.h>
#include <string.h>

/* Behind each slice lie some bytes of a value that no call may change. */
enum { MOST_SLICES = 4, GUARD = 16, GUARD_BYTE = 0xA5 };

struct slice {
    uint8_t *bytes;
    size_t len;
};

static void stop(const char *why)
{
    fprintf(stderr, "serve: %s\n", why);
    exit(1);
}

static void take(void *bytes, size_t len)
{
    if (fread(bytes, 1, len, stdin) != len)
        stop("a request is cut off");
}

/* A slice of the request, in memory of its own: it is followed by no other. */
static struct slice lend(void)
{
    struct slice slice;
    take(&slice.len, sizeof slice.len);
    slice.bytes = malloc(slice.len + GUARD);
    if (slice.bytes == NULL)
        stop("no memory is left");
    take(slice.bytes, slice.len);
    memset(slice.bytes + slice.len, GUARD_BYTE, GUARD);
    return slice;
}

static void check_guard(struct slice slice)
{
    for (size_t at = slice.len; at < slice.len + GUARD; at++)
        if (slice.bytes[at] != GUARD_BYTE)
            stop("a call wrote behind a slice");
}

static int slices_of(int call)
{
    switch (call) {
    case 't':
    case 'l':
    case 'w':
    case 'v':
        return 2;
    case 'd':
        return 3;
    case 'r':
    case 'p':
        return 4;
    default:
        stop("a request names no call");
        return 0;
    }
}

static uint64_t answer_of(int call, const struct slice *s)
{
    switch (call) {
    case 't':
        return taksherub_translate(s[0].bytes, s[0].len, s[1].bytes, s[1].len);
    case 'r':
        return taksherub_run(s[0].bytes, s[0].len, s[1].bytes, s[1].len, s[2].bytes, s[2].len, s[3].bytes, s[3].len);
    case 'd':
        return taksherub_decode(s[0].bytes, s[0].len, s[1].bytes, s[1].len, s[2].bytes, s[2].len);
    case 'p':
        return taksherub_plain(s[0].bytes, s[0].len, s[1].bytes, s[1].len, s[2].bytes, s[2].len, s[3].bytes, s[3].len);
    case 'l':
        return taksherub_listen(s[0].bytes, s[0].len, s[1].bytes, s[1].len);
    case 'w':
        return taksherub_write_vcd(s[0].bytes, s[0].len, s[1].bytes, s[1].len);
    default:
        return taksherub_read_vcd(s[0].bytes, s[0].len, s[1].bytes, s[1].len);
    }
}

static void respond(uint64_t answer, struct slice output)
{
    fwrite(&answer, sizeof answer, 1, stdout);
    fwrite(output.bytes, 1, output.len, stdout);
    if (fflush(stdout) != 0)
        stop("a response was not taken");
}

int main(void)
{
    for (int call = getchar(); call != EOF; call = getchar()) {
        struct slice slices[MOST_SLICES];
        int count = slices_of(call);
        for (int k = 0; k < count; k++)
            slices[k] = lend();
        uint64_t answer = answer_of(call, slices);
        for (int k = 0; k < count; k++)
            check_guard(slices[k]);
        respond(answer, slices[count - 1]);
        for (int k = 0; k < count; k++)
            free(slices[k].bytes);
    }
    return 0;
}
