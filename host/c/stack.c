/* How much stack the calls use. Each is called on a stack of its own, painted
 * before the call: how far down the paint is gone is what the call used, its
 * return address and what it is passed there too.
 *
 * The decoder and the listener are for the camera node, which has little. Fails
 * if one uses more than 256 bytes, or more for a long list than for a short one.
 * The node would allow each 512, but within these a transaction's 325 bytes
 * could be copied unseen.
 *
 * The two machines hold a board. Fails if one uses more than four boards' bytes
 * on the largest input, done or refused. */
#include "taksherub.h"

#include <stdio.h>
#include <stdlib.h>
#include <string.h>

enum { MOST_USED = 256, FEW = 3, MANY = 64 };
enum { STEPS = MANY * TAKSHERUB_CLOCKS, LOG = MANY * TAKSHERUB_LOG_PART, ROOM = TAKSHERUB_MOST_RECORDS * TAKSHERUB_ANSWER_RECORD };

/* A board as the proved code holds it, with fields laid out as C does: a count,
 * and 32 of the struct in crates/phy/src/lib.rt, of which address and register
 * set take 8 bytes, three times 32 words 192, and the rest 16. The archive's code
 * shows both lengths, 0xd8 from PHY to PHY and 0x1b08 where it copies a board.
 * Where the struct grows, PHY_BYTES is the number to change. */
enum { PHYS = 32, PHY_BYTES = 8 + 192 + 16, BOARD_BYTES = 8 + PHYS * PHY_BYTES, MOST_BOARDS = 4 };
enum { EVENTS = 256 };

static uint8_t list[MANY * TAKSHERUB_LIST_RECORD], steps[STEPS], wire_log[LOG], levels[STEPS];
static uint8_t board[PHYS * TAKSHERUB_BOARD_RECORD], wrong_board[sizeof board];
static uint8_t events[EVENTS * TAKSHERUB_EVENT_RECORD], wrong_events[sizeof events];

/* The calls take slices, up to four, each as two words. */
enum { SLICES = 4 };
struct slice {
    const uint8_t *bytes;
    size_t len;
};

typedef void function(void);

static void stop(const char *why)
{
    printf("stack: %s\n", why);
    exit(1);
}

/* Calls a function on the stack that ends at `top`. On x86-64 six words go in
 * registers, and a function of two slices does not look at the third's. A fourth
 * slice's words lie on the stack, just above the return address. */
static uint64_t call_on(uint8_t *top, function *called, const struct slice *slices)
{
    if (slices[3].bytes != NULL) {
        top -= sizeof slices[3];
        memcpy(top, &slices[3], sizeof slices[3]);
    }
    uint64_t answer = (uintptr_t)top;
    const uint8_t *first = slices[0].bytes, *second = slices[1].bytes;
    size_t first_len = slices[0].len, second_len = slices[1].len;
    register const uint8_t *third __asm__("r8") = slices[2].bytes;
    register size_t third_len __asm__("r9") = slices[2].len;
    __asm__ volatile("movq %%rsp, %%rbx\n\t"
                     "movq %%rax, %%rsp\n\t"
                     "call *%[called]\n\t"
                     "movq %%rbx, %%rsp"
                     : "+a"(answer), "+D"(first), "+S"(first_len), "+d"(second), "+c"(second_len), "+r"(third), "+r"(third_len)
                     : [called] "r"(called)
                     : "rbx", "r10", "r11", "xmm0", "xmm1", "xmm2", "xmm3", "xmm4", "xmm5", "xmm6", "xmm7", "xmm8", "xmm9",
                       "xmm10", "xmm11", "xmm12", "xmm13", "xmm14", "xmm15", "memory", "cc");
    return answer;
}

/* How much of this paint a call leaves changed, down to the deepest byte. */
static size_t paint_gone(uint8_t paint, function *called, const struct slice *slices, uint64_t answer)
{
    static uint8_t stack[1 << 18] __attribute__((aligned(16)));
    memset(stack, paint, sizeof stack);
    if (call_on(stack + sizeof stack, called, slices) != answer)
        stop("a call gave another answer");
    size_t left = 0;
    while (left < sizeof stack && stack[left] == paint)
        left++;
    if (left == 0)
        stop("a call used all of its stack");
    return sizeof stack - left;
}

static size_t larger(size_t one, size_t other)
{
    return one > other ? one : other;
}

/* What a call uses, by two paints: it may write a value that is one of them. */
static size_t used(function *called, const struct slice *slices, uint64_t answer)
{
    return larger(paint_gone(0x55, called, slices, answer), paint_gone(0xAA, called, slices, answer));
}

/* A decoder as it is not to be: it copies a transaction's bytes before it looks. */
static uint64_t copying(const uint8_t *bytes, size_t len)
{
    volatile uint8_t copy[TAKSHERUB_LOG_PART];
    for (size_t i = 0; i < len && i < sizeof copy; i++)
        copy[i] = bytes[i];
    return 0;
}

static size_t copying_uses(size_t count)
{
    struct slice slices[SLICES] = {{wire_log, count * TAKSHERUB_LOG_PART}};
    return used((function *)copying, slices, 0);
}

static uint8_t decoded[ROOM], heard[ROOM];

static size_t decode_uses(size_t count)
{
    size_t room = count * TAKSHERUB_ANSWER_RECORD;
    struct slice slices[SLICES] = {
        {list, count * TAKSHERUB_LIST_RECORD}, {wire_log, count * TAKSHERUB_LOG_PART}, {decoded, room}};
    size_t done = used((function *)taksherub_decode, slices, 0);
    slices[2].len = room - 1;
    return larger(done, used((function *)taksherub_decode, slices, 10 << 16));
}

/* With room for the most records, with room for these alone, so that they are
 * counted first, and with less. */
static size_t listen_uses(size_t count)
{
    size_t room = count * TAKSHERUB_ANSWER_RECORD;
    struct slice slices[SLICES] = {{levels, count * TAKSHERUB_CLOCKS}, {heard, ROOM}};
    size_t done = used((function *)taksherub_listen, slices, 0);
    slices[1].len = room;
    done = larger(done, used((function *)taksherub_listen, slices, 0));
    slices[1].len = room - 1;
    return larger(done, used((function *)taksherub_listen, slices, 10 << 16));
}

/* On the full board with the most events: done, and refused for room, for the
 * last event and for the last PHY. */
static size_t machine_uses(function *machine, struct slice work, struct slice output)
{
    const struct slice good[SLICES] = {{board, sizeof board}, work, {events, sizeof events}, output};
    const struct {
        int place;
        struct slice wrong;
        uint64_t answer;
    } refused[] = {{3, {output.bytes, output.len - 1}, 10 << 16},
                   {2, {wrong_events, sizeof events}, 8 << 16 | (EVENTS - 1)},
                   {0, {wrong_board, sizeof board}, 3 << 16 | (PHYS - 1)}};
    size_t most = used(machine, good, 0);
    for (size_t i = 0; i < sizeof refused / sizeof *refused; i++) {
        struct slice slices[SLICES];
        memcpy(slices, good, sizeof good);
        slices[refused[i].place] = refused[i].wrong;
        most = larger(most, used(machine, slices, refused[i].answer));
    }
    return most;
}

static const uint8_t phy_1[TAKSHERUB_BOARD_RECORD] = {1, 0, 0x00, 0x00, 0x00, 0x0F, 0x30, 0x00, 0x78, 0x49};

/* PHYs like PHY 1 at all addresses, events of all codes over the clocks of the
 * list, and both with the last record wrong. */
static void fill(void)
{
    for (int k = 0; k < PHYS; k++) {
        memcpy(board + k * TAKSHERUB_BOARD_RECORD, phy_1, sizeof phy_1);
        board[k * TAKSHERUB_BOARD_RECORD] = k;
    }
    for (int k = 0; k < EVENTS; k++) {
        int clock = k * STEPS / EVENTS;
        uint8_t event[TAKSHERUB_EVENT_RECORD] = {clock / 256, clock % 256, k % PHYS, k % 7 + 1};
        memcpy(events + k * TAKSHERUB_EVENT_RECORD, event, sizeof event);
    }
    memcpy(wrong_board, board, sizeof board);
    wrong_board[sizeof board - TAKSHERUB_BOARD_RECORD + 1] = 1; /* the zero byte */
    memcpy(wrong_events, events, sizeof events);
    wrong_events[sizeof events - 1] = 0; /* the code */
}

/* Writes, reads that PHY 1 answers and reads that meet silence, in turn, and the
 * log and levels of their run. */
static void send(void)
{
    static const uint8_t kinds[FEW][TAKSHERUB_LIST_RECORD] = {{1, 1, 0, 0, 0x12, 0x00}, {2, 1, 1}, {2, 2, 1}};
    for (int k = 0; k < MANY; k++)
        memcpy(list + k * TAKSHERUB_LIST_RECORD, kinds[k % FEW], TAKSHERUB_LIST_RECORD);
    if (taksherub_translate(list, sizeof list, steps, STEPS) != 0
        || taksherub_run(phy_1, sizeof phy_1, steps, STEPS, list, 0, wire_log, LOG) != 0)
        stop("the list was not sent");
    for (int clock = 0; clock < STEPS; clock++)
        levels[clock] = wire_log[clock * TAKSHERUB_LOG_RECORD] & 1;
}

static int small(const char *name, size_t (*uses)(size_t))
{
    size_t few = uses(FEW), many = uses(MANY);
    printf("%s: %u bytes of stack for %u transactions, %u for %u\n", name, (unsigned)few, FEW, (unsigned)many, MANY);
    return few <= MOST_USED && many <= few;
}

static int few_boards(const char *name, function *machine, struct slice work, struct slice output)
{
    size_t uses = machine_uses(machine, work, output), most = MOST_BOARDS * BOARD_BYTES;
    printf("%s: %u bytes of stack for %u PHYs and %u events, of at most %u\n", name, (unsigned)uses, PHYS, EVENTS, (unsigned)most);
    return uses <= most;
}

/* Both machines, whose answers must be the same. */
static int machines(void)
{
    static uint8_t log[LOG], planned[sizeof list];
    const struct slice clocks = {steps, STEPS}, records = {list, sizeof list};
    const struct slice logged = {log, LOG}, answers = {planned, sizeof planned};
    int run = few_boards("run", (function *)taksherub_run, clocks, logged);
    int plain = few_boards("plain", (function *)taksherub_plain, records, answers);
    if (taksherub_decode(list, sizeof list, log, LOG, decoded, sizeof list) != 0 || memcmp(decoded, planned, sizeof list) != 0)
        stop("the two machines gave different answers");
    return run && plain;
}

int main(void)
{
    fill();
    send();
    int decode = small("decode", decode_uses), listen = small("listen", listen_uses);
    if (small("a decoder that copies", copying_uses))
        stop("a copy of a transaction's bytes was not seen");
    /* the second answer is that of a read that was answered */
    if (decoded[TAKSHERUB_ANSWER_RECORD] != 1 || memcmp(decoded, heard, sizeof list) != 0)
        stop("the calls did not find the list's answers");
    int held = machines();
    return decode && listen && held ? 0 : 1;
}
