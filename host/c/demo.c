/* The example of document 01 through the door: by the wire, without one, and
 * read back from the wire's levels. Prints the three lines of each, and fails
 * if they differ from the document's. Then the wire as a waveform: prints where
 * its text begins, and fails if it does not read back as the log's flags. */
#include "taksherub.h"

#include <stdio.h>
#include <string.h>

enum { READS = 3, STEPS = READS * TAKSHERUB_CLOCKS, LOG = READS * TAKSHERUB_LOG_PART };

/* Board P: address 1, mask 0000000F, defaults 3000 and 7849. */
static const uint8_t board[TAKSHERUB_BOARD_RECORD] = {1, 0, 0x00, 0x00, 0x00, 0x0F, 0x30, 0x00, 0x78, 0x49};
/* Link up at PHY 1, before the first clock. */
static const uint8_t events[TAKSHERUB_EVENT_RECORD] = {0, 0, 1, 1};
static const uint8_t list[READS * TAKSHERUB_LIST_RECORD] = {
    2, 1, 1, 0, 0, 0, /* read PHY 1 register 1 */
    2, 1, 1, 0, 0, 0, /* the same again */
    2, 2, 0, 0, 0, 0, /* read PHY 2, which is not there */
};

static const char expected[] =
    "1 R 01 01 1 7849\n"
    "2 R 01 01 1 784D\n"
    "3 R 02 00 2 0000\n";

static int done(const char *call, uint64_t answer)
{
    if (answer != 0)
        printf("%s: refused %u at index %u\n", call, TAKSHERUB_NUMBER(answer), TAKSHERUB_INDEX(answer));
    return answer == 0;
}

static int shows(const char *how, const uint8_t *answers)
{
    char text[READS * 32] = "";
    size_t used = 0;
    for (int k = 0; k < READS; k++) {
        const uint8_t *answer = answers + k * TAKSHERUB_ANSWER_RECORD;
        used += (size_t)snprintf(text + used, sizeof text - used, "%d %c %02u %02u %u %02X%02X\n", k + 1,
                                 answer[1] == 1 ? 'W' : 'R', answer[2], answer[3], answer[0], answer[4], answer[5]);
    }
    printf("%s:\n%s", how, text);
    return strcmp(text, expected) == 0;
}

/* What an analyser saves of the run: the level of each clock. */
static void capture(const uint8_t *log, uint8_t *levels)
{
    for (int clock = 0; clock < STEPS; clock++)
        levels[clock] = log[clock * TAKSHERUB_LOG_RECORD] & 1;
}

/* The records in an output that was filled with 255 before the call. */
static size_t records(const uint8_t *answers)
{
    size_t count = 0;
    while (count < TAKSHERUB_MOST_RECORDS && answers[count * TAKSHERUB_ANSWER_RECORD] != 255)
        count++;
    return count;
}

/* Whether a capture reads back as the answers of its run, and as no more. */
static int reads_back(const uint8_t *levels, const uint8_t *answers)
{
    uint8_t back[TAKSHERUB_MOST_RECORDS * TAKSHERUB_ANSWER_RECORD];
    memset(back, 255, sizeof back);
    if (!done("listen", taksherub_listen(levels, STEPS, back, sizeof back)))
        return 0;
    if (records(back) != READS) {
        printf("read back: %u records\n", (unsigned)records(back));
        return 0;
    }
    return shows("read back", back) && memcmp(back, answers, sizeof list) == 0;
}

/* How the waveform begins. The station drives ones for 32 clocks, then the start
 * 01; a level that stays has no line. */
static const char beginning[] =
    "$version Taksherub $end\n"
    "$comment MDIO wire, one time unit for each clock $end\n"
    "$timescale 1 us $end\n"
    "$scope module mdio $end\n"
    "$var wire 1 L level $end\n"
    "$var wire 1 E enable $end\n"
    "$var wire 1 C contention $end\n"
    "$upscope $end\n"
    "$enddefinitions $end\n"
    "#1\n1L\n1E\n0C\n"
    "#33\n0L\n"
    "#34\n1L\n";

/* Its last line: the time one past the last of 195 clocks. */
static const char closing[] = "#196\n";

/* Whether a log's waveform begins and ends as it should. The text is a string,
 * for the output is all zeros before the call, and there is room for one more
 * than the longest text. */
static int draws(const uint8_t *log, char *text)
{
    if (!done("write_vcd", taksherub_write_vcd(log, LOG, (uint8_t *)text, TAKSHERUB_MOST_VCD)))
        return 0;
    size_t len = strlen(text), first = strlen(beginning), last = strlen(closing);
    printf("as a waveform: %u bytes, beginning\n%.*s", (unsigned)len, (int)first, text);
    return len > first + last && memcmp(text, beginning, first) == 0 && strcmp(text + len - last, closing) == 0;
}

/* Whether a waveform reads back as the flags of its log, and as no more. */
static int shows_flags(const char *text, const uint8_t *log)
{
    uint8_t flags[STEPS + 1];
    memset(flags, 255, sizeof flags);
    if (!done("read_vcd", taksherub_read_vcd((const uint8_t *)text, strlen(text), flags, sizeof flags)))
        return 0;
    for (int clock = 0; clock < STEPS; clock++)
        if (flags[clock] != log[clock * TAKSHERUB_LOG_RECORD])
            return 0;
    return flags[STEPS] == 255;
}

int main(void)
{
    static char text[TAKSHERUB_MOST_VCD + 1];
    uint8_t steps[STEPS], log[LOG], levels[STEPS], wired[sizeof list], plainly[sizeof list];
    int good = done("translate", taksherub_translate(list, sizeof list, steps, sizeof steps))
            && done("run", taksherub_run(board, sizeof board, steps, sizeof steps, events, sizeof events, log, sizeof log))
            && done("decode", taksherub_decode(list, sizeof list, log, sizeof log, wired, sizeof wired))
            && done("plain", taksherub_plain(board, sizeof board, list, sizeof list, events, sizeof events, plainly, sizeof plainly));
    if (!good)
        return 1;
    int by_wire = shows("by the wire", wired);
    int without = shows("without a wire", plainly);
    capture(log, levels);
    int back = reads_back(levels, wired);
    int waveform = draws(log, text) && shows_flags(text, log);
    return by_wire && without && back && waveform ? 0 : 1;
}
