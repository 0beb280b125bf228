/* The bench through C: the proved code of crates/door.
 *
 * Link crates/door/out/libdoor.a, written by `rt lib` in crates/door, into a
 * program for x86-64 (host/README.md says how, and how on Arm).
 *
 * Every call answers 0 when done, else number * 65536 + index: the number of
 * the refusal and the index, from 0, of the record at fault. TAKSHERUB_NUMBER
 * and TAKSHERUB_INDEX take an answer apart. The index is 0 for refusals 1, 2,
 * 10, 13 and 18.
 *
 * A refusal writes nothing. Success writes the whole result from the output's
 * start; the bytes behind it stay as they were.
 *
 * The first refusal that holds is given, in this order: board, list or steps
 * or capture or text, events, log, 10. In a file: 1, then 2, then the records in
 * order, each checked by rising number.
 *
 *     board   1  length is no whole number of 134-byte records
 *             2  more than 32 records
 *             3  address over 31, or the zero byte not zero
 *             4  address already used by an earlier record
 *             5  register set wrong
 *             6  default or write mask wrong
 *     list    1  length is no whole number of 6-byte records
 *             2  more than 64 records
 *             3  address or register over 31, the zero byte not zero, or a
 *                read with data
 *             7  op not 1 (write) or 2 (read)
 *     steps   2  more than 4160 steps
 *            11  a step over 3 (the index is the step's)
 *     capture 2  more than 4160 bytes
 *            16  a byte over 1 (the index is the byte's)
 *     events  1  length is no whole number of 4-byte records
 *             2  more than 256 records
 *             8  code not 1 to 7, or address not on the board
 *             9  clock below the one before it, or past the last clock
 *     log     1  length is no whole number of 5-byte records (write_vcd)
 *             2  more than 4160 records (write_vcd)
 *            13  length is not 325 times the list's record count (decode)
 *     text   18  none that write_vcd writes
 *     output 10  shorter than the full result
 *
 * A pointer is never null, not even with length 0, and points to as many bytes
 * as the length behind it says. The output overlaps no input. Nothing is kept
 * after the call, and calls share no state: threads may call at the same time.
 *
 * taksherub_decode and taksherub_listen use at most 256 bytes of stack, however
 * much there is to decode. taksherub_run and taksherub_plain hold boards by
 * value, at most four at a time, and use at most 28 kilobytes.
 */
#ifndef TAKSHERUB_H
#define TAKSHERUB_H

#include <stddef.h>
#include <stdint.h>

#define TAKSHERUB_NUMBER(answer) ((unsigned)((answer) >> 16))
#define TAKSHERUB_INDEX(answer) ((unsigned)((answer) & 0xFFFF))

/* Lengths, in bytes. */
#define TAKSHERUB_BOARD_RECORD 134
#define TAKSHERUB_LIST_RECORD 6
#define TAKSHERUB_EVENT_RECORD 4
#define TAKSHERUB_ANSWER_RECORD 6
#define TAKSHERUB_LOG_RECORD 5
#define TAKSHERUB_CLOCKS 65 /* clocks, and so steps, of a transaction */
#define TAKSHERUB_LOG_PART (TAKSHERUB_CLOCKS * TAKSHERUB_LOG_RECORD)

/* The most clocks of a run, a capture or a waveform. */
#define TAKSHERUB_MOST_CLOCKS 4160

/* The most records that taksherub_listen finds: frames of 32 bits after 32
 * ones each, with no idle clock. One more than a list can have. */
#define TAKSHERUB_MOST_RECORDS 65

/* The longest text of taksherub_write_vcd, in bytes: that of 4160 clocks, in
 * each of which all three signals change. */
#define TAKSHERUB_MOST_VCD 61538

#ifdef __cplusplus
extern "C" {
#endif

/* Translates the list into clock steps, 65 for each record: 0 drive zero,
 * 1 drive one, 2 release, 3 release and sample.
 * Result: 65 bytes for each list record.
 * Refusals in order: the list's 1, 2, then 3, 7 by record; 10. */
uint64_t taksherub_translate(const uint8_t *list, size_t list_len,
                             uint8_t *steps, size_t steps_len);

/* Loads the board fresh and clocks any steps through the shared wire, the
 * events between the clocks. The last clock is steps_len.
 * Result: 5 bytes for each step, a log record: flags (1 level, 2 station
 * drives, 4 two or more parties drive) and the mask of the PHYs that drive,
 * by address, high byte first.
 * Refusals in order: the board's 1, 2, then 3, 4, 5, 6 by record; the steps'
 * 2, then 11 by step; the events' 1, 2, then 8, 9 by record; 10. */
uint64_t taksherub_run(const uint8_t *board, size_t board_len,
                       const uint8_t *steps, size_t steps_len,
                       const uint8_t *events, size_t events_len,
                       uint8_t *log, size_t log_len);

/* Reads the answers to a list out of the log of its run.
 * Result: 6 bytes for each list record, an answer record: status (0 write
 * sent, 1 read answered, 2 read silent), op, address, register, data (2 bytes,
 * high byte first).
 * Refusals in order: the list's 1, 2, then 3, 7 by record; 13; 10. */
uint64_t taksherub_decode(const uint8_t *list, size_t list_len,
                          const uint8_t *log, size_t log_len,
                          uint8_t *answers, size_t answers_len);

/* Loads the board fresh and answers the list without a wire. The last clock is
 * 65 times the list's record count. From a fresh load the answers are those of
 * translate, run and decode.
 * Result: 6 bytes for each list record, an answer record as above.
 * Refusals in order: the board's 1, 2, then 3, 4, 5, 6 by record; the list's
 * 1, 2, then 3, 7 by record; the events' 1, 2, then 8, 9 by record; 10. */
uint64_t taksherub_plain(const uint8_t *board, size_t board_len,
                         const uint8_t *list, size_t list_len,
                         const uint8_t *events, size_t events_len,
                         uint8_t *answers, size_t answers_len);

/* Reads answers back out of a capture: the levels of the wire as an analyser
 * saves them, one byte for each clock, 0 or 1. It needs neither board nor list.
 * It follows frames as a PHY does: it starts with 0 ones, hunts with 32, and a
 * frame runs 32 bits, also if it starts 00. A frame with start 01 and op 01
 * (write) or 10 (read), to any address, gives a record: of a write with the
 * data seen, of a read by the levels, as decode does. Other frames, and one
 * that is cut off at the end, give nothing. The levels of the run of a
 * translated list give the answers that decode gives.
 * Result: 6 bytes for each record found, an answer record as above: at most
 * TAKSHERUB_MOST_RECORDS of them, 390 bytes. The call does not say how many.
 * Where you do not know, fill the output with 255 before, which is no status:
 * the records end where a status is still 255.
 * Refusals in order: the capture's 2, then 16 by byte; 10. */
uint64_t taksherub_listen(const uint8_t *levels, size_t levels_len,
                          uint8_t *answers, size_t answers_len);

/* Writes a log as a waveform: the text of a Value Change Dump (IEEE 1364), which
 * viewers of signals read. It shows three signals, each by a flag of the log's
 * records: level (1), enable (2), the station's, and contention (4). The rest of
 * a record does not count.
 * Result: the text, at most TAKSHERUB_MOST_VCD bytes. Behind a header that is
 * always the same stand the values of clock 1; then, for each clock in which a
 * signal changes, the clock's number as time and the new values; then the
 * closing time, one past the last clock. An empty log gives the header and
 * closing time 1. Every line ends with a newline, the last too.
 * The call does not say how long the text is. Where you do not know, fill the
 * output with 0 before, which is in no text: one of TAKSHERUB_MOST_VCD + 1 bytes
 * then holds a string of C.
 * Refusals in order: the log's 1, 2; 10. */
uint64_t taksherub_write_vcd(const uint8_t *log, size_t log_len,
                             uint8_t *text, size_t text_len);

/* Reads a text of taksherub_write_vcd back. It reads no other waveform, not even
 * one that says the same in another way.
 * Result: a byte for each clock, the flags 1, 2 and 4 as in a log record: at
 * most TAKSHERUB_MOST_CLOCKS of them. The call does not say how many. Where you
 * do not know, fill the output with 255 before, which is no such byte: the
 * clocks end where a byte is still 255.
 * Refusals in order: the text's 18; 10. */
uint64_t taksherub_read_vcd(const uint8_t *text, size_t text_len,
                            uint8_t *flags, size_t flags_len);

#ifdef __cplusplus
}
#endif

#endif
