/* The calls of libvodlasim_c.a (crates/vodlasim_c): a run of a sheet, its moves between editions, and the plotter's port. Each slice is a
 * pointer and its length in elements; every length is allowed. The library keeps nothing between calls and reads no memory but what it is lent. */
#ifndef VODLASIM_H
#define VODLASIM_H
#include <stddef.h>
#include <stdint.h>

/* the places of the report */
enum {
    VODLASIM_REFUSED,   /* the refusal's number, or 0 */
    VODLASIM_PLACE,     /* and its byte place */
    VODLASIM_END,       /* how the run ended, one of the four below */
    VODLASIM_NODES,
    VODLASIM_ANSWERS,
    VODLASIM_ERRORS,
    VODLASIM_FAILS,
    VODLASIM_WRITTEN    /* bytes of output that hold the listing, or the moved sheet */
};

/* the ends of a run */
enum {
    VODLASIM_DONE,
    VODLASIM_SPENT,
    VODLASIM_PATH,
    VODLASIM_OUTPUT
};

void vodlasim_run(const uint8_t *sheet, size_t sheet_len, uint32_t path_limit, uint32_t budget, uint32_t skip,
                  uint32_t *work, size_t work_len, uint8_t *output, size_t output_len, uint64_t report[8]);

/* A sheet of edition 2 moved to edition 3, one of edition 3 moved back, and one of edition 3 tidied. The first and the last write what a `some` or
 * `all` with an empty range of constants means: `eq 0 1` or `true`. The moved sheet stands at the start of the output; past it, and everywhere
 * if the sheet is refused, the output is kept. The report has zeros from VODLASIM_END to VODLASIM_FAILS. */
enum {
    VODLASIM_MOVE_WORDS = 6144,     /* work words that each of them needs */
    VODLASIM_MOVE_OUTPUT = 4096     /* and output bytes */
};

void vodlasim_move_up(const uint8_t *sheet, size_t sheet_len, uint32_t *work, size_t work_len, uint8_t *output, size_t output_len,
                      uint64_t report[8]);
void vodlasim_move_down(const uint8_t *sheet, size_t sheet_len, uint32_t *work, size_t work_len, uint8_t *output, size_t output_len,
                        uint64_t report[8]);
void vodlasim_tidy(const uint8_t *sheet, size_t sheet_len, uint32_t *work, size_t work_len, uint8_t *output, size_t output_len,
                   uint64_t report[8]);

/* The plotter's port. Its four registers are bytes that the host keeps; bits that have no name below are never changed. */
enum {
    VODLASIM_STATUS,
    VODLASIM_CONTROL,
    VODLASIM_DATA,      /* the byte sent last */
    VODLASIM_SUM        /* every byte sent is added to it, wrapping past 255 */
};

/* the bits of status, and that of control */
enum {
    VODLASIM_READY = 1,
    VODLASIM_PAPER_OUT = 2,
    VODLASIM_PENDING = 4
};

enum {
    VODLASIM_INTERRUPTS = 1     /* interrupts are let through */
};

/* One step over the registers and the bytes of a listing that are unsent: how many of them went out, 0 or 1, so that the next step is lent
 * what stands behind them. If ready is set, paper out clear and a byte left, the first goes to data, ready is cleared and sum moves on. Sending
 * or not, a step clears pending. */
size_t vodlasim_step(uint8_t registers[4], const uint8_t *unsent, size_t unsent_len);

/* The events. The device is ready again: ready is set, and pending too if control lets interrupts through. The others set or clear paper out
 * and control's bit. */
void vodlasim_ready_again(uint8_t registers[4]);
void vodlasim_out_of_paper(uint8_t registers[4]);
void vodlasim_paper_in(uint8_t registers[4]);
void vodlasim_interrupts_on(uint8_t registers[4]);
void vodlasim_interrupts_off(uint8_t registers[4]);
#endif
