/* pops.h: solves chess problems, by the calls of libpops.a.
 *
 * A text in the input language of pops goes in, and the bytes that the programs pops, pops-tries and
 * pops-part write of it come out: lines that end in '\n'. docs/MANUAL.md explains both.
 *
 *   static uint8_t output[POPS_ROOM];
 *   size_t written;
 *   uint32_t status = pops_report(false, false, input, length, output, sizeof output, &written);
 *
 * Memory. No call allocates, keeps anything between calls, or uses the C library but for memcpy,
 * memmove and memset. Every pointer must be non-null and valid for its length, and `output` may
 * overlap neither `input` nor `written`. A call writes only to `output` and `written`.
 *
 * Stack. A call needs up to POPS_STACK bytes of stack: more than the 8 MiB that a thread has by
 * default. Make the thread with pthread_attr_setstacksize.
 *
 * Threads. Any number of threads may call at the same time, each with its own output.
 *
 * Time. A search can take hours, and no call can be stopped from outside, nor does it write before it
 * ends. To stop searches or to see solutions as they come, run the program pops as a process, or solve
 * a problem part by part.
 *
 * The processor must be x86-64-v2, as all since about 2010 are.
 */
#ifndef POPS_H
#define POPS_H

#include <stdbool.h>
#include <stddef.h>
#include <stdint.h>

#ifdef __cplusplus
extern "C" {
#endif

/* The least size of an output, in bytes. A longer text is cut to its first POPS_ROOM bytes. */
#define POPS_ROOM ((size_t)1 << 22)
/* The stack that a call needs at most, in bytes. */
#define POPS_STACK ((size_t)1 << 24)

enum {
    /* Every problem is sound. */
    POPS_SOUND = 0,
    /* Some problem is faulty; the text names each fault and its line. */
    POPS_FAULTY = 1,
    /* The text is longer than POPS_ROOM bytes: its first POPS_ROOM bytes are written. */
    POPS_CUT = 3,
    /* `output` has fewer than POPS_ROOM bytes: nothing is read, and `*written` is 0. */
    POPS_TOO_SMALL = 4,
    /* pops_part: the input has no problem. */
    POPS_NO_PROBLEM = 5,
    /* pops_part: the problem has no set play. */
    POPS_NO_SET_PLAY = 6,
    /* pops_part: there is no part with this number. */
    POPS_NO_PART = 7
};

/* Writes the report of the input to the front of `output`, and its length to `*written`.
 *
 * With `check` problems are only tested for faults; with `no_board` no board is shown.
 * Returns POPS_SOUND, POPS_FAULTY, POPS_CUT or POPS_TOO_SMALL. */
uint32_t pops_report(bool check, bool no_board, const uint8_t *input, size_t input_length, uint8_t *output,
                     size_t output_length, size_t *written);

/* Writes the report of the input with keys, tries, threats and refutations, as pops-tries does.
 *
 * A try is shown if it has at most `refutations` refutations; more than 200 count as 200.
 * Returns what pops_report returns. */
uint32_t pops_tries(bool no_board, uint32_t refutations, const uint8_t *input, size_t input_length, uint8_t *output,
                    size_t output_length, size_t *written);

/* Writes into how many parts each problem can be cut, as `pops-part --list` does.
 *
 * A part of help play fixes `depth` first moves; 0 counts as 1.
 * Returns what pops_report returns. */
uint32_t pops_list(size_t depth, const uint8_t *input, size_t input_length, uint8_t *output, size_t output_length,
                   size_t *written);

/* Writes a line for each faulty problem, as `pops-part --faults` does: its number, the fault with its line, and
 * the bytes of the input where it is found, counted from 0, the last number one past their end.
 *
 * Returns what pops_report returns. */
uint32_t pops_faults(const uint8_t *input, size_t input_length, uint8_t *output, size_t output_length,
                     size_t *written);

/* Writes the solutions of one part of the input's first problem, and their number.
 *
 * Parts are counted from 1, those of the set play with `set_play`; `depth` is that of pops_list.
 * Returns POPS_SOUND, POPS_FAULTY, POPS_CUT, POPS_TOO_SMALL, POPS_NO_PROBLEM, POPS_NO_SET_PLAY or
 * POPS_NO_PART. */
uint32_t pops_part(bool set_play, size_t depth, uint64_t number, const uint8_t *input, size_t input_length,
                   uint8_t *output, size_t output_length, size_t *written);

#ifdef __cplusplus
}
#endif

#endif
