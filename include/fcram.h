/* The check of a Network FCRAM command trace, as C functions. Link with libfcram.a. */
#ifndef FCRAM_H
#define FCRAM_H

#include <stddef.h>
#include <stdint.h>

#ifdef __cplusplus
extern "C" {
#endif

/*
 * Checks a trace on the sheet of eight banks that the ten numbers make. docs/RULES.md has the range of each number (section 1), the
 * rules by their numbers (section 4) and the refusals by theirs (section 6).
 *
 * trace: length bytes, four for each clock, the lowest byte of a word first. Any alignment will do. The caller guarantees that
 * trace points to length readable bytes (any pointer where length is 0), that nothing writes them during the call, and that length
 * is at most PTRDIFF_MAX. Nothing is kept after the call, and nothing is written through the pointer.
 *
 * Answers 0 for accepted; 20 (grade, CL, BL or organisation), 21 (period), 22 (a count out of its range), 33 (CL 4 with a REFC below
 * 18), 29 (length is no multiple of four) or 24 (more than 16,777,216 words) for refused, the first that applies in this order;
 * otherwise the clock of the first breach times 64, plus its number from 1 to 13. A breach at clock 0 can only be 1 or 2, so no two
 * answers fall together, and the number says what the outcome is (docs/RULES.md, 10.2; proved in crates/distinct).
 */
uint32_t fcram_check(uint32_t grade, uint32_t cl, uint32_t bl, uint32_t organisation, uint32_t period, uint32_t rbd, uint32_t rwd,
                     uint32_t wrd, uint32_t rsc, uint32_t refc, const uint8_t *trace, size_t length);

/*
 * The same on a sheet with its wiring: 8, or 4 for a board of the older part, which drives BA2 as the top bit of the row. Another
 * wiring answers 34, tried after 20 and before 21.
 */
uint32_t fcram_check_wired(uint32_t grade, uint32_t cl, uint32_t bl, uint32_t organisation, uint32_t period, uint32_t rbd,
                           uint32_t rwd, uint32_t wrd, uint32_t rsc, uint32_t refc, uint32_t wiring, const uint8_t *trace,
                           size_t length);

#ifdef __cplusplus
}
#endif

#endif
