/* Wavgrut's C interface: document 01's four public calls, in libwavgrut.a (`rt lib` in crates/wavgrut).
 *
 * Each call is lent a unit, which it only reads, and a work area, which it writes. It answers for any bytes and any lengths: a unit that
 * is too long, cut short or no unit at all gets its verdict like any other.
 *
 * What the caller owes, and nothing checks:
 *   - `unit` points to `unit_len` bytes that can be read, `area` to `area_len` bytes that can be read and written;
 *   - the two do not overlap, and nothing else writes to either, or reads the area, until the call returns;
 *   - each length is at most PTRDIFF_MAX;
 *   - the thread has 256 KiB of stack left (measured, on the deepest types: about 102 KB).
 * A pointer whose length is 0 is never followed, so it may be null. The area may hold anything before the call.
 *
 * The area afterwards is zeros from end to end. If it was longer than WAVGRUT_LONGEST_AREA, the verdict is 9 b 0 and the area is
 * untouched.
 *
 * A call keeps nothing for the next, allocates nothing, and calls nothing but memcpy and memset. Any number of threads may call at once,
 * each with an area of its own. */
#ifndef WAVGRUT_H
#define WAVGRUT_H

#include <stddef.h>
#include <stdint.h>

#ifdef __cplusplus
extern "C" {
#endif

/* A longer unit is refused with 1, a longer area with 9. */
#define WAVGRUT_LONGEST_UNIT 32768
#define WAVGRUT_LONGEST_AREA 65535

/* "read a unit": whether the bytes are a unit. */
uint64_t wavgrut_read(const uint8_t *unit, size_t unit_len, uint8_t *area, size_t area_len);

/* "stack usage": reads the unit, then runs that pass. */
uint64_t wavgrut_stack_usage(const uint8_t *unit, size_t unit_len, uint8_t *area, size_t area_len);

/* "types": reads the unit, then runs that pass. */
uint64_t wavgrut_types(const uint8_t *unit, size_t unit_len, uint8_t *area, size_t area_len);

/* "both": reads the unit; the verdict is that of stack usage where it refuses, else that of types. */
uint64_t wavgrut_both(const uint8_t *unit, size_t unit_len, uint8_t *area, size_t area_len);

/* The answer's parts. Bits 32 to 63 are 0.
 *   number, bits 0 to 7:    document 01's number of the verdict, 0 for accepted to 46
 *   letter, bits 8 to 15:   what the place counts, in ASCII: 'b' a byte of the unit, 'k' a block's first instruction, 'i' an
 *                           instruction, 'n' nothing
 *   place,  bits 16 to 31:  its number from 0, and 0 with 'n' */
static inline unsigned wavgrut_number(uint64_t verdict) { return (unsigned)(verdict & 0xff); }
static inline char wavgrut_letter(uint64_t verdict) { return (char)(verdict >> 8 & 0xff); }
static inline unsigned wavgrut_place(uint64_t verdict) { return (unsigned)(verdict >> 16 & 0xffff); }

#ifdef __cplusplus
}
#endif

#endif
