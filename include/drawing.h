/* The groups of a sheet for a host in C: link target/staticlib/libdrawing.a, which `./staticlib drawing` proves and writes. */
#ifndef DRAWING_H
#define DRAWING_H

#include <stddef.h>
#include <stdint.h>

#ifdef __cplusplus
extern "C" {
#endif

/* A target's group is three doubles in W/m²: low, middle and high. A sheet has at most 512 targets. */
#define DRAWING_GROUP_SIZE 3
#define DRAWING_MOST_TARGETS 512

/* The longest sheet has 7,494 bytes. A host need read one byte more at most: a longer input gets the same answer as its front. */
#define DRAWING_SHEET_ROOM 7495

/*
 * Writes the groups of the sheet's targets, in their order, from the front of out, and returns 0. A refused target's group is three
 * zeros. Floats past the last group keep their values.
 *
 * Or writes nothing and returns the number of the refusal: 1 to 5 where the sheet is refused, else 31 where out has room for fewer
 * than three floats per target.
 *
 * Every bit pattern in sheet and out is allowed. What is written is never a NaN, an infinity or a number with a sign. Lengths are in
 * elements. The two arrays must be valid and must not overlap; none is kept. No call needs another, and calls may run side by side.
 */
uint8_t fill_groups(const uint8_t *sheet, size_t sheet_len, double *out, size_t out_len);

#ifdef __cplusplus
}
#endif

#endif
