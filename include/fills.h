/* The number of fills, before the crank, by the proved library libfills.a (made by `harness/run library fills`). docs/PROMISES.md leads to
   what it promises.

   Stack: give the calling thread 32 KiB or more. Measured by harness/c/stack.c on x86-64 Linux: with 16 lots the function runs on a thread
   of 16 KiB, the least that a thread may have. */
#ifndef FILLS_H
#define FILLS_H

#include <stddef.h>
#include <stdint.h>

#ifdef __cplusplus
extern "C" {
#endif

/* The most entries of a slice. */
#define FILLS_MAX_ORDERS 16

/* Refusals: where both are due, FILLS_BAD_LENGTH. */
#define FILLS_BAD_FIELD 4   /* a side that is neither 0 nor 1 */
#define FILLS_BAD_LENGTH 30 /* over FILLS_MAX_ORDERS entries, or slices of unequal length */

/* A refusal, or 0: then the number of fills. With a refusal it is 0. */
struct fill_count {
    uint8_t refusal;
    uint64_t count;
};

/* The number of fills that the cranks will make, from each order's lot, 0 if it has none, and its side, 0 a buy and 1 a sell, in book order. */
struct fill_count fill_count(const uint64_t *lots, size_t lots_len, const uint8_t *sides, size_t sides_len);

#ifdef __cplusplus
}
#endif

#endif
