/* The price search and pro-rata on records, by the proved library liborder_slices.a (made by `harness/run library order_slices`).
   docs/PROMISES.md leads to what each promises.

   Stack: give the calling thread 32 KiB or more. Measured by harness/c/stack.c on x86-64 Linux: with 16 records either function runs on a
   thread of 16 KiB, the least that a thread may have. */
#ifndef ORDER_SLICES_H
#define ORDER_SLICES_H

#include <stdbool.h>
#include <stddef.h>
#include <stdint.h>

#ifdef __cplusplus
extern "C" {
#endif

/* The most records of a slice. */
#define ORDER_SLICES_MAX_ORDERS 16

/* Refusals. */
#define ORDER_SLICES_INVALID_INPUT 28   /* a total above 0 over bids of quantity 0 */
#define ORDER_SLICES_OVER_ALLOCATION 29 /* a total above the sum of the bids */
#define ORDER_SLICES_BAD_LENGTH 30      /* over ORDER_SLICES_MAX_ORDERS records, or an output of another length */

struct order {
    uint64_t bidder_id;
    uint64_t limit_price;
    uint64_t qty;
    bool is_buy;
};

struct bid {
    uint64_t id;
    uint64_t qty;
};

/* A refusal, or 0: then a cross with its price and the two words of its volume, or none. What is not said is 0. */
struct figures {
    uint8_t refusal;
    bool crosses;
    uint64_t price;
    uint64_t volume_hi;
    uint64_t volume_lo;
};

/* The best price of the orders at or above the reserve: by volume, imbalance, nearness to the reference, lowness. */
struct figures find_uniform_clear_price(const struct order *orders, size_t orders_len, uint64_t reserve, uint64_t reference);

/* The lots of a total over the bids, in their order, in an output of as many places: 0, or a refusal, which leaves the output as it was. */
uint8_t allocate_pro_rata(uint64_t total, const struct bid *bids, size_t bids_len, uint64_t *out, size_t out_len);

#ifdef __cplusplus
}
#endif

#endif
