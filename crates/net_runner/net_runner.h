/* The bench net runner as a library: check a card, flatten it, write one from tables, and run it row by row, on the flat net or subnet by
 * subnet, on one state that the caller keeps.
 *
 * Every function takes any numbers. It answers 0 where it did what was asked, and otherwise the number of the refusal (docs/REFUSALS.md);
 * then every buffer that was lent is as it was. *value is always written: a refusal's bit, signal, place or length, 0 where it has none, and
 * after net_flatten and net_write the number of bytes written.
 *
 * A buffer is a pointer and how many entries it has; the pointer is never NULL, also where there are none. Buffers that a function writes
 * overlap no other argument of the same call. Nothing is kept between calls.
 *
 * A call takes no memory but stack: at most NET_STACK_BYTES, whatever the card. That the thread has so much left is the caller's part, as
 * the pointers are. With less the call runs over the end of the stack, and no refusal tells it.
 */
#ifndef NET_RUNNER_H
#define NET_RUNNER_H

#include <stddef.h>
#include <stdint.h>

#ifdef __cplusplus
extern "C" {
#endif

/* The most that a card has, for buffers of fixed size; a call is lent as many entries of them as its own card has. */
#define NET_PLACES 255
#define NET_TRANSITIONS 255
#define NET_SIGNALS 63
#define NET_SUBNETS 32
#define NET_CARD_BYTES 22770

/* The stack that a call needs, at most. The most that was measured is some 471000 bytes (docs/PERFORMANCE.md has each function's). */
#define NET_STACK_BYTES 524288

/* An idle transition, among transfers; a carrying one is its progress, 0 to 999. */
#define NET_IDLE 65535

/* The card's tests, 1 to 16 and 26. An accepted card's numbers of subnets, places, transitions and signals are in counts; *value is 0. */
uint64_t net_check(const uint8_t *card, size_t card_bytes, size_t counts[4], size_t *value);

/* The card's tests, 24. The flat card is in out, and what stood behind its length still stands there. */
uint64_t net_flatten(const uint8_t *card, size_t card_bytes, uint8_t *out, size_t out_bytes, size_t *value);

/* 17, then 2 to 16 and 26, then 24. The header is version, signals, limit, scale. Tables row after row: subnets (parent, type, places,
 * transitions), places (kind, capacity, first tokens), transitions (signal, number of arcs, rank), arcs (direction, subnet, place, weight); a
 * table's size is the number of its entries, not of its rows. Limit, scale and rank are 0 on cards of versions 1 and 2, which have no such
 * fields. */
uint64_t net_write(const uint16_t header[4], const uint16_t *subnets, size_t subnets_size, const uint16_t *places, size_t places_size,
                   const uint16_t *transitions, size_t transitions_size, const uint16_t *arcs, size_t arcs_size, uint8_t *out,
                   size_t out_bytes, size_t *value);

/* A state is three buffers: markings in thousandths of a token by flat place, transfers by flat transition (NET_IDLE or a progress), and the
 * last degree of each signal. A buffer of another size than the card's number of places, transitions or signals is 25. */

/* The card's tests, 25. The buffers are the fresh state then, whatever stood there. 25 is a buffer that is too short or too long; it is not 24,
 * which is for a card's bytes. net_check tells the sizes. */
uint64_t net_fresh(const uint8_t *card, size_t card_bytes, uint32_t *markings, size_t places, uint16_t *transfers, size_t transitions,
                   uint16_t *degrees, size_t signals, size_t *value);

/* The card's tests, 25, 20, 21, 22: a row of degrees on the flat net. A row of no degrees, row_size 0 (and row still not NULL), is an empty row:
 * every signal stands at its last degree. It is never 20 or 21. (In a rows file an empty row has 1023 for each signal; here that is 21.) */
uint64_t net_flat_row(const uint8_t *card, size_t card_bytes, uint32_t *markings, size_t places, uint16_t *transfers, size_t transitions,
                      uint16_t *degrees, size_t signals, const uint16_t *row, size_t row_size, size_t *value);

/* The card's tests, 25, 23, 20, 21, 22: the same subnet by subnet, in a visiting order that names each subnet once. */
uint64_t net_subnet_row(const uint8_t *card, size_t card_bytes, uint32_t *markings, size_t places, uint16_t *transfers,
                        size_t transitions, uint16_t *degrees, size_t signals, const uint16_t *order, size_t order_size,
                        const uint16_t *row, size_t row_size, size_t *value);

#ifdef __cplusplus
}
#endif

#endif
