/*
 * Gellunka: a proved checker for OpenFlow rehearsals.
 *
 * Link with target/staticlib/libexports.a, which `tools/build exports` builds.
 *
 * What is promised of each call below is proved of its source (crates/exports); "document 01" is the
 * specification, docs/SPECIFICATION.md. It holds for every input, so nothing is asked of the bytes that
 * are passed. What C must see to, as with any function that takes buffers:
 *
 *   - a pointer points to at least as many bytes as the length after it says, and is not NULL even
 *     where that length is 0;
 *   - no output buffer overlaps another buffer of the call;
 *   - there is 1 MB of stack left for a call.
 *
 * The calls keep nothing between them and touch no memory but their stack and what they are passed, so
 * threads may make them at the same time.
 */
#ifndef GELLUNKA_H
#define GELLUNKA_H

#include <stddef.h>
#include <stdint.h>

#ifdef __cplusplus
extern "C" {
#endif

/* Limits of the texts. A longer text is refused. */
#define GELLUNKA_MAX_BYTES 65535 /* of a trace or a table text */
#define GELLUNKA_MAX_LINES 256   /* of a trace or a table text */

/* The delay that the programs use, in milliseconds. A call may be given any other: 0 to 4294967295. */
#define GELLUNKA_DELAY 2000

/* Buffers of these lengths are never too short: proved, crates/replay_agreement/proofs/Rooms.antt, the page's in
 * crates/page_meaning/proofs/Theorems.antt. */
#define GELLUNKA_LIST_ROOM 65280    /* of gellunka_list_races */
#define GELLUNKA_PAGE_ROOM 1991284  /* of gellunka_page */
#define GELLUNKA_NORMAL_ROOM 29440  /* of gellunka_normalise */
#define GELLUNKA_TABLES_ROOM 58880  /* of gellunka_replay, the end tables */
#define GELLUNKA_ANSWERS_ROOM 7168  /* of gellunka_replay, the answers */

/*
 * What is refused, by document 01's table of refusals.
 *
 *    number    cause                                               place
 *     1  2  3  trace: over 65,535 bytes / last byte not LF /
 *              over 256 lines                                      0
 *     4        trace: line malformed, value outside its range      line
 *     5        trace: `ev` isn't the line number                   line
 *     6        trace: address bit past the prefix                  line
 *     7        trace: token in `out` of two lines                  the later line
 *     8        trace: `in` token put out on this or a later line   line of the `in`
 *    11 12 13  tables: as 1, 2, 3                                  0
 *    14 15     tables: as 4, 6                                     line
 *    16        tables: switch and key twice                        the later line
 *    21        order: length wrong, or an event missing            0
 *    22        order: event put before one that happens before it  lowest such position
 *    31 32 33  buffer too short: list / tables / answers           bytes needed
 *    51        buffer too short: page                              bytes needed
 *    52        orders: length not a multiple of the event count,
 *              or not 0 where there is no event                    0
 *    53        buffer too short: a byte for each order             bytes needed
 *    54        trace: `from` above `to`                            line
 *    55        trace: a later line before an earlier one, by
 *              their times and the delay                           lowest such earlier line
 *
 * Of several causes the first in document 01's order of checks is told. Lines and positions count from 0.
 */
struct gellunka_refused {
    size_t number; /* document 01's number; 0: nothing is refused, and all fields here are 0 */
    size_t place;  /* a line, a position in the order, the bytes needed, or 0 */
    /* The refused line, without its LF: `length` bytes from byte `start` on, of the trace for 4 to 8, 54 and
     * 55 and of the table text for 14 to 16. Both are 0 for every other number. */
    size_t start;
    size_t length;
};

/* The answer of gellunka_list_races. After a refusal the counts are 0. */
struct gellunka_listed {
    struct gellunka_refused refused;
    size_t pairs;     /* all two table events of one switch */
    size_t ordered;   /* those of which one happens before the other */
    size_t commuting; /* those that are not ordered, and commute */
    size_t listed;    /* the rest, which are in the list */
};

/* The answer of gellunka_page. After a refusal the length is 0. */
struct gellunka_paged {
    struct gellunka_refused refused;
    size_t length; /* of the page: 61 * (listed + 4) */
};

/* The answer of gellunka_share. After a refusal all three numbers are 0. */
struct gellunka_shared {
    struct gellunka_refused refused;
    size_t quotient;  /* how often the divisor goes into 1000 * commuting */
    size_t remainder; /* what remains of 1000 * commuting */
    size_t divisor;   /* commuting + listed, the pairs that are not ordered */
};

/* The answer of gellunka_normalise. After a refusal the length is 0. */
struct gellunka_normalised {
    struct gellunka_refused refused;
    size_t length; /* of the normal text */
};

/* The answer of gellunka_replay. After a refusal both lengths are 0. */
struct gellunka_replayed {
    struct gellunka_refused refused;
    size_t tables;  /* length of the end tables */
    size_t answers; /* length of the answers */
};

/* The answer of gellunka_try_orders. After a refusal the number is 0. */
struct gellunka_tried {
    struct gellunka_refused refused;
    size_t orders; /* how many orders there are, and how many bytes were written */
};

/* What gellunka_try_orders writes for an order. */
#define GELLUNKA_ORDER_AGREES 0  /* its end tables and its answers equal those of the recorded order */
#define GELLUNKA_ORDER_DIFFERS 1 /* either differs */
#define GELLUNKA_ORDER_REFUSED 2 /* the order itself is refused, by 21 or 22 */

/*
 * The checks of a trace, which every call on one makes first, are in this order: 1, 2, 3; on each line from the
 * first 4, 5, 6, 54; then 7, 8, 55 over the whole trace. "The checks of the trace" below are these.
 *
 * One event happens before another if a chain of steps leads to it:
 *
 *   - to a later line, by a token that is put out and taken in;
 *   - to a later line of one switch, from a `bar` to a write, `bar`, `msg` or `pout`, or from one of these to a
 *     `bar`; no barrier orders a `pkt`;
 *   - by their times: switches handled both (every word but `oth`; on one switch or on two), they are not both
 *     `pkt`, and the `from` of the second minus the `to` of the first is above `delay`. Where this leads to an
 *     earlier line the trace is refused by 55.
 *
 * So with from=0 to=0 on every line the times order nothing, whatever the delay. A longer delay refuses no more
 * traces, orders no more pairs, and lists every pair that a shorter one lists.
 */

/*
 * The list of racing pairs of a trace.
 *
 * Refuses by the checks of the trace, then by 31, and leaves `out` as it was then. Otherwise the first 2 * listed
 * bytes of `out` are the listed pairs, two bytes each, lower event and then higher event, in rising order; the bytes
 * after them are as they were. A pair is listed exactly if both events use the table of one switch, neither
 * happens before the other at the delay, and there is a table on which the two orders leave different tables or give
 * one of them a different answer.
 */
struct gellunka_listed gellunka_list_races(const uint8_t *trace, size_t trace_length, uint32_t delay,
                                           uint8_t *out, size_t out_length);

/*
 * The list of racing pairs of a trace as a page, 60 columns wide.
 *
 * Refuses by the checks of the trace, then by 51, and leaves `out` as it was then. Otherwise the first `length`
 * bytes of `out` are the page; the bytes after them are as they were. Each pair that is listed at the delay is a line
 * of 60 bytes and LF, in the order of gellunka_list_races:
 *
 *    columns  hold
 *     1 -  3  the lower event, right-justified
 *     5 -  7  the higher event, right-justified
 *     9 - 10  the switch, right-justified
 *    12 -     the `do` word of the lower event, left-justified
 *    17 -     the `do` word of the higher event, left-justified
 *    22 - 26  the priority of the lower event, right-justified; `-` where there is none
 *    28 - 32  the priority of the higher event, right-justified; `-` where there is none
 *
 * The rest are blanks. Then come the counts pairs, ordered, commuting and listed, a line of 60 bytes and LF
 * each: the name from column 1 on, the number right-justified to column 60. Two different lists never make
 * the same page.
 */
struct gellunka_paged gellunka_page(const uint8_t *trace, size_t trace_length, uint32_t delay, uint8_t *out,
                                    size_t out_length);

/*
 * How many of a trace's pairs that are not ordered commute, in thousandths and with what remains.
 *
 * Refuses by the checks of the trace. Otherwise, with the counts that gellunka_list_races gives of the same trace at
 * the same delay into a long enough buffer:
 *
 *    divisor == commuting + listed == pairs - ordered
 *    quotient * divisor + remainder == 1000 * commuting
 *    remainder < divisor, where divisor is not 0
 *
 * The divisor is 0 exactly if all pairs are ordered or there is none, and then all three numbers are 0.
 */
struct gellunka_shared gellunka_share(const uint8_t *trace, size_t trace_length, uint32_t delay);

/*
 * The normal form of a table text: switches rising, then table order.
 *
 * Refuses by 11 to 16, then by 32, and leaves `out` as it was then. Otherwise the first `length` bytes of
 * `out` are the normal text; the bytes after them are as they were. Two accepted texts have the same normal
 * text exactly if they hold the same entries on the same switches.
 */
struct gellunka_normalised gellunka_normalise(const uint8_t *tables, size_t tables_length, uint8_t *out,
                                              size_t out_length);

/*
 * What an order of a trace's events does to the tables of a text. The order has one byte for each event, its
 * number.
 *
 * Refuses by the checks of the trace, 11 to 16, 21, 22, 32 and 33, in this order, and leaves both output buffers as
 * they were then. Otherwise the first `tables` bytes of `out` are the end tables in normal form, and the first
 * `answers` bytes of `answered` the answer lines by rising event, one for each `pkt`, `pout` and `addc`; the
 * bytes after them are as they were.
 * Orders that keep happens-before at the delay and have every pair in recorded order that is listed at it all write
 * the same bytes, those of the recorded order.
 */
struct gellunka_replayed gellunka_replay(const uint8_t *trace, size_t trace_length, const uint8_t *tables,
                                         size_t tables_length, const uint8_t *order, size_t order_length,
                                         uint32_t delay, uint8_t *out, size_t out_length, uint8_t *answered,
                                         size_t answered_length);

/*
 * Which of many orders of a trace's events do to the tables of a text what the recorded order does. The orders stand
 * end to end, each with one byte for each event, its number. There may be none.
 *
 * Refuses by the checks of the trace, 11 to 16, 52 and 53, in this order, and leaves `out` as it was then. Otherwise
 * the first `orders` bytes of `out` are one byte for each order, in their order; the bytes after them are as they were.
 * The byte is GELLUNKA_ORDER_REFUSED exactly if gellunka_replay at the same delay refuses the order by 21 or 22,
 * GELLUNKA_ORDER_AGREES exactly if it writes for it, into long enough buffers, what it writes for the recorded order,
 * and else GELLUNKA_ORDER_DIFFERS. No other byte is written. An order that keeps happens-before at the delay and has
 * every pair in recorded order that is listed at it agrees.
 */
struct gellunka_tried gellunka_try_orders(const uint8_t *trace, size_t trace_length, const uint8_t *tables,
                                          size_t tables_length, const uint8_t *orders, size_t orders_length,
                                          uint32_t delay, uint8_t *out, size_t out_length);

#ifdef __cplusplus
}
#endif

#endif
