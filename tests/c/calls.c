/*
 * The calls from C, on the worked lines of document 01 and a few others:
 *
 *     cc -Wall -Wextra -Iinclude tests/c/calls.c target/staticlib/libexports.a -o target/calls && target/calls
 */
#include "gellunka.h"

#include <stdio.h>
#include <string.h>

static const char TRACE[] =
    "ev=0 do=pkt in=- out=1 from=0 to=0 sw=1 port=1 vlan=1 src=0a000001 dst=0a000002 proto=6 sport=4000 dport=80\n"
    "ev=1 do=oth in=1 out=2,3,4 from=0 to=0\n"
    "ev=2 do=add in=2 out=- from=0 to=0 sw=1 prio=10 port=* vlan=* src=00000000/0 dst=0a000002/32 proto=* sport=* dport=* act=p2\n"
    "ev=3 do=add in=3 out=- from=0 to=0 sw=2 prio=10 port=* vlan=* src=00000000/0 dst=0a000002/32 proto=* sport=* dport=* act=p3\n"
    "ev=4 do=pkt in=4 out=- from=0 to=0 sw=2 port=1 vlan=1 src=0a000001 dst=0a000002 proto=6 sport=4000 dport=80\n";

static const char TABLES[] =
    "sw=2 prio=10 port=* vlan=* src=00000000/0 dst=0a000002/32 proto=* sport=* dport=* act=p3\n"
    "sw=1 prio=10 port=* vlan=* src=00000000/0 dst=0a000002/32 proto=* sport=* dport=* act=p2\n";

static const char ANSWERS[] = "ev=0 hit=-\nev=4 hit=10,1,p3\n";

static const char BAD[] = "sw=1\nsw=2\n";

/* A barrier between a rule and a packet of this word. */
#define RULE_BARRIER_PACKET(word)                                                                                       \
    "ev=0 do=add in=- out=- from=0 to=0 sw=1 prio=10 port=* vlan=* src=00000000/0 dst=0a000002/32 proto=* sport=* dport=* act=p2\n" \
    "ev=1 do=bar in=- out=- from=0 to=0 sw=1\n"                                                                                     \
    "ev=2 do=" word " in=- out=- from=0 to=0 sw=1 port=1 vlan=1 src=0a000001 dst=0a000002 proto=6 sport=4000 dport=80\n"

/* Rules of switch 1 that nothing orders, two of one key and one of another. */
static const char RULES[] =
    "ev=0 do=add in=- out=- from=0 to=0 sw=1 prio=10 port=* vlan=* src=00000000/0 dst=0a000002/32 proto=* sport=* dport=* act=p2\n"
    "ev=1 do=add in=- out=- from=0 to=0 sw=1 prio=10 port=* vlan=* src=00000000/0 dst=0a000002/32 proto=* sport=* dport=* act=p3\n"
    "ev=2 do=add in=- out=- from=0 to=0 sw=1 prio=10 port=* vlan=* src=00000000/0 dst=0a000003/32 proto=* sport=* dport=* act=p4\n";

/* A rule, and a packet with this clock: the rule's `to` is 1000. */
#define RULE_PACKET(clock)                                                                                                     \
    "ev=0 do=add in=- out=- from=0 to=1000 sw=1 prio=10 port=* vlan=* src=00000000/0 dst=0a000002/32 proto=* sport=* dport=* " \
    "act=p2\n"                                                                                                                 \
    "ev=1 do=pkt in=- out=- " clock " sw=1 port=1 vlan=1 src=0a000001 dst=0a000002 proto=6 sport=4000 dport=80\n"

static int failures = 0;

static void expect(int holds, const char *what) {
    if (!holds) {
        printf("failed: %s\n", what);
        failures++;
    }
}

static const uint8_t *bytes(const char *text) { return (const uint8_t *)text; }

static void list(void) {
    uint8_t out[4] = {9, 9, 9, 9};
    struct gellunka_listed a = gellunka_list_races(bytes(TRACE), strlen(TRACE), GELLUNKA_DELAY, out, 4);
    expect(a.refused.number == 0, "the trace is accepted");
    expect(a.pairs == 2 && a.ordered == 1 && a.commuting == 0 && a.listed == 1, "counts");
    expect(out[0] == 3 && out[1] == 4 && out[2] == 9 && out[3] == 9, "the list's bytes");
    a = gellunka_list_races(bytes(TRACE), strlen(TRACE), GELLUNKA_DELAY, out, 1);
    expect(a.refused.number == 31 && a.refused.place == 2 && a.listed == 0, "a short buffer");
    a = gellunka_list_races(bytes(TRACE), strlen(TRACE) - 1, GELLUNKA_DELAY, out, 4);
    expect(a.refused.number == 2 && a.refused.place == 0, "a trace whose last byte is not LF");
}

static void packets(void) {
    static const char SENT_OUT[] = RULE_BARRIER_PACKET("pout"), RECEIVED[] = RULE_BARRIER_PACKET("pkt");
    uint8_t out[2] = {9, 9};
    struct gellunka_listed a = gellunka_list_races(bytes(SENT_OUT), strlen(SENT_OUT), GELLUNKA_DELAY, out, 2);
    expect(a.refused.number == 0 && a.pairs == 1 && a.ordered == 1 && a.listed == 0, "a barrier orders a packet sent out");
    expect(out[0] == 9 && out[1] == 9, "an empty list");
    a = gellunka_list_races(bytes(RECEIVED), strlen(RECEIVED), GELLUNKA_DELAY, out, 2);
    expect(a.refused.number == 0 && a.pairs == 1 && a.ordered == 0 && a.listed == 1, "but no packet received");
    expect(out[0] == 0 && out[1] == 2, "the pair of rule and packet");
}

static int all_are(const uint8_t *from, size_t length, uint8_t byte) {
    while (length > 0 && from[length - 1] == byte) {
        length--;
    }
    return length == 0;
}

static void page(void) {
    static uint8_t out[GELLUNKA_PAGE_ROOM];
    char expected[5 * 61 + 1];
    size_t needed =
        (size_t)snprintf(expected, sizeof expected, "%-60s\n%-9s%51d\n%-9s%51d\n%-9s%51d\n%-9s%51d\n",
                         "  3   4  2 add  pkt     10     -", "pairs", 2, "ordered", 1, "commuting", 0, "listed", 1);
    memset(out, 9, sizeof out);
    struct gellunka_paged a = gellunka_page(bytes(TRACE), strlen(TRACE), GELLUNKA_DELAY, out, needed - 1);
    expect(a.refused.number == 51 && a.refused.place == 5 * 61 && a.length == 0, "a short page");
    a = gellunka_page(bytes(TRACE), strlen(TRACE) - 1, GELLUNKA_DELAY, out, sizeof out);
    expect(a.refused.number == 2 && a.refused.place == 0 && a.length == 0, "a trace whose last byte is not LF");
    a = gellunka_page(bytes(BAD), strlen(BAD), GELLUNKA_DELAY, out, 0);
    expect(a.refused.number == 4 && a.refused.start == 0 && a.refused.length == 4, "a malformed trace");
    expect(all_are(out, sizeof out, 9), "a refusal leaves the page's buffer as it was");
    a = gellunka_page(bytes(TRACE), strlen(TRACE), GELLUNKA_DELAY, out, sizeof out);
    expect(a.refused.number == 0 && a.length == needed, "the trace is accepted");
    expect(memcmp(out, expected, needed) == 0, "the page's bytes");
    expect(all_are(out + needed, sizeof out - needed, 9), "the bytes past the page");
}

static int is_share(struct gellunka_shared a, size_t quotient, size_t remainder, size_t divisor) {
    return a.quotient == quotient && a.remainder == remainder && a.divisor == divisor;
}

static void share(void) {
    uint8_t out[2];
    struct gellunka_listed counts = gellunka_list_races(bytes(RULES), strlen(RULES), GELLUNKA_DELAY, out, 2);
    struct gellunka_shared a = gellunka_share(bytes(RULES), strlen(RULES), GELLUNKA_DELAY);
    expect(a.refused.number == 0 && a.refused.place == 0 && a.refused.start == 0 && a.refused.length == 0,
           "the rules are accepted");
    expect(is_share(a, 666, 2, 3), "two of three pairs commute");
    expect(a.divisor == counts.commuting + counts.listed && a.divisor == counts.pairs - counts.ordered, "the divisor");
    expect(a.quotient * a.divisor + a.remainder == 1000 * counts.commuting, "the product comes back");
    a = gellunka_share(bytes(TRACE), strlen(TRACE), GELLUNKA_DELAY);
    expect(a.refused.number == 0 && is_share(a, 0, 0, 1), "no pair commutes");
    a = gellunka_share(bytes(""), 0, GELLUNKA_DELAY);
    expect(a.refused.number == 0 && is_share(a, 0, 0, 0), "no pair");
    a = gellunka_share(bytes(RULES), strlen(RULES) - 1, GELLUNKA_DELAY);
    expect(a.refused.number == 2 && a.refused.place == 0 && is_share(a, 0, 0, 0), "a trace whose last byte is not LF");
    a = gellunka_share(bytes(BAD), strlen(BAD), GELLUNKA_DELAY);
    expect(a.refused.number == 4 && a.refused.start == 0 && a.refused.length == 4 && is_share(a, 0, 0, 0),
           "a malformed trace");
}

static void normalise(void) {
    uint8_t out[256];
    struct gellunka_normalised a = gellunka_normalise(bytes(TABLES), strlen(TABLES), out, sizeof out);
    expect(a.refused.number == 0 && a.length == strlen(TABLES), "the tables are accepted");
    expect(memcmp(out, "sw=1 ", 5) == 0, "switches rise");
    a = gellunka_normalise(bytes(BAD), strlen(BAD), out, sizeof out);
    expect(a.refused.number == 14 && a.refused.place == 0 && a.length == 0, "a malformed line");
    expect(a.refused.start == 0 && a.refused.length == 4, "where the malformed line stands");
}

static void replay(void) {
    const uint8_t order[] = {0, 1, 2, 3, 4}, early[] = {0, 2, 1, 3, 4};
    static uint8_t tables[GELLUNKA_TABLES_ROOM], answers[GELLUNKA_ANSWERS_ROOM];
    struct gellunka_replayed a =
        gellunka_replay(bytes(TRACE), strlen(TRACE), bytes(""), 0, order, 5, GELLUNKA_DELAY, tables, sizeof tables, answers,
                        sizeof answers);
    expect(a.refused.number == 0 && a.tables == strlen(TABLES), "the order is accepted");
    expect(a.answers == strlen(ANSWERS) && memcmp(answers, ANSWERS, a.answers) == 0, "answers");
    a = gellunka_replay(bytes(TRACE), strlen(TRACE), bytes(""), 0, early, 5, GELLUNKA_DELAY, tables, sizeof tables, answers,
                        sizeof answers);
    expect(a.refused.number == 22 && a.refused.place == 1, "an event too early");
    a = gellunka_replay(bytes(TRACE), strlen(TRACE), bytes(BAD), strlen(BAD), order, 5, GELLUNKA_DELAY, tables,
                        sizeof tables, answers, sizeof answers);
    expect(a.refused.number == 14 && a.refused.start == 0 && a.refused.length == 4, "malformed tables");
}

static void try_orders(void) {
    /* The recorded order, the two rules exchanged, the packet before its rule, a rule too early, an event twice. */
    const uint8_t orders[] = {0, 1, 2, 3, 4, 0, 1, 3, 2, 4, 0, 1, 2, 4, 3, 0, 2, 1, 3, 4, 0, 1, 2, 3, 3};
    const uint8_t expected[] = {GELLUNKA_ORDER_AGREES, GELLUNKA_ORDER_AGREES, GELLUNKA_ORDER_DIFFERS,
                                GELLUNKA_ORDER_REFUSED, GELLUNKA_ORDER_REFUSED};
    uint8_t out[7];
    memset(out, 9, sizeof out);
    struct gellunka_tried a =
        gellunka_try_orders(bytes(TRACE), strlen(TRACE), bytes(BAD), strlen(BAD), orders, 24, GELLUNKA_DELAY, out, 0);
    expect(a.refused.number == 14 && a.refused.start == 0 && a.refused.length == 4, "malformed tables before uneven orders");
    a = gellunka_try_orders(bytes(TRACE), strlen(TRACE), bytes(""), 0, orders, 24, GELLUNKA_DELAY, out, 0);
    expect(a.refused.number == 52 && a.refused.place == 0 && a.orders == 0, "orders of an uneven length");
    a = gellunka_try_orders(bytes(TRACE), strlen(TRACE), bytes(""), 0, orders, 25, GELLUNKA_DELAY, out, 4);
    expect(a.refused.number == 53 && a.refused.place == 5 && a.orders == 0, "too short for the orders");
    a = gellunka_try_orders(bytes(""), 0, bytes(""), 0, orders, 1, GELLUNKA_DELAY, out, sizeof out);
    expect(a.refused.number == 52 && a.refused.place == 0 && a.orders == 0, "an order of no event");
    expect(all_are(out, sizeof out, 9), "a refusal leaves the orders' buffer as it was");
    a = gellunka_try_orders(bytes(""), 0, bytes(""), 0, orders, 0, GELLUNKA_DELAY, out, 0);
    expect(a.refused.number == 0 && a.orders == 0, "no order of no event");
    a = gellunka_try_orders(bytes(TRACE), strlen(TRACE), bytes(""), 0, orders, sizeof orders, GELLUNKA_DELAY, out,
                            sizeof out);
    expect(a.refused.number == 0 && a.orders == 5, "the orders are taken");
    expect(memcmp(out, expected, 5) == 0 && all_are(out + 5, 2, 9), "a byte for each order");
}

/* The packet comes 3000 milliseconds behind the rule. */
static void delays(void) {
    static const char LATE[] = RULE_PACKET("from=4000 to=4294967295");
    static const uint32_t given[] = {0, 2999, 3000, UINT32_MAX};
    static const uint8_t turned[] = {1, 0};
    for (int i = 0; i < 4; i++) {
        uint32_t delay = given[i];
        size_t listed = delay < 3000 ? 0 : 1;
        uint8_t out[305], answered[64];
        struct gellunka_listed a = gellunka_list_races(bytes(LATE), strlen(LATE), delay, out, sizeof out);
        expect(a.refused.number == 0 && a.ordered == 1 - listed && a.listed == listed, "the list at a delay");
        struct gellunka_paged b = gellunka_page(bytes(LATE), strlen(LATE), delay, out, sizeof out);
        expect(b.refused.number == 0 && b.length == 61 * (4 + listed), "the page at a delay");
        struct gellunka_shared c = gellunka_share(bytes(LATE), strlen(LATE), delay);
        expect(c.refused.number == 0 && is_share(c, 0, 0, listed), "the share at a delay");
        struct gellunka_replayed d = gellunka_replay(bytes(LATE), strlen(LATE), bytes(""), 0, turned, 2, delay, out, sizeof out,
                                                     answered, sizeof answered);
        expect(d.refused.number == (listed == 0 ? 22 : 0) && d.refused.place == 0, "a replay at a delay");
        struct gellunka_tried e = gellunka_try_orders(bytes(LATE), strlen(LATE), bytes(""), 0, turned, 2, delay, out, 1);
        expect(e.refused.number == 0 && e.orders == 1, "an order at a delay");
        expect(out[0] == (listed == 0 ? GELLUNKA_ORDER_REFUSED : GELLUNKA_ORDER_DIFFERS), "the order's byte at a delay");
    }
}

static void clocks(void) {
    static const char REVERSED[] = RULE_PACKET("from=8 to=7");
    static const char BACKWARD[] = "ev=0 do=msg in=- out=- from=2001 to=2001 sw=1\nev=1 do=msg in=- out=- from=0 to=0 sw=2\n";
    uint8_t out[2] = {9, 9};
    size_t first = (size_t)(strchr(REVERSED, '\n') - REVERSED) + 1;
    struct gellunka_listed a = gellunka_list_races(bytes(REVERSED), strlen(REVERSED), GELLUNKA_DELAY, out, 2);
    expect(a.refused.number == 54 && a.refused.place == 1, "a range reversed");
    expect(a.refused.start == first && a.refused.length == strlen(REVERSED) - first - 1, "where its line stands");
    a = gellunka_list_races(bytes(BACKWARD), strlen(BACKWARD), GELLUNKA_DELAY, out, 2);
    expect(a.refused.number == 55 && a.refused.place == 0, "a later line before an earlier one");
    expect(a.refused.start == 0 && a.refused.length == (size_t)(strchr(BACKWARD, '\n') - BACKWARD), "where the earlier line stands");
    expect(out[0] == 9 && out[1] == 9, "a refusal leaves the list's buffer as it was");
    a = gellunka_list_races(bytes(BACKWARD), strlen(BACKWARD), GELLUNKA_DELAY + 1, out, 2);
    expect(a.refused.number == 0 && a.pairs == 0, "accepted at a larger delay");
}

int main(void) {
    list();
    packets();
    delays();
    clocks();
    page();
    share();
    normalise();
    replay();
    try_orders();
    printf(failures == 0 ? "C calls: ok\n" : "C calls: failed\n");
    return failures != 0;
}
