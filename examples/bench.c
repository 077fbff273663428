/* One small lab on the bench in each family: Hellos written and heard, a router elected, asserts packed and read back,
 * counted, the sheet kept, one damaged message refused; the image's own report, of IPv4; and Pop-Count attributes
 * merged.
 *
 * Build and run it from the top of the repository:
 *
 *     cc -std=c99 -Wall -Wextra -Iinclude examples/bench.c target/staticlib/libpim.a -o target/bench-example
 *     target/bench-example
 *
 * It prints what examples/bench.expected holds. A call that refuses where it should not is named on standard
 * error, and the exit status is 1.
 */
#include "pim.h"

#include <inttypes.h>
#include <stdio.h>
#include <stdlib.h>
#include <string.h>

enum {
    LONGEST = 100,      /* octets of a message in a train at most: the larger of the two limits */
    MOST_MESSAGES = 16, /* that a train may have here */
    SHEET_ROOM = 1024,
    ROUTERS = 3,
    ASSERTS = 12,
    PAIRS = 3
};

#define OUR_PRIORITY 1u

/* ---- the two labs */

typedef struct {
    pim_address group, source;
    uint32_t r_preference, metric;
} assert_row;

typedef struct {
    pim_address group, source;
} pair_row;

typedef struct {
    const char *name;
    uint8_t family;
    size_t width, assert_entry, pair_entry; /* octets of an address, and of entries */
    size_t limit;                           /* of a message in the train, in octets */
    pim_address ours, all_routers;          /* our own address, and where PIM messages are sent to */
    pim_address routers[ROUTERS];
    assert_row asserts[ASSERTS];
    pair_row pairs[PAIRS]; /* in a sheet source 0 is allowed */
} lab;

/* 10.0.0.1 is ours; groups in 232.1.1.0/24 and 239.0.0.0/24, sources in 10.1.0.0/16 and 10.2.0.0/16. */
static const lab ipv4 = {
    "IPv4",
    PIM_IPV4,
    4,
    PIM_IPV4_ASSERT_ENTRY,
    PIM_IPV4_PAIR_ENTRY,
    60,
    {0, 0x0a000001},
    {0, 0xe000000d},
    {{0, 0x0a000002}, {0, 0x0a000003}, {0, 0x0a000009}},
    {
        /* R=0: one source, five groups */
        {{0, 0xe8010101}, {0, 0x0a010001}, 110, 20},
        {{0, 0xe8010102}, {0, 0x0a010001}, 110, 20},
        {{0, 0xe8010103}, {0, 0x0a010001}, 110, 20},
        {{0, 0xe8010104}, {0, 0x0a010001}, 110, 20},
        {{0, 0xe8010105}, {0, 0x0a010001}, 110, 20},
        /* R=1: one group, five sources */
        {{0, 0xef000001}, {0, 0x0a020001}, PIM_R_BIT | 100, 10},
        {{0, 0xef000001}, {0, 0x0a020002}, PIM_R_BIT | 100, 10},
        {{0, 0xef000001}, {0, 0x0a020003}, PIM_R_BIT | 100, 10},
        {{0, 0xef000001}, {0, 0x0a020004}, PIM_R_BIT | 100, 10},
        {{0, 0xef000001}, {0, 0x0a020005}, PIM_R_BIT | 100, 10},
        /* R=1: another group, source 0, twice */
        {{0, 0xef000002}, {0, 0}, PIM_R_BIT | 100, 10},
        {{0, 0xef000002}, {0, 0}, PIM_R_BIT | 100, 10},
    },
    {{{0, 0xe8010101}, {0, 0x0a010001}}, {{0, 0xe8010102}, {0, 0x0a010001}}, {{0, 0xef000002}, {0, 0}}},
};

#define LINK 0xfe80000000000000u  /* fe80:: */
#define SITE 0x20010db800000000u  /* 2001:db8:: */
#define GROUP 0xff3e000000000000u /* ff3e:: */
#define EVERY 0xff02000000000000u /* ff02:: */

/* The same with fe80::1 as ours; groups in ff3e::/64, sources in 2001:db8::/64. */
static const lab ipv6 = {
    "IPv6",
    PIM_IPV6,
    16,
    PIM_IPV6_ASSERT_ENTRY,
    PIM_IPV6_PAIR_ENTRY,
    100,
    {LINK, 1},
    {EVERY, 0xd},
    {{LINK, 2}, {LINK, 3}, {LINK, 9}},
    {
        {{GROUP, 0x101}, {SITE, 0x10001}, 110, 20},
        {{GROUP, 0x102}, {SITE, 0x10001}, 110, 20},
        {{GROUP, 0x103}, {SITE, 0x10001}, 110, 20},
        {{GROUP, 0x104}, {SITE, 0x10001}, 110, 20},
        {{GROUP, 0x105}, {SITE, 0x10001}, 110, 20},
        {{GROUP, 1}, {SITE, 0x20001}, PIM_R_BIT | 100, 10},
        {{GROUP, 1}, {SITE, 0x20002}, PIM_R_BIT | 100, 10},
        {{GROUP, 1}, {SITE, 0x20003}, PIM_R_BIT | 100, 10},
        {{GROUP, 1}, {SITE, 0x20004}, PIM_R_BIT | 100, 10},
        {{GROUP, 1}, {SITE, 0x20005}, PIM_R_BIT | 100, 10},
        {{GROUP, 2}, {0, 0}, PIM_R_BIT | 100, 10},
        {{GROUP, 2}, {0, 0}, PIM_R_BIT | 100, 10},
    },
    {{{GROUP, 0x101}, {SITE, 0x10001}}, {{GROUP, 0x102}, {SITE, 0x10001}}, {{GROUP, 2}, {0, 0}}},
};

/* A message from an address to all routers. IPv4 does not look at it. */
static pim_path path_from(const lab *l, pim_address source)
{
    pim_path path;

    path.source = source;
    path.destination = l->all_routers;
    return path;
}

/* ---- what can go wrong */

static void fail(const char *what)
{
    fflush(stdout);
    fprintf(stderr, "bench-example: %s\n", what);
    exit(EXIT_FAILURE);
}

/* Stops with a message if the call refused. */
static void must(const char *call, pim_refusal refusal)
{
    if (refusal.number == PIM_ACCEPTED)
        return;
    fflush(stdout);
    fprintf(stderr, "bench-example: %s refused: number %u at place %zu\n", call, (unsigned)refusal.number,
            refusal.place);
    exit(EXIT_FAILURE);
}

/* ---- printing and counting */

/* IPv6 in full, without a shorter form for zeros. */
static void print_address(const lab *l, pim_address address)
{
    uint8_t o[16];
    int i;

    if (l->family == PIM_IPV4) {
        pim_address_to_ipv4(address, o);
        printf("%u.%u.%u.%u", (unsigned)o[0], (unsigned)o[1], (unsigned)o[2], (unsigned)o[3]);
        return;
    }
    pim_address_to_ipv6(address, o);
    for (i = 0; i < 16; i += 2)
        printf("%s%x", i == 0 ? "" : ":", (unsigned)(o[i] << 8 | o[i + 1]));
}

static const char *yes_or_no(bool b)
{
    return b ? "yes" : "no";
}

static void print_priority(bool has_priority, uint32_t priority)
{
    if (has_priority)
        printf("priority %" PRIu32, priority);
    else
        printf("priority none");
}

/* Each returns the place past what it put. */
static uint8_t *put_number(uint8_t *octets, uint32_t number)
{
    octets[0] = (uint8_t)(number >> 24);
    octets[1] = (uint8_t)(number >> 16);
    octets[2] = (uint8_t)(number >> 8);
    octets[3] = (uint8_t)number;
    return octets + 4;
}

static uint8_t *put_address(const lab *l, uint8_t *octets, pim_address address)
{
    if (l->family == PIM_IPV4)
        pim_address_to_ipv4(address, octets);
    else
        pim_address_to_ipv6(address, octets);
    return octets + l->width;
}

/* What every entry begins with: its family and three octets that are 0. */
static uint8_t *put_family(const lab *l, uint8_t *octets)
{
    return put_number(octets, (uint32_t)l->family << 24);
}

static void count(pim_counters *counters, bool received, uint8_t kind, size_t records)
{
    must("pim_count", pim_count(counters, received, kind, records));
}

/* ---- neighbours */

/* What the bench's routers say: holdtime, whether there is a priority and which, packed assert capability. */
static const pim_hello first_hello = {PIM_USUAL_HOLDTIME, true, 5, true};
static const pim_hello second_hello = {210, true, 9, true};
static const pim_hello third_hello = {PIM_USUAL_HOLDTIME, false, 0, true};

/* Hears one Hello: printed, counted, put into the table. */
static void hear(const lab *l, pim_table *table, pim_counters *counters, pim_address address, const uint8_t *message,
                 size_t size)
{
    pim_hello_answer read = pim_read_hello(l->family, path_from(l, address), message, size);
    pim_table_answer heard;

    must("pim_read_hello", read.refusal);
    printf("hello from ");
    print_address(l, address);
    printf(": holdtime %u, ", (unsigned)read.hello.holdtime);
    print_priority(read.hello.has_priority, read.hello.priority);
    printf(", packing %s\n", yes_or_no(read.hello.packing));

    heard = pim_hear(l->family, *table, address, read.hello);
    must("pim_hear", heard.refusal);
    *table = heard.table;
    count(counters, true, PIM_HELLO, 0);
}

/* Writes a router's Hello, counts it as sent, and hears it. */
static void say_hello(const lab *l, pim_table *table, pim_counters *counters, pim_address address, pim_hello said)
{
    uint8_t message[PIM_LONGEST_HELLO];
    pim_length_answer written = pim_write_hello(l->family, path_from(l, address), said, message, sizeof message);

    must("pim_write_hello", written.refusal);
    count(counters, false, PIM_HELLO, 0);
    hear(l, table, counters, address, message, written.length);
}

static void print_table(const lab *l, const pim_table *table)
{
    size_t i;

    printf("table: %zu rows\n", table->count);
    for (i = 0; i < table->count; i++) {
        const pim_neighbour *row = &table->rows[i];
        printf("  row %zu: ", i);
        print_address(l, row->address);
        printf(", ");
        print_priority(row->has_priority, row->priority);
        printf(", packs %s, holdtime %u\n", yes_or_no(row->packs), (unsigned)row->holdtime);
    }
}

static void elect(const lab *l, pim_table table)
{
    pim_elect_answer elected = pim_elect(l->family, table, l->ours, OUR_PRIORITY);
    pim_allowed_answer packing = pim_packing_allowed(l->family, table);

    must("pim_elect", elected.refusal);
    must("pim_packing_allowed", packing.refusal);
    printf("designated router: ");
    print_address(l, elected.address);
    printf("; packing allowed: %s\n", yes_or_no(packing.allowed));
}

/* Two neighbours with a priority, then a third without: from there on the highest address is elected. */
static void hear_all(const lab *l, pim_table *table, pim_counters *counters)
{
    *table = pim_table_empty();
    say_hello(l, table, counters, l->routers[0], first_hello);
    say_hello(l, table, counters, l->routers[1], second_hello);
    elect(l, *table);
    say_hello(l, table, counters, l->routers[2], third_hello);
    elect(l, *table);
    print_table(l, table);
}

/* ---- asserts */

typedef struct {
    uint8_t octets[MOST_MESSAGES][LONGEST];
    size_t lengths[MOST_MESSAGES];
    size_t count;
} message_train;

static void make_asserts(const lab *l, uint8_t *entries)
{
    size_t i;

    for (i = 0; i < ASSERTS; i++) {
        uint8_t *at = put_family(l, entries + l->assert_entry * i);
        at = put_address(l, at, l->asserts[i].group);
        at = put_address(l, at, l->asserts[i].source);
        at = put_number(at, l->asserts[i].r_preference);
        put_number(at, l->asserts[i].metric);
    }
}

/* Packs until nothing is left: then the length is 0. */
static void pack(const lab *l, const uint8_t *entries, message_train *train, pim_counters *counters)
{
    size_t start = 0;

    printf("packing %d asserts, limit %zu\n", ASSERTS, l->limit);
    train->count = 0;
    for (;;) {
        uint8_t message[LONGEST];
        pim_pack_answer packed =
            pim_pack_aggregated(l->family, path_from(l, l->ours), entries, l->assert_entry * ASSERTS, start, l->limit,
                                message, sizeof message);

        must("pim_pack_aggregated", packed.refusal);
        if (packed.length == 0)
            break;
        if (train->count == MOST_MESSAGES)
            fail("the train has more messages than this example keeps");
        memcpy(train->octets[train->count], message, packed.length);
        train->lengths[train->count] = packed.length;
        train->count++;
        start += packed.taken;
        printf("  message %zu: %zu octets, %zu entries\n", train->count, packed.length, packed.taken);
        count(counters, false, PIM_AGGREGATED, packed.taken);
    }
}

/* Reads all messages into one list. Returns the list's octets. */
static size_t read_train(const lab *l, const message_train *train, uint8_t *entries, size_t room,
                         pim_counters *counters)
{
    size_t at = 0;
    size_t i;

    for (i = 0; i < train->count; i++) {
        pim_read_answer read = pim_read_asserts(l->family, path_from(l, l->ours), train->octets[i], train->lengths[i],
                                                entries + at, room - at);

        must("pim_read_asserts", read.refusal);
        at += l->assert_entry * read.count;
        count(counters, true, read.kind, read.count);
    }
    return at;
}

static void check_train(const lab *l, const uint8_t *entries, const message_train *train, pim_counters *counters)
{
    uint8_t again[PIM_IPV6_ASSERT_ENTRY * (ASSERTS + 1)];
    size_t length = read_train(l, train, again, sizeof again, counters);

    if (length != l->assert_entry * ASSERTS || memcmp(again, entries, length) != 0)
        fail("the train does not read back to the list");
    printf("read back: %zu messages, %zu entries, the same list\n", train->count, length / l->assert_entry);
}

/* ---- counters */

static void print_totals(const char *kind, pim_totals sent, pim_totals received)
{
    printf("  %s: sent %" PRIu64 " messages, %" PRIu64 " records; received %" PRIu64 " messages, %" PRIu64 " records\n",
           kind, sent.messages, sent.records, received.messages, received.records);
}

static void print_counters(const pim_counters *counters)
{
    const pim_by_kind *sent = &counters->sent;
    const pim_by_kind *received = &counters->received;

    printf("counters\n");
    print_totals("hello", sent->hello, received->hello);
    print_totals("assert", sent->assert_, received->assert_);
    print_totals("simple", sent->simple, received->simple);
    print_totals("aggregated", sent->aggregated, received->aggregated);
    print_totals("null-register", sent->null_register, received->null_register);
    print_totals("register-stop", sent->register_stop, received->register_stop);
}

/* ---- Pop-Count attributes */

/* Three attributes back to back. All have transit, both speeds, node and diameter; the third has no stub. */
static const uint8_t contributors[] = {
    /* all eight options: MTU 1500, flags S and P, transit 10, stub 5, 100 x 10^2 and 100 x 10^4 kbit/s,
     * domain 1, node 3, diameter 2, time zone 1 */
    0x03, 0x16, 0x05, 0xdc, 0x00, 0x11, 0xff, 0x00, 0x00, 0x00, 0x00, 0x0a, 0x00, 0x00, 0x00, 0x05, 0x08, 0x64, 0x10,
    0x64, 0x01, 0x03, 0x02, 0x01,
    /* neither domain nor time zone: MTU 1400, flags A and P, transit 20, stub 6, 25 x 10^3 and 40 x 10^6
     * kbit/s, node 4, diameter 5 */
    0x03, 0x14, 0x05, 0x78, 0x00, 0x12, 0xf6, 0x00, 0x00, 0x00, 0x00, 0x14, 0x00, 0x00, 0x00, 0x06, 0x0c, 0x19, 0x18,
    0x28, 0x04, 0x05,
    /* no stub either: MTU 9000, flag P, transit 30, 1 x 10^6 and 1 x 10^6 kbit/s, node 1, diameter 1 */
    0x03, 0x10, 0x23, 0x28, 0x00, 0x10, 0xb6, 0x00, 0x00, 0x00, 0x00, 0x1e, 0x18, 0x01, 0x18, 0x01, 0x01, 0x01};

static void print_speed(const char *name, uint16_t speed)
{
    printf("  %s: %u x 10^%u kbit/s\n", name, (unsigned)(speed & 0x3ff), (unsigned)(speed >> 10));
}

static void print_attribute(const pim_popcount_attribute *a)
{
    printf("  E %d, MTU %u, flags 0x%04x, options 0x%04x\n", a->e, (unsigned)a->mtu, (unsigned)a->flags,
           (unsigned)a->options);
    if (a->options & PIM_POPCOUNT_TRANSIT)
        printf("  transit: %" PRIu32 "\n", a->values.transit);
    if (a->options & PIM_POPCOUNT_STUB)
        printf("  stub: %" PRIu32 "\n", a->values.stub);
    if (a->options & PIM_POPCOUNT_MINIMUM_SPEED)
        print_speed("least speed", a->values.minimum_speed);
    if (a->options & PIM_POPCOUNT_MAXIMUM_SPEED)
        print_speed("greatest speed", a->values.maximum_speed);
    if (a->options & PIM_POPCOUNT_NODE)
        printf("  node: %u\n", (unsigned)a->values.node);
    if (a->options & PIM_POPCOUNT_DIAMETER)
        printf("  diameter: %u\n", (unsigned)a->values.diameter);
}

/* Our least speed is as fast as the first contributor's, written in another way: ours stays. */
static void merge(void)
{
    const uint16_t flags = PIM_POPCOUNT_FLAG_TUNNEL | PIM_POPCOUNT_FLAG_CAPABLE;
    pim_popcount_own own = {1500, flags, 2, 1, 0x0c0a, 0x1064}; /* 10 x 10^3 and 100 x 10^4 kbit/s */
    uint8_t buffer[PIM_POPCOUNT_MERGED];
    pim_length_answer merged = pim_popcount_merge(own, true, contributors, sizeof contributors, buffer, sizeof buffer);
    pim_popcount_read_answer read;

    must("pim_popcount_merge", merged.refusal);
    read = pim_popcount_read(buffer, merged.length, 0);
    must("pim_popcount_read", read.refusal);
    if (read.next != merged.length)
        fail("the merged attribute is not read to its end");
    printf("merged Pop-Count attribute: %zu octets\n", merged.length);
    print_attribute(&read.attribute);
}

/* ---- the sheet */

static void make_pairs(const lab *l, uint8_t *entries)
{
    size_t i;

    for (i = 0; i < PAIRS; i++) {
        uint8_t *at = put_family(l, entries + l->pair_entry * i);
        at = put_address(l, at, l->pairs[i].group);
        put_address(l, at, l->pairs[i].source);
    }
}

/* Field by field: a struct may hold octets between its fields. */
static bool same_table(const pim_table *a, const pim_table *b)
{
    size_t i;

    for (i = 0; i < PIM_ROWS; i++) {
        const pim_neighbour *x = &a->rows[i];
        const pim_neighbour *y = &b->rows[i];
        if (x->address.high != y->address.high || x->address.low != y->address.low || x->priority != y->priority ||
            x->has_priority != y->has_priority || x->packs != y->packs || x->holdtime != y->holdtime)
            return false;
    }
    return a->count == b->count;
}

static void print_counts(const char *what, pim_sheet_counts counts)
{
    printf("  %s: %zu asserts, %zu pairs, %zu neighbours\n", what, counts.asserts, counts.pairs, counts.neighbours);
}

/* Reads the sheet and compares with what it was written from. */
static void check_read(const lab *l, const uint8_t *sheet, size_t length, const uint8_t *asserts, const uint8_t *pairs,
                       const pim_table *table)
{
    uint8_t asserts_again[PIM_IPV6_ASSERT_ENTRY * ASSERTS];
    uint8_t pairs_again[PIM_IPV6_PAIR_ENTRY * PAIRS];
    pim_sheet_answer read = pim_read_sheet(l->family, sheet, length, asserts_again, l->assert_entry * ASSERTS,
                                           pairs_again, l->pair_entry * PAIRS);

    must("pim_read_sheet", read.refusal);
    print_counts("read back", read.counts);
    if (read.counts.asserts != ASSERTS || read.counts.pairs != PAIRS || !same_table(&read.table, table) ||
        memcmp(asserts_again, asserts, l->assert_entry * ASSERTS) != 0 ||
        memcmp(pairs_again, pairs, l->pair_entry * PAIRS) != 0)
        fail("the sheet does not read back to its lists and table");
    printf("  the same lists and table\n");
}

static void keep(const lab *l, const uint8_t *asserts, const pim_table *table)
{
    uint8_t pairs[PIM_IPV6_PAIR_ENTRY * PAIRS];
    uint8_t sheet[SHEET_ROOM];
    pim_length_answer written;
    pim_check_answer checked;

    make_pairs(l, pairs);
    written = pim_write_sheet(l->family, asserts, l->assert_entry * ASSERTS, pairs, l->pair_entry * PAIRS, *table,
                              sheet, sizeof sheet);
    must("pim_write_sheet", written.refusal);
    printf("sheet: %zu octets\n", written.length);
    checked = pim_check_sheet(l->family, sheet, written.length);
    must("pim_check_sheet", checked.refusal);
    print_counts("checked", checked.counts);
    check_read(l, sheet, written.length, asserts, pairs, table);
}

/* ---- a refusal */

/* What makes the checksum of a message hold. */
static void seal(const lab *l, pim_path path, uint8_t *message, size_t length)
{
    bool is_ipv4 = l->family == PIM_IPV4;
    uint16_t sum = is_ipv4 ? pim_checksum(message, length) : pim_checksum_ipv6(path, message, length);

    message[2] = (uint8_t)(sum >> 8);
    message[3] = (uint8_t)sum;
    if (!(is_ipv4 ? pim_checksum_holds(message, length) : pim_checksum_ipv6_holds(path, message, length)))
        fail("the new checksum does not hold");
}

/* The second message of the train is made to claim one group more than it has, with a checksum that holds. */
static void show_refusal(const lab *l, const message_train *train)
{
    uint8_t message[LONGEST];
    uint8_t entries[3 * PIM_IPV6_ASSERT_ENTRY] = {0};
    const uint8_t untouched[3 * PIM_IPV6_ASSERT_ENTRY] = {0};
    pim_path path = path_from(l, l->ours);
    size_t length;
    pim_read_answer read;

    if (train->count < 2 || train->lengths[1] < 24)
        fail("the train has no second message to damage");
    length = train->lengths[1];
    memcpy(message, train->octets[1], length);
    message[19 + l->width]++; /* the low octet of the number of groups */
    seal(l, path, message, length);

    read = pim_read_asserts(l->family, path, message, length, entries, sizeof entries);
    if (read.refusal.number == PIM_ACCEPTED)
        fail("the damaged message is not refused");
    if (memcmp(entries, untouched, sizeof entries) != 0)
        fail("the refusal changed lent memory");
    printf("damaged message: refused %u at %zu\n", (unsigned)read.refusal.number, read.refusal.place);
}

/* ---- the image's own report */

/* Every message of the train, which is of IPv4, and three octets of its first one, which are too few for a message. */
static void report(const message_train *train)
{
    pim_tally tally = pim_tally_none();
    pim_totals totals;
    pim_fraction mean;
    size_t i;

    for (i = 0; i < train->count; i++)
        tally = pim_tally_message(tally, train->octets[i], train->lengths[i]);
    tally = pim_tally_message(tally, train->octets[0], 3);
    totals = tally.accepted.aggregated;
    mean = pim_tally_mean(tally);
    printf("report: aggregated %" PRIu64 " messages, %" PRIu64 " records; mean %" PRIu64 "/%" PRIu64
           "; refused by 1: %" PRIu64 "\n",
           totals.messages, totals.records, mean.numerator, mean.denominator, tally.refused[PIM_BAD_LENGTH]);
}

static void run(const lab *l, message_train *train)
{
    uint8_t asserts[PIM_IPV6_ASSERT_ENTRY * ASSERTS];
    pim_table table;
    pim_counters counters = pim_counters_none();

    printf("%s\n", l->name);
    hear_all(l, &table, &counters);
    make_asserts(l, asserts);
    pack(l, asserts, train, &counters);
    check_train(l, asserts, train, &counters);
    print_counters(&counters);
    keep(l, asserts, &table);
    show_refusal(l, train);
}

int main(void)
{
    message_train train;

    run(&ipv4, &train);
    report(&train);
    run(&ipv6, &train);
    merge();

    if (fflush(stdout) != 0 || ferror(stdout))
        fail("the output cannot be written");
    return EXIT_SUCCESS;
}
