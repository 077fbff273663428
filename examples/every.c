/* Every function of include/pim.h is called, and each answer compared with what the rule book says it is: the expected
 * octets and numbers are worked out by hand, none is copied from an output. Sizes, offsets and constants are asserted
 * when this file is compiled.
 *
 * In order: layout; constants; the most entries of a message; addresses; messages read; the field at fault; messages
 * written; neighbours and election; counters; the report of a file; Pop-Count attributes; the stored sheet; the
 * checksum; addresses that are no sources, in all of these; lent memory (NULL, the same memory twice, any alignment);
 * all of these are of IPv4, or of no family. Then IPv6: messages read and written, the field at fault, neighbours and
 * election, the sheet, the checksum. Last the other family, and none.
 *
 * Build and run it from the top of the repository, as C99 or as C++ (.ci/face does both):
 *
 *     cc -std=c99 -Wall -Wextra -Iinclude examples/every.c target/staticlib/libpim.a -o target/every
 *     target/every
 *
 * It prints how many calls it made. At the first answer that is not the expected one it says which, and the exit status
 * is 1.
 */
#include "pim.h"

#include <stdio.h>
#include <stdlib.h>
#include <string.h>

/* ---- layout */

#define JOINED(a, b) a##b
#define NAMED(a, b) JOINED(a, b)
#define HOLDS(condition) typedef char NAMED(holds_, __LINE__)[(condition) ? 1 : -1]
#define FIELD(type, field, at, size) HOLDS(offsetof(type, field) == (at) && sizeof(((type *)0)->field) == (size))

/* Whoever changes a size, an offset, a constant or a place that is asserted here raises the version. */
HOLDS(PIM_VERSION == 9);

HOLDS(sizeof(size_t) == 8);
HOLDS(sizeof(bool) == 1);

HOLDS(sizeof(pim_address) == 16);
FIELD(pim_address, high, 0, 8);
FIELD(pim_address, low, 8, 8);

HOLDS(sizeof(pim_path) == 32);
FIELD(pim_path, source, 0, 16);
FIELD(pim_path, destination, 16, 16);

HOLDS(sizeof(pim_refusal) == 16);
FIELD(pim_refusal, number, 0, 1);
FIELD(pim_refusal, place, 8, 8);

HOLDS(sizeof(pim_length_answer) == 24);
FIELD(pim_length_answer, refusal, 0, 16);
FIELD(pim_length_answer, length, 16, 8);

HOLDS(sizeof(pim_header_answer) == 24);
FIELD(pim_header_answer, refusal, 0, 16);
FIELD(pim_header_answer, kind, 16, 1);

HOLDS(sizeof(pim_record_answer) == 72);
FIELD(pim_record_answer, refusal, 0, 16);
FIELD(pim_record_answer, next, 16, 8);
FIELD(pim_record_answer, group, 24, 16);
FIELD(pim_record_answer, source, 40, 16);
FIELD(pim_record_answer, r_preference, 56, 4);
FIELD(pim_record_answer, metric, 60, 4);
FIELD(pim_record_answer, is_pair, 64, 1);

HOLDS(sizeof(pim_read_answer) == 32);
FIELD(pim_read_answer, refusal, 0, 16);
FIELD(pim_read_answer, count, 16, 8);
FIELD(pim_read_answer, kind, 24, 1);

HOLDS(sizeof(pim_hello) == 12);
FIELD(pim_hello, holdtime, 0, 2);
FIELD(pim_hello, has_priority, 2, 1);
FIELD(pim_hello, priority, 4, 4);
FIELD(pim_hello, packing, 8, 1);

HOLDS(sizeof(pim_hello_answer) == 32);
FIELD(pim_hello_answer, refusal, 0, 16);
FIELD(pim_hello_answer, hello, 16, 12);

HOLDS(sizeof(pim_pack_answer) == 32);
FIELD(pim_pack_answer, refusal, 0, 16);
FIELD(pim_pack_answer, length, 16, 8);
FIELD(pim_pack_answer, taken, 24, 8);

HOLDS(sizeof(pim_choice_answer) == 40);
FIELD(pim_choice_answer, refusal, 0, 16);
FIELD(pim_choice_answer, length, 16, 8);
FIELD(pim_choice_answer, taken, 24, 8);
FIELD(pim_choice_answer, aggregated, 32, 1);

HOLDS(sizeof(pim_neighbour) == 24);
FIELD(pim_neighbour, address, 0, 16);
FIELD(pim_neighbour, priority, 16, 4);
FIELD(pim_neighbour, has_priority, 20, 1);
FIELD(pim_neighbour, packs, 21, 1);
FIELD(pim_neighbour, holdtime, 22, 2);

HOLDS(sizeof(pim_table) == 1544);
FIELD(pim_table, rows, 0, 1536);
FIELD(pim_table, count, 1536, 8);

HOLDS(sizeof(pim_table_answer) == 1568);
FIELD(pim_table_answer, refusal, 0, 16);
FIELD(pim_table_answer, table, 16, 1544);
FIELD(pim_table_answer, done, 1560, 1);

HOLDS(sizeof(pim_allowed_answer) == 24);
FIELD(pim_allowed_answer, refusal, 0, 16);
FIELD(pim_allowed_answer, allowed, 16, 1);

HOLDS(sizeof(pim_elect_answer) == 32);
FIELD(pim_elect_answer, refusal, 0, 16);
FIELD(pim_elect_answer, address, 16, 16);

HOLDS(sizeof(pim_totals) == 16);
FIELD(pim_totals, messages, 0, 8);
FIELD(pim_totals, records, 8, 8);

HOLDS(sizeof(pim_by_kind) == 96);
FIELD(pim_by_kind, hello, 16 * PIM_HELLO, 16);
FIELD(pim_by_kind, assert_, 16 * PIM_ASSERT, 16);
FIELD(pim_by_kind, simple, 16 * PIM_SIMPLE, 16);
FIELD(pim_by_kind, aggregated, 16 * PIM_AGGREGATED, 16);
FIELD(pim_by_kind, null_register, 16 * PIM_NULL_REGISTER, 16);
FIELD(pim_by_kind, register_stop, 16 * PIM_REGISTER_STOP, 16);

HOLDS(sizeof(pim_counters) == 192);
FIELD(pim_counters, sent, 0, 96);
FIELD(pim_counters, received, 96, 96);

HOLDS(sizeof(pim_tally) == 216);
FIELD(pim_tally, accepted, 0, 96);
FIELD(pim_tally, refused, 96, 120);

HOLDS(sizeof(pim_tally_answer) == 224);
FIELD(pim_tally_answer, tally, 0, 216);
FIELD(pim_tally_answer, used, 216, 8);

HOLDS(sizeof(pim_fraction) == 16);
FIELD(pim_fraction, numerator, 0, 8);
FIELD(pim_fraction, denominator, 8, 8);

HOLDS(sizeof(pim_report_answer) == 240);
FIELD(pim_report_answer, tally, 0, 216);
FIELD(pim_report_answer, mean, 216, 16);
FIELD(pim_report_answer, whole, 232, 1);

HOLDS(sizeof(pim_popcount_values) == 16);
FIELD(pim_popcount_values, transit, 0, 4);
FIELD(pim_popcount_values, stub, 4, 4);
FIELD(pim_popcount_values, minimum_speed, 8, 2);
FIELD(pim_popcount_values, maximum_speed, 10, 2);
FIELD(pim_popcount_values, domain, 12, 1);
FIELD(pim_popcount_values, node, 13, 1);
FIELD(pim_popcount_values, diameter, 14, 1);
FIELD(pim_popcount_values, time_zone, 15, 1);

HOLDS(sizeof(pim_popcount_attribute) == 24);
FIELD(pim_popcount_attribute, e, 0, 1);
FIELD(pim_popcount_attribute, mtu, 2, 2);
FIELD(pim_popcount_attribute, flags, 4, 2);
FIELD(pim_popcount_attribute, options, 6, 2);
FIELD(pim_popcount_attribute, values, 8, 16);

HOLDS(sizeof(pim_popcount_read_answer) == 48);
FIELD(pim_popcount_read_answer, refusal, 0, 16);
FIELD(pim_popcount_read_answer, next, 16, 8);
FIELD(pim_popcount_read_answer, attribute, 24, 24);

HOLDS(sizeof(pim_popcount_own) == 16);
FIELD(pim_popcount_own, mtu, 0, 2);
FIELD(pim_popcount_own, flags, 2, 2);
FIELD(pim_popcount_own, transit, 4, 4);
FIELD(pim_popcount_own, stub, 8, 4);
FIELD(pim_popcount_own, minimum_speed, 12, 2);
FIELD(pim_popcount_own, maximum_speed, 14, 2);

HOLDS(sizeof(pim_sheet_counts) == 24);
FIELD(pim_sheet_counts, asserts, 0, 8);
FIELD(pim_sheet_counts, pairs, 8, 8);
FIELD(pim_sheet_counts, neighbours, 16, 8);

HOLDS(sizeof(pim_check_answer) == 40);
FIELD(pim_check_answer, refusal, 0, 16);
FIELD(pim_check_answer, counts, 16, 24);

HOLDS(sizeof(pim_sheet_answer) == 1584);
FIELD(pim_sheet_answer, refusal, 0, 16);
FIELD(pim_sheet_answer, counts, 16, 24);
FIELD(pim_sheet_answer, table, 40, 1544);

/* ---- constants, each from the rule book's own words */

HOLDS(PIM_HEADER_SIZE == 4);
HOLDS(PIM_SHORTEST_MESSAGE == 4);
HOLDS(PIM_LONGEST_MESSAGE == 65515);
HOLDS(PIM_IPV4 == 1);
HOLDS(PIM_IPV6 == 2);
HOLDS(PIM_IPV4_ASSERT_ENTRY == 4 + 4 + 4 + 4 + 4);
HOLDS(PIM_IPV6_ASSERT_ENTRY == 4 + 16 + 16 + 4 + 4);
HOLDS(PIM_IPV4_PAIR_ENTRY == 4 + 4 + 4);
HOLDS(PIM_IPV6_PAIR_ENTRY == 4 + 16 + 16);
HOLDS(PIM_IPV4_LEAST_LIMIT == 8 + 12 + (8 + 4) + 6);
HOLDS(PIM_IPV6_LEAST_LIMIT == 8 + 12 + (20 + 4) + 18);
HOLDS(PIM_GREATEST_LIMIT == 65515);
HOLDS(PIM_USUAL_LIMIT == 576 - 20);
HOLDS(PIM_R_BIT == 0xffffffffu - 0x7fffffffu);
HOLDS(PIM_USUAL_HOLDTIME == 105);
HOLDS(PIM_LONGEST_HELLO == 4 + (2 + 2 + 2) + (2 + 2 + 4) + (2 + 2));
HOLDS(PIM_ROWS == 64);
HOLDS(PIM_NUMBERS == PIM_BAD_SHEET + 1);
HOLDS(PIM_LONGEST_LEFT == 2 + 0xffff - 1);
HOLDS(PIM_POPCOUNT_SHORTEST == 2 + 6);
HOLDS(PIM_POPCOUNT_LONGEST == 2 + 255);
HOLDS(PIM_POPCOUNT_MERGED == 2 + 6 + 4 + 4 + 2 + 2 + 1 + 1);
HOLDS(PIM_SHEET_HEADER == 2 + 2 + 3 * (4 + 4));
HOLDS(PIM_IPV4_SHEET_ROW == 4 + 4 + 4 + 1 + 1 + 2);
HOLDS(PIM_IPV6_SHEET_ROW == 4 + 16 + 4 + 1 + 1 + 2);
HOLDS(PIM_SHEET_ASSERTS == 8192);
HOLDS(PIM_SHEET_PAIRS == 8192);
HOLDS(PIM_IPV4_LONGEST_SHEET == 28 + 8192 * 20 + 8192 * 12 + 64 * 16);
HOLDS(PIM_IPV6_LONGEST_SHEET == 28 + 8192 * 44 + 8192 * 36 + 64 * 28);

/* S 1, A 2, t 4, a 8, P 16 */
HOLDS(PIM_POPCOUNT_FLAG_SSM == 1);
HOLDS(PIM_POPCOUNT_FLAG_ASM == 2);
HOLDS(PIM_POPCOUNT_FLAG_TUNNEL == 4);
HOLDS(PIM_POPCOUNT_FLAG_AUTO_TUNNEL == 8);
HOLDS(PIM_POPCOUNT_FLAG_CAPABLE == 16);

/* from the highest bit down */
HOLDS(PIM_POPCOUNT_TRANSIT == 1 << 15);
HOLDS(PIM_POPCOUNT_STUB == 1 << 14);
HOLDS(PIM_POPCOUNT_MINIMUM_SPEED == 1 << 13);
HOLDS(PIM_POPCOUNT_MAXIMUM_SPEED == 1 << 12);
HOLDS(PIM_POPCOUNT_DOMAIN == 1 << 11);
HOLDS(PIM_POPCOUNT_NODE == 1 << 10);
HOLDS(PIM_POPCOUNT_DIAMETER == 1 << 9);
HOLDS(PIM_POPCOUNT_TIME_ZONE == 1 << 8);

/* They are constant where n is. */
HOLDS(PIM_IPV4_MOST_ASSERTS(PIM_USUAL_LIMIT) == 87);
HOLDS(PIM_IPV4_MOST_PAIRS(PIM_USUAL_LIMIT) == 39);
HOLDS(PIM_IPV4_MOST_ASSERTS(1480) == 241);
HOLDS(PIM_IPV4_MOST_PAIRS(1480) == 105);
HOLDS(PIM_IPV6_MOST_ASSERTS(PIM_USUAL_LIMIT) == 28);
HOLDS(PIM_IPV6_MOST_PAIRS(PIM_USUAL_LIMIT) == 14);
HOLDS(PIM_IPV6_MOST_ASSERTS(1460) == 78);
HOLDS(PIM_IPV6_MOST_PAIRS(1460) == 38);

/* ---- what can go wrong */

static unsigned long calls;

#define CALLED(call) (calls++, (call))
#define EXPECT(condition) ((condition) ? (void)0 : fail(__LINE__, #condition))

static void fail(int line, const char *what)
{
    fflush(stdout);
    fprintf(stderr, "every: line %d: expected %s\n", line, what);
    exit(EXIT_FAILURE);
}

static bool refused(pim_refusal refusal, unsigned number, size_t place)
{
    return refusal.number == number && refusal.place == place;
}

/* The place of an accepted answer is 0. */
static bool accepted(pim_refusal refusal)
{
    return refused(refusal, PIM_ACCEPTED, 0);
}

/* What stands in memory before it is lent. */
enum { UNTOUCHED = 0x5a };

static bool untouched(const uint8_t *octets, size_t from, size_t to)
{
    size_t i;

    for (i = from; i < to; i++)
        if (octets[i] != UNTOUCHED)
            return false;
    return true;
}

/* The sum of octets in 16-bit words, in a wide number. */
static uint32_t sum_of(const uint8_t *o, size_t n)
{
    uint32_t sum = 0;
    size_t i;

    for (i = 0; i < n; i++)
        sum += i % 2 == 0 ? (uint32_t)o[i] << 8 : o[i];
    return sum;
}

/* Puts the checksum into a message, with the sum of what goes before it: a second one, by RFC 1071. */
static void seal_after(uint32_t sum, uint8_t *m, size_t n)
{
    m[2] = m[3] = 0;
    sum += sum_of(m, n);
    while (sum > 0xffff)
        sum = (sum >> 16) + (sum & 0xffff);
    m[2] = (uint8_t)(~sum >> 8);
    m[3] = (uint8_t)~sum;
}

/* Of IPv4. */
static void seal(uint8_t *m, size_t n)
{
    seal_after(0, m, n);
}

/* Addresses of IPv4, and whether one is it. */
static pim_address v4(uint32_t number)
{
    pim_address a;

    a.high = 0;
    a.low = number;
    return a;
}

static bool is(pim_address address, uint64_t high, uint64_t low)
{
    return address.high == high && address.low == low;
}

static bool is_v4(pim_address address, uint32_t number)
{
    return is(address, 0, number);
}

/* A path, which IPv4 ignores. */
static const pim_path any = {{0x0123456789abcdefu, 0xfedcba9876543210u}, {0xff02000000000000u, 0xd}};

/* ---- what several sections use */

/* The rule book's first example, and its one entry. */
static const uint8_t example[30] = {0x25, 0x01, 0xe5, 0x58, 0x00, 0x00, 0x00, 0x00, 0x01, 0x00,
                                    0x00, 0x20, 0xe8, 0x01, 0x01, 0x01, 0x01, 0x00, 0x0a, 0x00,
                                    0x00, 0x01, 0x00, 0x00, 0x00, 0x6e, 0x00, 0x00, 0x00, 0x14};
static const uint8_t example_entry[20] = {0x01, 0x00, 0x00, 0x00, 0xe8, 0x01, 0x01, 0x01, 0x0a, 0x00,
                                          0x00, 0x01, 0x00, 0x00, 0x00, 0x6e, 0x00, 0x00, 0x00, 0x14};

/* Group 232.1.1.1 and source 10.0.0.1 as a message has them. */
static const uint8_t pair_record[14] = {0x01, 0x00, 0x00, 0x20, 0xe8, 0x01, 0x01,
                                        0x01, 0x01, 0x00, 0x0a, 0x00, 0x00, 0x01};

/* ---- the most entries of a message */

enum { LONGEST = PIM_LONGEST_MESSAGE, NONE = -1000000 };

static int larger(int a, int b)
{
    return a > b ? a : b;
}

/* The octets of a group and of a source. */
typedef struct {
    int group, source;
} sizes;

static const sizes ipv4_sizes = {8, 6}, ipv6_sizes = {20, 18};

/* The most entries of what ends after n octets of an aggregated message, for every n: a group of a source aggregated
 * record (R word, metric, source, number; one or more groups); a group record without sources (group and number, one
 * entry); a source of a group record; whole aggregated records. An RP aggregated record has 12 octets before its one or
 * more group records. */
typedef struct {
    int group[LONGEST + 1], no_source[LONGEST + 1], source[LONGEST + 1], whole[LONGEST + 1];
} ends;

static int most_at(const int *most, int n)
{
    return n < 8 ? NONE : most[n];
}

/* The most entries of group records that end after n octets, so that another one may follow. */
static int group_records(const ends *e, int n)
{
    return larger(most_at(e->no_source, n), most_at(e->source, n));
}

/* Every way in which the octets before n can go on to n. */
static void end_at(ends *e, const sizes *z, int n)
{
    const int head = z->group + 4;

    e->group[n] = larger(most_at(e->whole, n - 8 - z->source - 4 - z->group), most_at(e->group, n - z->group)) + 1;
    e->no_source[n] = larger(most_at(e->whole, n - 12 - head), group_records(e, n - head)) + 1;
    e->source[n] = larger(larger(most_at(e->whole, n - 12 - head - z->source), group_records(e, n - head - z->source)),
                          most_at(e->source, n - z->source)) +
                   1;
    e->whole[n] = n == 8 ? 0 : larger(e->group[n], group_records(e, n));
}

/* Both macros of a family for every n: the most of all messages of up to n octets. A plain assert has 4 octets and a
 * record, a simple message 8 and records, one of pairs 4 and pairs. */
static void most_entries(const sizes *z)
{
    static ends e;
    const int pair = z->group + z->source, record = pair + 8;
    const bool is_ipv4 = z == &ipv4_sizes;
    int asserts = 0, pairs = 0, n;

    for (n = 0; n < LONGEST + 100; n++) {
        if (n >= 8 && n <= LONGEST)
            end_at(&e, z, n);
        if (n == 4 + record)
            asserts = larger(asserts, 1);
        if (n >= 8 + record && n <= LONGEST && (n - 8) % record == 0)
            asserts = larger(asserts, (n - 8) / record);
        if (n > 8 && n <= LONGEST)
            asserts = larger(asserts, e.whole[n]);
        if (n >= 4 + pair && n <= LONGEST && (n - 4) % pair == 0)
            pairs = (n - 4) / pair;
        EXPECT((is_ipv4 ? PIM_IPV4_MOST_ASSERTS(n) : PIM_IPV6_MOST_ASSERTS(n)) == asserts);
        EXPECT((is_ipv4 ? PIM_IPV4_MOST_PAIRS(n) : PIM_IPV6_MOST_PAIRS(n)) == pairs);
    }
}

static size_t put(uint8_t *m, size_t at, const void *octets, size_t n)
{
    memcpy(m + at, octets, n);
    return at + n;
}

/* A plain assert, two groups of one source, or k sources of one group: what gives k entries in the fewest octets. */
static size_t smallest(uint8_t *m, size_t k)
{
    static const uint8_t packed[8] = {0x25, 0x03, 0, 0, 0, 0, 0, 0};
    static const uint8_t rp[8] = {0x80, 0, 0, 0x6e, 0, 0, 0, 0x14};
    const uint8_t number[4] = {(uint8_t)(k >> 8), (uint8_t)k, 0, 0}, one[4] = {0, 1, 0, 0};
    size_t n, i;

    if (k == 1) {
        memcpy(m, example, 4);
        m[1] = 0;
        n = put(m, 4, example + 8, 22);
    } else if (k == 2) {
        n = put(m, put(m, 0, packed, 8), example + 22, 8);
        n = put(m, put(m, n, example + 16, 6), number, 4);
        n = put(m, put(m, n, pair_record, 8), pair_record, 8);
    } else {
        n = put(m, put(m, put(m, 0, packed, 8), rp, 8), one, 4);
        n = put(m, put(m, n, pair_record, 8), number, 4);
        for (i = 0; i < k; i++)
            n = put(m, n, pair_record + 8, 6);
    }
    seal(m, n);
    return n;
}

/* A message attains each bound, and needs all of the room that the bound says. */
static void most_is_attained(void)
{
    static const size_t bounds[] = {26, 41, 42, 43, 49, 50, 55, 56, 62, PIM_USUAL_LIMIT, 1480, PIM_LONGEST_MESSAGE};
    static uint8_t m[PIM_LONGEST_MESSAGE], entries[PIM_IPV4_ASSERT_ENTRY * PIM_IPV4_MOST_ASSERTS(PIM_LONGEST_MESSAGE)];
    size_t i;

    for (i = 0; i < sizeof bounds / sizeof bounds[0]; i++) {
        size_t k = PIM_IPV4_MOST_ASSERTS(bounds[i]);
        size_t n = smallest(m, k);
        pim_read_answer read;

        EXPECT(n <= bounds[i] && PIM_IPV4_MOST_ASSERTS(n) == k && PIM_IPV4_MOST_ASSERTS(n - 1) == k - 1);
        read = CALLED(pim_read_asserts(PIM_IPV4, any, m, n, entries, PIM_IPV4_ASSERT_ENTRY * k));
        EXPECT(accepted(read.refusal) && read.count == k && read.kind == (k == 1 ? PIM_ASSERT : PIM_AGGREGATED));
        read = CALLED(pim_read_asserts(PIM_IPV4, any, m, n, entries, PIM_IPV4_ASSERT_ENTRY * k - 1));
        EXPECT(refused(read.refusal, PIM_NO_ROOM, 0));
    }
}

/* The most pairs of the longest message: 4,679. */
static void most_pairs_attained(void)
{
    enum { K = 4679, N = 4 + 14 * K };
    static uint8_t m[N], entries[PIM_IPV4_PAIR_ENTRY * K];
    size_t i;
    pim_read_answer read;

    EXPECT(PIM_IPV4_MOST_PAIRS(PIM_LONGEST_MESSAGE) == K && N <= PIM_LONGEST_MESSAGE);
    m[0] = 0x2d;
    m[1] = 0x10;
    for (i = 0; i < K; i++)
        put(m, 4 + 14 * i, pair_record, 14);
    seal(m, N);
    read = CALLED(pim_read_pairs(PIM_IPV4, any, m, N, entries, PIM_IPV4_PAIR_ENTRY * K));
    EXPECT(accepted(read.refusal) && read.count == K && read.kind == PIM_REGISTER_STOP);
    read = CALLED(pim_read_pairs(PIM_IPV4, any, m, N, entries, PIM_IPV4_PAIR_ENTRY * K - 1));
    EXPECT(refused(read.refusal, PIM_NO_ROOM, 0));
}

/* ---- messages read */

static void headers(void)
{
    uint8_t m[30];
    pim_header_answer header = CALLED(pim_header(PIM_IPV4, any, example, sizeof example));

    EXPECT(accepted(header.refusal) && header.kind == PIM_SIMPLE);
    EXPECT(CALLED(pim_body(PIM_IPV4, any, example, sizeof example)) == 26);

    memcpy(m, example, sizeof m);
    m[29] = 0x15;
    header = CALLED(pim_header(PIM_IPV4, any, m, sizeof m));
    EXPECT(refused(header.refusal, PIM_BAD_CHECKSUM, 0) && header.kind == 0);
    EXPECT(CALLED(pim_body(PIM_IPV4, any, m, sizeof m)) == 0);

    EXPECT(refused(CALLED(pim_header(PIM_IPV4, any, example, 3)).refusal, PIM_BAD_LENGTH, 0));
    m[0] = 0x15; /* version 1 */
    EXPECT(refused(CALLED(pim_header(PIM_IPV4, any, m, sizeof m)).refusal, PIM_BAD_VERSION, 0));
    m[0] = 0x23; /* Join/Prune */
    seal(m, sizeof m);
    EXPECT(refused(CALLED(pim_header(PIM_IPV4, any, m, sizeof m)).refusal, PIM_BAD_KIND, 0));
}

static void records(void)
{
    pim_record_answer r = CALLED(pim_read_record(PIM_IPV4, PIM_SIMPLE, example, sizeof example, 8));

    EXPECT(accepted(r.refusal) && r.next == 30 && !r.is_pair);
    EXPECT(is_v4(r.group, 0xe8010101) && is_v4(r.source, 0x0a000001) && r.r_preference == 110 && r.metric == 20);

    /* the same octets as a pair: 8 for the group, 6 for the source */
    r = CALLED(pim_read_record(PIM_IPV4, PIM_REGISTER_STOP, example, sizeof example, 8));
    EXPECT(accepted(r.refusal) && r.next == 22 && r.is_pair);
    EXPECT(is_v4(r.group, 0xe8010101) && is_v4(r.source, 0x0a000001) && r.r_preference == 0 && r.metric == 0);

    r = CALLED(pim_read_record(PIM_IPV4, PIM_AGGREGATED, example, sizeof example, 8));
    EXPECT(refused(r.refusal, PIM_BAD_KIND, 0) && r.next == 0 && is_v4(r.group, 0) && !r.is_pair);
    EXPECT(refused(CALLED(pim_read_record(PIM_IPV4, PIM_HELLO, example, sizeof example, 8)).refusal, PIM_BAD_KIND, 0));
    EXPECT(refused(CALLED(pim_read_record(PIM_IPV4, 6, example, sizeof example, 8)).refusal, PIM_BAD_KIND, 0));
    EXPECT(refused(CALLED(pim_read_record(PIM_IPV4, PIM_SIMPLE, example, sizeof example, 30)).refusal, PIM_CUT, 30));
    EXPECT(refused(CALLED(pim_read_record(PIM_IPV4, PIM_SIMPLE, example, sizeof example, SIZE_MAX)).refusal, PIM_CUT,
                   SIZE_MAX));
    /* 00 00 is no address form */
    EXPECT(
        refused(CALLED(pim_read_record(PIM_IPV4, PIM_SIMPLE, example, sizeof example, 9)).refusal, PIM_BAD_ADDRESS, 9));
}

static void asserts_read(void)
{
    uint8_t entries[24], m[30];
    pim_read_answer read;

    memset(entries, UNTOUCHED, sizeof entries);
    read = CALLED(pim_read_asserts(PIM_IPV4, any, example, sizeof example, entries, 19));
    EXPECT(refused(read.refusal, PIM_NO_ROOM, 0) && read.count == 0 && read.kind == 0);
    EXPECT(untouched(entries, 0, 24));
    read = CALLED(pim_read_asserts(PIM_IPV4, any, example, sizeof example, entries, sizeof entries));
    EXPECT(accepted(read.refusal) && read.count == 1 && read.kind == PIM_SIMPLE);
    EXPECT(memcmp(entries, example_entry, 20) == 0 && untouched(entries, 20, 24));

    memcpy(m, example, sizeof m);
    m[4] = 1; /* Zero */
    seal(m, sizeof m);
    EXPECT(refused(CALLED(pim_read_asserts(PIM_IPV4, any, m, sizeof m, entries, sizeof entries)).refusal, PIM_NO_RECORD,
                   4));
    m[4] = 0;
    seal(m, 8);
    EXPECT(refused(CALLED(pim_read_asserts(PIM_IPV4, any, m, 8, entries, sizeof entries)).refusal, PIM_NO_RECORD, 8));
    m[1] = 0; /* a plain assert, of which octets 4 to 11 are no group */
    seal(m, sizeof m);
    EXPECT(refused(CALLED(pim_read_asserts(PIM_IPV4, any, m, sizeof m, entries, sizeof entries)).refusal,
                   PIM_BAD_ADDRESS, 4));
    memmove(m + 4, m + 8, 22);
    seal(m, sizeof m);
    EXPECT(refused(CALLED(pim_read_asserts(PIM_IPV4, any, m, sizeof m, entries, sizeof entries)).refusal, PIM_CUT, 26));
}

static void pairs_read(void)
{
    uint8_t m[18] = {0x2d, 0x00}, entries[14];
    pim_read_answer read;

    put(m, 4, pair_record, 14);
    seal(m, sizeof m);
    memset(entries, UNTOUCHED, sizeof entries);
    read = CALLED(pim_read_pairs(PIM_IPV4, any, m, sizeof m, entries, 11));
    EXPECT(refused(read.refusal, PIM_NO_ROOM, 0) && untouched(entries, 0, 14));
    read = CALLED(pim_read_pairs(PIM_IPV4, any, m, sizeof m, entries, sizeof entries));
    EXPECT(accepted(read.refusal) && read.count == 1 && read.kind == PIM_NULL_REGISTER);
    EXPECT(memcmp(entries, example_entry, 12) == 0 && untouched(entries, 12, 14));

    EXPECT(refused(CALLED(pim_read_pairs(PIM_IPV4, any, example, sizeof example, entries, sizeof entries)).refusal,
                   PIM_BAD_KIND, 0));
    EXPECT(refused(CALLED(pim_read_asserts(PIM_IPV4, any, m, sizeof m, entries, sizeof entries)).refusal, PIM_BAD_KIND,
                   0));
    memset(m + 14, 0, 4); /* source 0: for a Register-Stop only */
    seal(m, sizeof m);
    EXPECT(refused(CALLED(pim_read_pairs(PIM_IPV4, any, m, sizeof m, entries, sizeof entries)).refusal, PIM_BAD_ADDRESS,
                   12));
    m[1] = 0x10;
    seal(m, sizeof m);
    read = CALLED(pim_read_pairs(PIM_IPV4, any, m, sizeof m, entries, sizeof entries));
    EXPECT(accepted(read.refusal) && read.count == 1 && read.kind == PIM_REGISTER_STOP);
    seal(m, 4);
    EXPECT(refused(CALLED(pim_read_pairs(PIM_IPV4, any, m, 4, entries, sizeof entries)).refusal, PIM_NO_RECORD, 4));
}

static void hellos(void)
{
    /* holdtime 210, DR priority 5, packed assert capability */
    uint8_t m[22] = {0x20, 0, 0, 0, 0, 1, 0, 2, 0, 210, 0, 19, 0, 4, 0, 0, 0, 5, 0, 40, 0, 0};
    pim_hello_answer h;

    seal(m, sizeof m);
    h = CALLED(pim_read_hello(PIM_IPV4, any, m, sizeof m));
    EXPECT(accepted(h.refusal) && h.hello.holdtime == 210 && h.hello.has_priority && h.hello.priority == 5 &&
           h.hello.packing);
    seal(m, 18); /* the first two options */
    h = CALLED(pim_read_hello(PIM_IPV4, any, m, 18));
    EXPECT(accepted(h.refusal) && h.hello.holdtime == 210 && h.hello.has_priority && h.hello.priority == 5 &&
           !h.hello.packing);
    seal(m, 4);
    h = CALLED(pim_read_hello(PIM_IPV4, any, m, 4));
    EXPECT(accepted(h.refusal) && h.hello.holdtime == PIM_USUAL_HOLDTIME && !h.hello.has_priority &&
           h.hello.priority == 0 && !h.hello.packing);
    m[11] = 1; /* holdtime again */
    seal(m, sizeof m);
    h = CALLED(pim_read_hello(PIM_IPV4, any, m, sizeof m));
    EXPECT(refused(h.refusal, PIM_BAD_OPTION, 10) && h.hello.holdtime == 0 && !h.hello.packing);
}

/* ---- the field at fault */

/* Reads the first n octets, with the checksum put in where they are a message. */
typedef pim_refusal reading(uint8_t *octets, size_t n);

static void refuses(reading *read, uint8_t *octets, size_t n, unsigned number, size_t place)
{
    char what[80];

    if (refused(read(octets, n), number, place))
        return;
    snprintf(what, sizeof what, "refusal %u at %lu, of %lu octets", number, (unsigned long)place, (unsigned long)n);
    fail(__LINE__, what);
}

/* Good octets, of which the first `from` to `to` are read: in each of these the field at `place` is missing or cut. */
typedef struct {
    size_t from, to, place;
} cut;

static void each_cut(const uint8_t *good, size_t size, const cut *cuts, size_t count, reading *read)
{
    uint8_t octets[90];
    size_t i, n;

    for (i = 0; i < count; i++)
        for (n = cuts[i].from; n <= cuts[i].to; n++) {
            memcpy(octets, good, size);
            refuses(read, octets, n, PIM_CUT, cuts[i].place);
        }
}

/* Good octets, of which `count` from number `at` on become `value` and the first n are read. */
typedef struct {
    size_t at, count;
    uint8_t value;
    size_t n;
    unsigned number;
    size_t place;
} fault;

static void each_fault(const uint8_t *good, size_t size, const fault *faults, size_t count, reading *read)
{
    uint8_t octets[90];
    size_t i;

    for (i = 0; i < count; i++) {
        const fault *f = &faults[i];

        memcpy(octets, good, size);
        memset(octets + f->at, f->value, f->count);
        refuses(read, octets, f->n, f->number, f->place);
    }
}

#define EACH(of, good, table, read) each_##of(good, sizeof good, table, sizeof table / sizeof table[0], read)

static pim_refusal read_asserts(uint8_t *m, size_t n)
{
    uint8_t entries[20];
    pim_read_answer read;

    memset(entries, UNTOUCHED, sizeof entries);
    seal(m, n);
    read = CALLED(pim_read_asserts(PIM_IPV4, any, m, n, entries, sizeof entries));
    EXPECT(read.count == 0 && read.kind == 0 && untouched(entries, 0, sizeof entries));
    return read.refusal;
}

static pim_refusal read_pairs(uint8_t *m, size_t n)
{
    uint8_t entries[12];
    pim_read_answer read;

    memset(entries, UNTOUCHED, sizeof entries);
    seal(m, n);
    read = CALLED(pim_read_pairs(PIM_IPV4, any, m, n, entries, sizeof entries));
    EXPECT(read.count == 0 && read.kind == 0 && untouched(entries, 0, sizeof entries));
    return read.refusal;
}

static pim_refusal read_hello(uint8_t *m, size_t n)
{
    seal(m, n);
    return CALLED(pim_read_hello(PIM_IPV4, any, m, n)).refusal;
}

static pim_refusal read_assert_record(uint8_t *octets, size_t n)
{
    return CALLED(pim_read_record(PIM_IPV4, PIM_ASSERT, octets, n, 3)).refusal;
}

static pim_refusal read_pair_record(uint8_t *octets, size_t n)
{
    return CALLED(pim_read_record(PIM_IPV4, PIM_NULL_REGISTER, octets, n, 3)).refusal;
}

/* Group, source, R word and metric at 4, 12, 18 and 22. */
static const uint8_t plain_record[26] = {0x25, 0,    0, 0, 1, 0, 0, 32, 0xe8, 1, 1, 1, 1,
                                         0,    0x0a, 0, 0, 1, 0, 0, 0,  0x6e, 0, 0, 0, 0x14};

static void plain_at_fault(void)
{
    static const cut cuts[] = {{4, 11, 4}, {12, 17, 12}, {18, 21, 18}, {22, 25, 22}};
    static const fault faults[] = {
        /* a group of another family, with another mask, and 223.1.1.1 */
        {4, 1, 2, 26, PIM_BAD_ADDRESS, 4},
        {7, 1, 24, 26, PIM_BAD_ADDRESS, 4},
        {8, 1, 223, 26, PIM_BAD_ADDRESS, 4},
        /* a source of another family, of another encoding, and of another family and cut */
        {12, 1, 2, 26, PIM_BAD_ADDRESS, 12},
        {13, 1, 1, 26, PIM_BAD_ADDRESS, 12},
        {12, 1, 2, 17, PIM_CUT, 12},
        /* source 0, R=0: whole, cut in the metric, without it, cut in the R word */
        {14, 4, 0, 26, PIM_BAD_ADDRESS, 12},
        {14, 4, 0, 25, PIM_BAD_ADDRESS, 12},
        {14, 4, 0, 22, PIM_BAD_ADDRESS, 12},
        {14, 4, 0, 21, PIM_CUT, 18},
        /* source 224.0.0.1: cut in the metric, cut in the R word, without it, cut itself */
        {14, 1, 224, 25, PIM_BAD_ADDRESS, 12},
        {14, 1, 224, 21, PIM_BAD_ADDRESS, 12},
        {14, 1, 224, 18, PIM_BAD_ADDRESS, 12},
        {14, 1, 224, 17, PIM_CUT, 12},
        /* source 255.255.255.255, R=1: cut in the R word, without it, cut itself */
        {14, 5, 255, 21, PIM_BAD_ADDRESS, 12},
        {14, 4, 255, 18, PIM_BAD_ADDRESS, 12},
        {14, 4, 255, 17, PIM_CUT, 12},
        /* sources 240.0.0.1 and 255.255.255.1, and the R word cut */
        {14, 1, 240, 21, PIM_CUT, 18},
        {14, 3, 255, 21, PIM_CUT, 18},
    };

    EACH(cut, plain_record, cuts, read_asserts);
    EACH(fault, plain_record, faults, read_asserts);
}

/* Zero and Reserved at 4 and 5; group, source, R word and metric at 8, 16, 22 and 26, and at 30, 38, 44 and 48. */
static const uint8_t simple_records[52] = {0x25, 1, 0, 0, 0, 0, 0, 0,    1,    0, 0, 32,   0xe8, 1, 1, 1,   1,    0,
                                           0x0a, 0, 0, 1, 0, 0, 0, 0x6e, 0,    0, 0, 0x14, 1,    0, 0, 32,  0xe8, 1,
                                           1,    2, 1, 0, 0, 0, 0, 0,    0x80, 0, 0, 0x6e, 0,    0, 0, 0x14};

static void simple_at_fault(void)
{
    static const cut cuts[] = {{4, 4, 4},    {5, 7, 5},    {9, 15, 8},   {16, 21, 16}, {22, 25, 22},
                               {26, 29, 26}, {31, 37, 30}, {38, 43, 38}, {44, 47, 44}, {48, 51, 48}};
    static const fault faults[] = {
        /* in the second record, group and source of another encoding */
        {31, 1, 1, 52, PIM_BAD_ADDRESS, 30},
        {39, 1, 1, 52, PIM_BAD_ADDRESS, 38},
        /* R=0, where the source is 0: whole, cut in the metric, cut in the R word */
        {44, 1, 0, 52, PIM_BAD_ADDRESS, 38},
        {44, 1, 0, 51, PIM_BAD_ADDRESS, 38},
        {44, 1, 0, 47, PIM_CUT, 44},
        /* the first source 224.0.0.1, and the second record cut in its group, its source and its metric */
        {18, 1, 224, 31, PIM_BAD_ADDRESS, 16},
        {18, 1, 224, 43, PIM_BAD_ADDRESS, 16},
        {18, 1, 224, 51, PIM_BAD_ADDRESS, 16},
        /* the second source 239.0.0.0, with its R word cut, and cut itself */
        {40, 1, 239, 47, PIM_BAD_ADDRESS, 38},
        {40, 1, 239, 43, PIM_CUT, 38},
    };

    EACH(cut, simple_records, cuts, read_asserts);
    EACH(fault, simple_records, faults, read_asserts);
}

/* Zero and Reserved at 4 and 5. R word, metric, source, number and reserved of a source aggregated record at 8, 12, 16,
 * 22 and 24, its groups at 26 and 34. R word, metric, number and reserved of an RP aggregated record at 42, 46, 50 and
 * 52; group, number and reserved at 54, 62 and 64, sources at 66 and 72; group, number and reserved at 78, 86, 88. */
static const uint8_t aggregated_records[90] = {
    0x25, 3, 0, 0,    0, 0, 0,  0,    0, 0, 0, 0x6e, 0,    0,    0,  0x14, 1, 0, 0x0a, 0,    0, 1, 0,
    2,    0, 0, 1,    0, 0, 32, 0xe8, 1, 1, 1, 1,    0,    0,    32, 0xe8, 1, 1, 2,    0x80, 0, 0, 0x6e,
    0,    0, 0, 0x14, 0, 2, 0,  0,    1, 0, 0, 32,   0xe8, 1,    1,  3,    0, 2, 0,    0,    1, 0, 0x0a,
    0,    0, 1, 1,    0, 0, 0,  0,    0, 1, 0, 0,    32,   0xe8, 1,  1,    4, 0, 0,    0,    0};

static void aggregated_at_fault(void)
{
    static const cut cuts[] = {{4, 4, 4},    {5, 7, 5},    {9, 11, 8},   {12, 15, 12}, {16, 21, 16}, {22, 23, 22},
                               {24, 25, 24}, {26, 33, 26}, {34, 41, 34}, {43, 45, 42}, {46, 49, 46}, {50, 51, 50},
                               {52, 53, 52}, {54, 61, 54}, {62, 63, 62}, {64, 65, 64}, {66, 71, 66}, {72, 77, 72},
                               {78, 85, 78}, {86, 87, 86}, {88, 89, 88}};
    static const fault faults[] = {
        /* the source of another family, and 0; each group of another family; each source of another encoding */
        {16, 1, 2, 90, PIM_BAD_ADDRESS, 16},
        {18, 4, 0, 90, PIM_BAD_ADDRESS, 16},
        {26, 1, 2, 90, PIM_BAD_ADDRESS, 26},
        {34, 1, 2, 90, PIM_BAD_ADDRESS, 34},
        {54, 1, 2, 90, PIM_BAD_ADDRESS, 54},
        {67, 1, 1, 90, PIM_BAD_ADDRESS, 66},
        {73, 1, 1, 90, PIM_BAD_ADDRESS, 72},
        {78, 1, 2, 90, PIM_BAD_ADDRESS, 78},
        /* a number 0, also where the reserved octets after it are cut */
        {22, 2, 0, 90, PIM_CUT, 22},
        {22, 2, 0, 25, PIM_CUT, 22},
        {50, 2, 0, 90, PIM_CUT, 50},
        {50, 2, 0, 52, PIM_CUT, 50},
        /* one group, one group record and one source more than there are */
        {23, 1, 3, 42, PIM_CUT, 42},
        {51, 1, 3, 90, PIM_CUT, 90},
        {87, 1, 1, 90, PIM_CUT, 90},
        /* the source 224.0.0.1, with nothing after it, and cut itself */
        {18, 1, 224, 22, PIM_BAD_ADDRESS, 16},
        {18, 1, 224, 21, PIM_CUT, 16},
        /* the second source of a group record 255.255.255.255, with nothing after it, and cut itself */
        {74, 4, 255, 78, PIM_BAD_ADDRESS, 72},
        {74, 4, 255, 77, PIM_CUT, 72},
    };

    EACH(cut, aggregated_records, cuts, read_asserts);
    EACH(fault, aggregated_records, faults, read_asserts);
}

/* Group and source at 4 and 12, and at 18 and 26. */
static const uint8_t pair_records[32] = {0x2d, 0, 0, 0, 1, 0,  0,    32, 0xe8, 1, 1, 1, 1,    0, 0x0a, 0,
                                         0,    1, 1, 0, 0, 32, 0xe8, 1,  1,    2, 1, 0, 0x0a, 0, 0,    2};

static void pairs_at_fault(void)
{
    static const cut cuts[] = {{5, 11, 4}, {12, 17, 12}, {19, 25, 18}, {26, 31, 26}};
    static const fault faults[] = {
        /* in the second pair: the group of another family, and 240.1.1.2; the source of another family, 0, 0 and cut */
        {18, 1, 2, 32, PIM_BAD_ADDRESS, 18},
        {22, 1, 240, 32, PIM_BAD_ADDRESS, 18},
        {26, 1, 2, 32, PIM_BAD_ADDRESS, 26},
        {28, 4, 0, 32, PIM_BAD_ADDRESS, 26},
        {28, 4, 0, 31, PIM_CUT, 26},
        /* the first source 224.0.0.1, and the second pair cut; the second 255.255.255.255 and cut */
        {14, 1, 224, 18, PIM_BAD_ADDRESS, 12},
        {14, 1, 224, 31, PIM_BAD_ADDRESS, 12},
        {28, 4, 255, 31, PIM_CUT, 26},
    };

    EACH(cut, pair_records, cuts, read_pairs);
    EACH(fault, pair_records, faults, read_pairs);
}

static void hellos_at_fault(void)
{
    /* type, length and value of holdtime at 4, 6 and 8, of the priority at 10, 12 and 14, of an unknown option at 18,
     * 20 and 22; type and length of the packed assert capability at 25 and 27 */
    static const uint8_t m[29] = {0x20, 0, 0, 0, 0,  1, 0, 2, 0, 210, 0, 19, 0, 4, 0,
                                  0,    0, 5, 0, 20, 0, 3, 7, 8, 9,   0, 40, 0, 0};
    static const cut cuts[] = {{5, 5, 4},    {6, 7, 6},    {8, 9, 8},    {11, 11, 10}, {12, 13, 12}, {14, 17, 14},
                               {19, 19, 18}, {20, 21, 20}, {22, 24, 22}, {26, 26, 25}, {27, 28, 27}};
    static const fault faults[] = {
        /* a value longer than the message */
        {20, 2, 255, 29, PIM_CUT, 22},
        /* another length is found at the option, before the value */
        {7, 1, 3, 8, PIM_BAD_OPTION, 4},
        {13, 1, 5, 29, PIM_BAD_OPTION, 10},
        {28, 1, 1, 29, PIM_BAD_OPTION, 25},
    };

    EACH(cut, m, cuts, read_hello);
    EACH(fault, m, faults, read_hello);
}

/* Records read singly, at 3. */
static void records_at_fault(void)
{
    /* group, source, R word and metric at 3, 11, 17 and 21; the first two are a pair */
    static const uint8_t o[25] = {9,    9, 9, 1, 0, 0, 32, 0xe8, 1, 1, 1, 1,   0,
                                  0x0a, 0, 0, 1, 0, 0, 0,  0x6e, 0, 0, 0, 0x14};
    static const cut cuts[] = {{0, 10, 3}, {11, 16, 11}}, assert_cuts[] = {{17, 20, 17}, {21, 24, 21}};
    static const fault faults[] = {
        /* the group of another family, the source of another encoding, and 0 */
        {3, 1, 2, 25, PIM_BAD_ADDRESS, 3},
        {12, 1, 1, 25, PIM_BAD_ADDRESS, 11},
        {13, 4, 0, 25, PIM_BAD_ADDRESS, 11},
        /* 224.0.0.1 with nothing after it, and cut */
        {13, 1, 224, 17, PIM_BAD_ADDRESS, 11},
        {13, 1, 224, 16, PIM_CUT, 11},
    };
    static const fault assert_faults[] = {
        /* source 0, R=0: without the metric, cut in the R word */
        {13, 4, 0, 21, PIM_BAD_ADDRESS, 11},
        {13, 4, 0, 20, PIM_CUT, 17},
        /* source 255.255.255.255, and the R word cut */
        {13, 4, 255, 20, PIM_BAD_ADDRESS, 11},
    };

    EACH(cut, o, cuts, read_pair_record);
    EACH(fault, o, faults, read_pair_record);
    EACH(cut, o, cuts, read_assert_record);
    EACH(fault, o, faults, read_assert_record);
    EACH(cut, o, assert_cuts, read_assert_record);
    EACH(fault, o, assert_faults, read_assert_record);
}

/* ---- messages written */

/* What a Hello says, and its octets. */
typedef struct {
    pim_hello said;
    size_t length;
    uint8_t octets[PIM_LONGEST_HELLO];
} written_hello;

/* Each shape, then numbers at the edges of their fields. The checksum is the sum of the words, its own as 0, each carry
 * added back, taken from ffff; the comments have the sum. */
static const written_hello written_hellos[] = {
    /* 2000 + 1 + 2 + 69 = 206c */
    {{105, false, 0, false}, 10, {0x20, 0, 0xdf, 0x93, 0, 1, 0, 2, 0, 105}},
    /* 206c + 28 = 2094 */
    {{105, false, 0, true}, 14, {0x20, 0, 0xdf, 0x6b, 0, 1, 0, 2, 0, 105, 0, 40, 0, 0}},
    /* 206c + 13 + 4 + 5 = 2088 */
    {{105, true, 5, false}, 18, {0x20, 0, 0xdf, 0x77, 0, 1, 0, 2, 0, 105, 0, 19, 0, 4, 0, 0, 0, 5}},
    /* 2088 + 28 = 20b0 */
    {{105, true, 5, true}, 22, {0x20, 0, 0xdf, 0x4f, 0, 1, 0, 2, 0, 105, 0, 19, 0, 4, 0, 0, 0, 5, 0, 40, 0, 0}},
    /* a priority that the router does not have is not looked at: 2000 + 1 + 2 = 2003 */
    {{0, false, 7, false}, 10, {0x20, 0, 0xdf, 0xfc, 0, 1, 0, 2, 0, 0}},
    /* priority 0 is one: 2003 + 13 + 4 + 28 = 2042 */
    {{0, true, 0, true}, 22, {0x20, 0, 0xdf, 0xbd, 0, 1, 0, 2, 0, 0, 0, 19, 0, 4, 0, 0, 0, 0, 0, 40, 0, 0}},
    /* each ffff takes 1 and carries 1: 2042 again */
    {{0xffff, true, 0xffffffff, true}, 22, {0x20, 0, 0xdf, 0xbd, 0,    1,    0,    2, 0xff, 0xff, 0,
                                            19,   0, 4,    0xff, 0xff, 0xff, 0xff, 0, 40,   0,    0}},
    /* 2003 + dffc = ffff */
    {{0xdffc, false, 0, false}, 10, {0x20, 0, 0, 0, 0, 1, 0, 2, 0xdf, 0xfc}},
    /* all at once 1ffff, of which adding the carry makes another carry: 1 */
    {{0xffff, true, 0xdfe6, false}, 18, {0x20, 0, 0xff, 0xfe, 0, 1, 0, 2, 0xff, 0xff, 0, 19, 0, 4, 0, 0, 0xdf, 0xe6}},
};

static bool reads_as(const uint8_t *m, size_t n, pim_hello said)
{
    pim_hello_answer h = CALLED(pim_read_hello(PIM_IPV4, any, m, n));

    return accepted(h.refusal) && h.hello.holdtime == said.holdtime && h.hello.has_priority == said.has_priority &&
           h.hello.priority == (said.has_priority ? said.priority : 0) && h.hello.packing == said.packing;
}

/* One octet too few, exactly enough, and more than enough. */
static void hellos_written(void)
{
    uint8_t buffer[PIM_LONGEST_HELLO + 8];
    size_t i;

    for (i = 0; i < sizeof written_hellos / sizeof written_hellos[0]; i++) {
        const written_hello *w = &written_hellos[i];
        pim_length_answer l;

        memset(buffer, UNTOUCHED, sizeof buffer);
        l = CALLED(pim_write_hello(PIM_IPV4, any, w->said, buffer, w->length - 1));
        EXPECT(refused(l.refusal, PIM_NO_ROOM, 0) && l.length == 0 && untouched(buffer, 0, sizeof buffer));
        l = CALLED(pim_write_hello(PIM_IPV4, any, w->said, buffer, w->length));
        EXPECT(accepted(l.refusal) && l.length == w->length && memcmp(buffer, w->octets, l.length) == 0);
        EXPECT(untouched(buffer, l.length, sizeof buffer) && reads_as(buffer, l.length, w->said));
        memset(buffer, UNTOUCHED, sizeof buffer);
        l = CALLED(pim_write_hello(PIM_IPV4, any, w->said, buffer, sizeof buffer));
        EXPECT(accepted(l.refusal) && l.length == w->length && memcmp(buffer, w->octets, l.length) == 0);
        EXPECT(untouched(buffer, l.length, sizeof buffer));
    }
}

/* Entries for the packing calls: the example's, with other groups. */
static void make_entries(uint8_t *entries, size_t count)
{
    size_t i;

    for (i = 0; i < count; i++) {
        memcpy(entries + PIM_IPV4_ASSERT_ENTRY * i, example_entry, PIM_IPV4_ASSERT_ENTRY);
        entries[PIM_IPV4_ASSERT_ENTRY * i + 7] = (uint8_t)(i + 1);
    }
}

static bool packed(pim_pack_answer p, size_t length, size_t taken)
{
    return accepted(p.refusal) && p.length == length && p.taken == taken;
}

/* A plain assert, and the rule book's first example from its entry. */
static void plain_and_simple(void)
{
    uint8_t entries[67 * PIM_IPV4_ASSERT_ENTRY], buffer[1480], plain[26] = {0x25};
    pim_pack_answer p;

    make_entries(entries, 67);
    put(plain, 4, example + 8, 22);
    seal(plain, sizeof plain);
    memset(buffer, UNTOUCHED, sizeof buffer);
    p = CALLED(pim_pack_assert(PIM_IPV4, any, entries, sizeof entries, 0, PIM_IPV4_LEAST_LIMIT, buffer, sizeof buffer));
    EXPECT(packed(p, 26, 1) && memcmp(buffer, plain, 26) == 0 && untouched(buffer, 26, sizeof buffer));

    p = CALLED(
        pim_pack_simple(PIM_IPV4, any, entries, PIM_IPV4_ASSERT_ENTRY, 0, PIM_IPV4_LEAST_LIMIT, buffer, sizeof buffer));
    EXPECT(packed(p, 30, 1) && memcmp(buffer, example, 30) == 0 && untouched(buffer, 30, sizeof buffer));
    /* limit 1,480, 67 entries left: 66 taken, 1,460 octets; 66 left: the same */
    p = CALLED(pim_pack_simple(PIM_IPV4, any, entries, sizeof entries, 0, 1480, buffer, sizeof buffer));
    EXPECT(packed(p, 1460, 66) && CALLED(pim_checksum_holds(buffer, 1460)) && untouched(buffer, 1460, sizeof buffer));
    p = CALLED(pim_pack_simple(PIM_IPV4, any, entries, sizeof entries, 1, 1480, buffer, sizeof buffer));
    EXPECT(packed(p, 1460, 66));
    p = CALLED(pim_pack_simple(PIM_IPV4, any, entries, sizeof entries, 67, 0, buffer, sizeof buffer));
    EXPECT(packed(p, 0, 0));
}

/* Limit 0 is the usual one, and the buffer needs room for that: of 22 octets each, after 8, 24 entries fit. */
static void limit_0(void)
{
    uint8_t entries[67 * PIM_IPV4_ASSERT_ENTRY], buffer[PIM_USUAL_LIMIT], named[PIM_USUAL_LIMIT];
    pim_pack_answer p;

    make_entries(entries, 67);
    memset(buffer, UNTOUCHED, sizeof buffer);
    memset(named, UNTOUCHED, sizeof named);
    p = CALLED(pim_pack_simple(PIM_IPV4, any, entries, sizeof entries, 0, 0, buffer, 555));
    EXPECT(refused(p.refusal, PIM_NO_ROOM, 0) && untouched(buffer, 0, sizeof buffer));
    p = CALLED(pim_pack_simple(PIM_IPV4, any, entries, sizeof entries, 0, 0, buffer, 556));
    EXPECT(packed(p, 536, 24) && CALLED(pim_checksum_holds(buffer, 536)) && untouched(buffer, 536, sizeof buffer));
    p = CALLED(pim_pack_simple(PIM_IPV4, any, entries, sizeof entries, 0, PIM_USUAL_LIMIT, named, sizeof named));
    EXPECT(packed(p, 536, 24) && memcmp(buffer, named, sizeof named) == 0);
}

/* Three R=0 entries, one source and metric: 50 octets at limit 50; at 49, messages of 42 and 34. */
static void source_aggregated(void)
{
    static const uint8_t head[26] = {0x25, 0x03, 0,    0, 0, 0,    0, 0, 0, 0, 0, 0x6e, 0,
                                     0,    0,    0x14, 1, 0, 0x0a, 0, 0, 1, 0, 3, 0,    0};
    uint8_t entries[3 * PIM_IPV4_ASSERT_ENTRY], buffer[52], m[50];
    pim_pack_answer p;
    size_t i;

    make_entries(entries, 3);
    put(m, 0, head, sizeof head);
    for (i = 0; i < 3; i++) {
        put(m, 26 + 8 * i, pair_record, 8);
        m[26 + 8 * i + 7] = (uint8_t)(i + 1);
    }
    seal(m, sizeof m);
    memset(buffer, UNTOUCHED, sizeof buffer);
    p = CALLED(pim_pack_aggregated(PIM_IPV4, any, entries, sizeof entries, 0, 50, buffer, sizeof buffer));
    EXPECT(packed(p, 50, 3) && memcmp(buffer, m, 50) == 0 && untouched(buffer, 50, 52));
    p = CALLED(pim_pack_aggregated(PIM_IPV4, any, entries, sizeof entries, 0, 49, buffer, sizeof buffer));
    EXPECT(packed(p, 42, 2));
    p = CALLED(pim_pack_aggregated(PIM_IPV4, any, entries, sizeof entries, 2, 49, buffer, sizeof buffer));
    EXPECT(packed(p, 34, 1));
}

/* One R=1 entry, source 0: 32 octets; other source: 38. Two, one group, both source 0: one group record, p=2, 44
 * octets. */
static void rp_aggregated(void)
{
    uint8_t entries[2 * PIM_IPV4_ASSERT_ENTRY], buffer[44];
    pim_pack_answer p;

    make_entries(entries, 2);
    entries[12] = entries[32] = 0x80;
    p = CALLED(pim_pack_aggregated(PIM_IPV4, any, entries, PIM_IPV4_ASSERT_ENTRY, 0, PIM_IPV4_LEAST_LIMIT, buffer,
                                   sizeof buffer));
    EXPECT(packed(p, 38, 1) && buffer[8] == 0x80 && buffer[29] == 1);
    entries[27] = entries[7]; /* one group, and no source */
    memset(entries + 8, 0, 4);
    memset(entries + 28, 0, 4);
    p = CALLED(pim_pack_aggregated(PIM_IPV4, any, entries, PIM_IPV4_ASSERT_ENTRY, 0, PIM_IPV4_LEAST_LIMIT, buffer,
                                   sizeof buffer));
    EXPECT(packed(p, 32, 1) && buffer[29] == 0);
    p = CALLED(pim_pack_aggregated(PIM_IPV4, any, entries, sizeof entries, 0, 44, buffer, sizeof buffer));
    EXPECT(packed(p, 44, 2) && buffer[17] == 1 && buffer[29] == 2);
}

static void pairs_packed(void)
{
    uint8_t entries[2 * PIM_IPV4_PAIR_ENTRY], buffer[40], m[32] = {0x2d};
    pim_pack_answer p;

    put(entries, put(entries, 0, example_entry, 12), example_entry, 12);
    put(m, put(m, 4, pair_record, 14), pair_record, 14);
    seal(m, sizeof m);
    memset(buffer, UNTOUCHED, sizeof buffer);
    p = CALLED(pim_pack_null_register(PIM_IPV4, any, entries, sizeof entries, 0, 40, buffer, sizeof buffer));
    EXPECT(packed(p, 32, 2) && memcmp(buffer, m, 32) == 0 && untouched(buffer, 32, 40));

    memset(entries + 20, 0, 4); /* source 0 in the second: for a Register-Stop only */
    p = CALLED(pim_pack_null_register(PIM_IPV4, any, entries, sizeof entries, 0, 40, buffer, sizeof buffer));
    EXPECT(refused(p.refusal, PIM_BAD_ADDRESS, 1) && p.length == 0 && p.taken == 0 && memcmp(buffer, m, 32) == 0);
    m[1] = 0x10;
    memset(m + 28, 0, 4);
    seal(m, sizeof m);
    p = CALLED(pim_pack_register_stop(PIM_IPV4, any, entries, sizeof entries, 0, 40, buffer, sizeof buffer));
    EXPECT(packed(p, 32, 2) && memcmp(buffer, m, 32) == 0 && untouched(buffer, 32, 40));
}

/* 9, 8, 10, then 7: each call has the faults of those after it too. */
static void packing_refuses(void)
{
    uint8_t entries[2 * PIM_IPV4_ASSERT_ENTRY], buffer[PIM_IPV4_LEAST_LIMIT];

    make_entries(entries, 2);
    entries[24] = 10; /* no group */
    memset(buffer, UNTOUCHED, sizeof buffer);
    EXPECT(
        refused(CALLED(pim_pack_aggregated(PIM_IPV4, any, entries, 39, 0, 37, buffer, 37)).refusal, PIM_BAD_LIMIT, 0));
    EXPECT(refused(CALLED(pim_pack_aggregated(PIM_IPV4, any, entries, 39, 0, 65516, buffer, 37)).refusal, PIM_BAD_LIMIT,
                   0));
    EXPECT(refused(CALLED(pim_pack_aggregated(PIM_IPV4, any, entries, 39, 0, 38, buffer, 37)).refusal, PIM_NO_ROOM, 0));
    EXPECT(
        refused(CALLED(pim_pack_aggregated(PIM_IPV4, any, entries, 39, 0, 38, buffer, 38)).refusal, PIM_BAD_LIST, 0));
    EXPECT(
        refused(CALLED(pim_pack_aggregated(PIM_IPV4, any, entries, 40, 3, 38, buffer, 38)).refusal, PIM_BAD_LIST, 0));
    /* also of an entry that the message would not take */
    EXPECT(refused(CALLED(pim_pack_assert(PIM_IPV4, any, entries, 40, 0, 38, buffer, 38)).refusal, PIM_BAD_ADDRESS, 1));
    EXPECT(untouched(buffer, 0, sizeof buffer));
}

/* Two R=0 entries of one source: 52 octets as simple, 42 as aggregated. */
static void choices(void)
{
    uint8_t entries[2 * PIM_IPV4_ASSERT_ENTRY], simple[60], aggregated[60];
    pim_choice_answer c;

    make_entries(entries, 2);
    memset(simple, UNTOUCHED, sizeof simple);
    memset(aggregated, UNTOUCHED, sizeof aggregated);
    c = CALLED(pim_pack_both(PIM_IPV4, any, entries, 40, 0, 60, simple, 60, aggregated, 59));
    EXPECT(refused(c.refusal, PIM_NO_ROOM, 0) && c.length == 0 && c.taken == 0 && !c.aggregated);
    c = CALLED(pim_pack_both(PIM_IPV4, any, entries, 40, 0, 60, simple, 59, aggregated, 60));
    EXPECT(refused(c.refusal, PIM_NO_ROOM, 0));
    EXPECT(refused(CALLED(pim_pack_both(PIM_IPV4, any, entries, 40, 0, 37, simple, 60, aggregated, 60)).refusal,
                   PIM_BAD_LIMIT, 0));
    EXPECT(refused(CALLED(pim_pack_both(PIM_IPV4, any, entries, 39, 0, 60, simple, 60, aggregated, 60)).refusal,
                   PIM_BAD_LIST, 0));
    entries[24] = 10; /* no group */
    EXPECT(refused(CALLED(pim_pack_both(PIM_IPV4, any, entries, 40, 0, 60, simple, 60, aggregated, 60)).refusal,
                   PIM_BAD_ADDRESS, 1));
    entries[24] = 0xe8;
    c = CALLED(pim_pack_both(PIM_IPV4, any, entries, 40, 2, 60, simple, 60, aggregated, 60));
    EXPECT(accepted(c.refusal) && c.length == 0 && c.taken == 0 && !c.aggregated);
    EXPECT(untouched(simple, 0, 60) && untouched(aggregated, 0, 60));

    /* both take two, and the shorter is chosen; the other one is written too */
    c = CALLED(pim_pack_both(PIM_IPV4, any, entries, 40, 0, 60, simple, 60, aggregated, 60));
    EXPECT(accepted(c.refusal) && c.length == 42 && c.taken == 2 && c.aggregated);
    EXPECT(CALLED(pim_checksum_holds(aggregated, 42)) && untouched(aggregated, 42, 60));
    EXPECT(CALLED(pim_checksum_holds(simple, 52)) && untouched(simple, 52, 60));
    /* one entry: 30 octets as simple, 34 as aggregated */
    c = CALLED(pim_pack_both(PIM_IPV4, any, entries, 20, 0, 60, simple, 60, aggregated, 60));
    EXPECT(accepted(c.refusal) && c.length == 30 && c.taken == 1 && !c.aggregated && memcmp(simple, example, 30) == 0);
}

/* ---- neighbours and election */

static const pim_hello five = {105, true, 5, true};

static bool row_is(pim_neighbour row, uint32_t address, const pim_hello *said)
{
    return is_v4(row.address, address) && row.priority == said->priority && row.has_priority == said->has_priority &&
           row.packs == said->packing && row.holdtime == said->holdtime;
}

/* The rows from number `from` on are all 0. */
static bool unused(const pim_table *table, size_t from)
{
    static const pim_hello nothing = {0, false, 0, false};
    size_t i;

    for (i = from; i < PIM_ROWS; i++)
        if (!row_is(table->rows[i], 0, &nothing))
            return false;
    return true;
}

static void hearing(void)
{
    const pim_hello nine = {210, true, 9, false}, gone = {0, true, 9, false};
    pim_table table = CALLED(pim_table_empty());
    pim_table_answer t;

    EXPECT(table.count == 0 && unused(&table, 0));
    t = CALLED(pim_hear(PIM_IPV4, table, v4(0x0a000002), five));
    EXPECT(accepted(t.refusal) && t.done == PIM_ADDED && t.table.count == 1);
    t = CALLED(pim_hear(PIM_IPV4, t.table, v4(0x0a000003), five));
    EXPECT(accepted(t.refusal) && t.done == PIM_ADDED && t.table.count == 2);
    t = CALLED(pim_hear(PIM_IPV4, t.table, v4(0x0a000003), nine));
    EXPECT(accepted(t.refusal) && t.done == PIM_REPLACED && t.table.count == 2 && unused(&t.table, 2));
    EXPECT(row_is(t.table.rows[0], 0x0a000002, &five) && row_is(t.table.rows[1], 0x0a000003, &nine));
    EXPECT(!CALLED(pim_packing_allowed(PIM_IPV4, t.table)).allowed);

    t = CALLED(pim_hear(PIM_IPV4, t.table, v4(0x0a000004), gone));
    EXPECT(refused(t.refusal, PIM_ABSENT, 0) && t.done == PIM_NOTHING_DONE && t.table.count == 2);
    t = CALLED(pim_hear(PIM_IPV4, t.table, v4(0), five));
    EXPECT(refused(t.refusal, PIM_BAD_ADDRESS, 0) && t.done == PIM_NOTHING_DONE);
    EXPECT(row_is(t.table.rows[0], 0x0a000002, &five) && row_is(t.table.rows[1], 0x0a000003, &nine));
    t = CALLED(pim_forget(PIM_IPV4, t.table, v4(0x0a000002))); /* the row after it moves up */
    EXPECT(accepted(t.refusal) && t.done == PIM_FORGOTTEN && t.table.count == 1 && unused(&t.table, 1));
    EXPECT(row_is(t.table.rows[0], 0x0a000003, &nine));
    EXPECT(refused(CALLED(pim_forget(PIM_IPV4, t.table, v4(0x0a000002))).refusal, PIM_ABSENT, 0));
    t = CALLED(pim_hear(PIM_IPV4, t.table, v4(0x0a000003), gone));
    EXPECT(accepted(t.refusal) && t.done == PIM_FORGOTTEN && t.table.count == 0 && unused(&t.table, 0));
}

/* 64 rows, and no 65th before one of them is forgotten. */
static void full_tables(void)
{
    const pim_hello nine = {210, true, 9, true};
    pim_table_answer t;
    uint32_t i;

    t.table = CALLED(pim_table_empty());
    for (i = 1; i <= 64; i++) {
        t = CALLED(pim_hear(PIM_IPV4, t.table, v4(i), five));
        EXPECT(accepted(t.refusal) && t.done == PIM_ADDED && t.table.count == i && unused(&t.table, i));
    }
    t = CALLED(pim_hear(PIM_IPV4, t.table, v4(65), five));
    EXPECT(refused(t.refusal, PIM_TABLE_FULL, 0) && t.done == PIM_NOTHING_DONE && t.table.count == 64);
    for (i = 1; i <= 64; i++)
        EXPECT(row_is(t.table.rows[i - 1], i, &five));
    EXPECT(CALLED(pim_packing_allowed(PIM_IPV4, t.table)).allowed);
    EXPECT(is_v4(CALLED(pim_elect(PIM_IPV4, t.table, v4(65), 4)).address, 64));

    t = CALLED(pim_hear(PIM_IPV4, t.table, v4(64), nine)); /* the last row is replaced */
    EXPECT(accepted(t.refusal) && t.done == PIM_REPLACED && t.table.count == 64);
    t = CALLED(pim_forget(PIM_IPV4, t.table, v4(17)));
    EXPECT(accepted(t.refusal) && t.done == PIM_FORGOTTEN && t.table.count == 63 && unused(&t.table, 63));
    EXPECT(row_is(t.table.rows[15], 16, &five) && row_is(t.table.rows[16], 18, &five));
    EXPECT(row_is(t.table.rows[62], 64, &nine));
    t = CALLED(pim_hear(PIM_IPV4, t.table, v4(65), five)); /* the row that is free again */
    EXPECT(accepted(t.refusal) && t.done == PIM_ADDED && t.table.count == 64 && row_is(t.table.rows[63], 65, &five));
    EXPECT(is_v4(CALLED(pim_elect(PIM_IPV4, t.table, v4(66), 4)).address, 64));
    EXPECT(refused(CALLED(pim_hear(PIM_IPV4, t.table, v4(17), five)).refusal, PIM_TABLE_FULL, 0));
}

/* Every call refuses the table, whatever else is wrong. */
static void bad_table(const pim_table *table)
{
    pim_table_answer t = CALLED(pim_hear(PIM_IPV4, *table, v4(0), five));

    EXPECT(refused(t.refusal, PIM_BAD_SHEET, 0) && t.done == PIM_NOTHING_DONE && t.table.count == table->count);
    EXPECT(refused(CALLED(pim_forget(PIM_IPV4, *table, v4(0))).refusal, PIM_BAD_SHEET, 0));
    EXPECT(refused(CALLED(pim_packing_allowed(PIM_IPV4, *table)).refusal, PIM_BAD_SHEET, 0));
    EXPECT(refused(CALLED(pim_elect(PIM_IPV4, *table, v4(0), 1)).refusal, PIM_BAD_SHEET, 0));
    EXPECT(refused(CALLED(pim_write_sheet(PIM_IPV4, NULL, 0, NULL, 0, *table, NULL, 0)).refusal, PIM_BAD_SHEET, 0));
}

/* A good table has 64 rows at most; in each row in turn there is a fault, and an address is given twice. */
static void bad_tables(void)
{
    const pim_table empty = CALLED(pim_table_empty());
    pim_table full = empty, bad;
    size_t i;

    for (i = 0; i < 64; i++)
        full = CALLED(pim_hear(PIM_IPV4, full, v4((uint32_t)(i + 1)), five)).table;
    for (i = 0; i < 64; i++) {
        bad = full;
        bad.rows[i].holdtime = 0;
        bad_table(&bad);
        bad = full;
        bad.rows[i].has_priority = false; /* and the priority stays */
        bad_table(&bad);
        bad = full;
        bad.rows[i].address = bad.rows[(i + 1) % 64].address;
        bad_table(&bad);
        bad = full;
        bad.count = i; /* the row is not in use, and not 0 */
        bad_table(&bad);
        bad = empty;
        bad.rows[i].packs = true;
        bad_table(&bad);
    }
    bad = full;
    bad.count = 65;
    bad_table(&bad);
    bad.count = (size_t)-1;
    bad_table(&bad);
}

/* Priorities 5 and 9: the 9. A third without priority: the highest address of three. */
static void elections(void)
{
    static const pim_hello nine = {105, true, 9, true}, unsaid = {105, false, 0, true};
    pim_table table = CALLED(pim_table_empty());
    pim_elect_answer e = CALLED(pim_elect(PIM_IPV4, table, v4(0x0a000001), 0));

    EXPECT(accepted(e.refusal) && is_v4(e.address, 0x0a000001));
    table = CALLED(pim_hear(PIM_IPV4, table, v4(0xc0000001), nine)).table;
    e = CALLED(pim_elect(PIM_IPV4, table, v4(0xc0000003), 5));
    EXPECT(accepted(e.refusal) && is_v4(e.address, 0xc0000001));
    table = CALLED(pim_hear(PIM_IPV4, table, v4(0x0a000002), unsaid)).table;
    e = CALLED(pim_elect(PIM_IPV4, table, v4(0xc0000003), 5));
    EXPECT(accepted(e.refusal) && is_v4(e.address, 0xc0000003));
    e = CALLED(pim_elect(PIM_IPV4, table, v4(0), 5));
    EXPECT(refused(e.refusal, PIM_BAD_ADDRESS, 0) && is_v4(e.address, 0));
}

/* More rows than a table holds, and such as no table may hold: only addresses are tested. */
static void elections_among(void)
{
    pim_neighbour rows[80];
    pim_elect_answer e;
    size_t i;

    memset(rows, 0, sizeof rows);
    for (i = 0; i < 80; i++) {
        rows[i].address = v4((uint32_t)(i + 1));
        rows[i].priority = (uint32_t)(i == 22 ? 9 : 5);
        rows[i].has_priority = true;
    }
    rows[79].address = v4(1); /* there twice, and no row has a holdtime */
    e = CALLED(pim_elect_among(rows, 80));
    EXPECT(accepted(e.refusal) && is_v4(e.address, 23));
    e = CALLED(pim_elect_among(rows, 22)); /* equal priorities: the highest address */
    EXPECT(accepted(e.refusal) && is_v4(e.address, 22));
    rows[0].has_priority = false;
    e = CALLED(pim_elect_among(rows, 80));
    EXPECT(accepted(e.refusal) && is_v4(e.address, 79));
    e = CALLED(pim_elect_among(rows, 1));
    EXPECT(accepted(e.refusal) && is_v4(e.address, 1));
    rows[79].address = v4(0);
    e = CALLED(pim_elect_among(rows, 80));
    EXPECT(refused(e.refusal, PIM_BAD_ADDRESS, 0) && is_v4(e.address, 0));
    e = CALLED(pim_elect_among(rows, 0));
    EXPECT(refused(e.refusal, PIM_ABSENT, 0) && is_v4(e.address, 0));
}

/* ---- counters */

/* Counters are 24 numbers of 64 bits, one after another: two for each kind, those of what was sent first. */
static bool counted(const pim_counters *c, size_t received, size_t kind, uint64_t messages, uint64_t records)
{
    uint64_t all[24], expected[24] = {0};

    expected[12 * received + 2 * kind] = messages;
    expected[12 * received + 2 * kind + 1] = records;
    memcpy(all, c, sizeof all);
    return memcmp(all, expected, sizeof all) == 0;
}

static void counters(void)
{
    uint8_t kind;
    int received;

    for (received = 0; received < 2; received++)
        for (kind = PIM_HELLO; kind <= PIM_REGISTER_STOP; kind++) {
            pim_counters c = CALLED(pim_counters_none());

            EXPECT(counted(&c, 0, 0, 0, 0));
            EXPECT(accepted(CALLED(pim_count(&c, received != 0, kind, 66))));
            EXPECT(counted(&c, (size_t)received, kind, 1, 66));
            EXPECT(accepted(CALLED(pim_count(&c, received != 0, kind, UINT64_MAX - 66))));
            EXPECT(counted(&c, (size_t)received, kind, 2, UINT64_MAX));
            EXPECT(accepted(CALLED(pim_count(&c, received != 0, kind, 1)))); /* it stays at the maximum */
            EXPECT(counted(&c, (size_t)received, kind, 3, UINT64_MAX));
            EXPECT(refused(CALLED(pim_count(&c, received != 0, 6, 1)), PIM_BAD_KIND, 0));
            EXPECT(refused(CALLED(pim_count(&c, received != 0, 255, 1)), PIM_BAD_KIND, 0));
            EXPECT(counted(&c, (size_t)received, kind, 3, UINT64_MAX));
        }
}

/* ---- the report of a file */

/* A Hello of holdtime 30; example 1; example 2, which is it with another last octet; a length 0; two pairs; a Hello
 * whose holdtime has one octet. Each is a whole message. */
static const uint8_t class_file[] = {
    0,    10,   0x20, 0x00, 0xdf, 0xde, 0x00, 0x01, 0x00, 0x02, 0x00, 0x1e, 0,    30,   0x25, 0x01, 0xe5, 0x58,
    0x00, 0x00, 0x00, 0x00, 0x01, 0x00, 0x00, 0x20, 0xe8, 0x01, 0x01, 0x01, 0x01, 0x00, 0x0a, 0x00, 0x00, 0x01,
    0x00, 0x00, 0x00, 0x6e, 0x00, 0x00, 0x00, 0x14, 0,    30,   0x25, 0x01, 0xe5, 0x58, 0x00, 0x00, 0x00, 0x00,
    0x01, 0x00, 0x00, 0x20, 0xe8, 0x01, 0x01, 0x01, 0x01, 0x00, 0x0a, 0x00, 0x00, 0x01, 0x00, 0x00, 0x00, 0x6e,
    0x00, 0x00, 0x00, 0x15, 0,    0,    0,    32,   0x2d, 0x00, 0x3e, 0x61, 0x01, 0x00, 0x00, 0x20, 0xe6, 0x21,
    0x22, 0x23, 0x01, 0x00, 0x0a, 0x24, 0x25, 0x26, 0x01, 0x00, 0x00, 0x20, 0xe7, 0x31, 0x32, 0x33, 0x01, 0x00,
    0x0a, 0x34, 0x35, 0x36, 0,    8,    0x20, 0x00, 0xdf, 0xfd, 0x00, 0x01, 0x00, 0x01};

/* A tally is 27 numbers of 64 bits, one after another: two for each kind, then one for each number from 0 on. Of each
 * message of the file: where it ends, and what it adds to which of the 27. */
typedef struct {
    size_t end;
    size_t count, records; /* the number that is one more, and the records that the next one is more */
} a_message;

enum { NUMBER_0 = 12 };

static const a_message in_class[6] = {{12, 2 * PIM_HELLO, 0},
                                      {44, 2 * PIM_SIMPLE, 1},
                                      {76, NUMBER_0 + PIM_BAD_CHECKSUM, 0},
                                      {78, NUMBER_0 + PIM_BAD_LENGTH, 0},
                                      {112, 2 * PIM_NULL_REGISTER, 2},
                                      {122, NUMBER_0 + PIM_BAD_OPTION, 0}};

/* The tally of the messages that end within the first n octets. */
static bool tallied(const pim_tally *tally, size_t n)
{
    uint64_t all[27], expected[27] = {0};
    size_t i;

    for (i = 0; i < 6 && in_class[i].end <= n; i++) {
        expected[in_class[i].count]++;
        if (in_class[i].count < NUMBER_0)
            expected[in_class[i].count + 1] += in_class[i].records;
    }
    memcpy(all, tally, sizeof all);
    return memcmp(all, expected, sizeof all) == 0;
}

static bool is_fraction(pim_fraction f, uint64_t numerator, uint64_t denominator)
{
    return f.numerator == numerator && f.denominator == denominator;
}

/* The file cut after every octet: records are 1 in one packed message once example 1 is there, 3 in two with the pairs.
 */
static void reports(void)
{
    size_t n;

    for (n = 0; n <= sizeof class_file; n++) {
        pim_report_answer r = CALLED(pim_report(class_file, n));
        bool whole = n == 0;
        size_t i;

        for (i = 0; i < 6; i++)
            whole = whole || in_class[i].end == n;
        EXPECT(tallied(&r.tally, n));
        EXPECT(r.whole == whole);
        EXPECT(n < 44 ? is_fraction(r.mean, 0, 1) : n < 112 ? is_fraction(r.mean, 1, 1) : is_fraction(r.mean, 3, 2));
    }
}

/* The same message by message, and in pieces of every size, what is left of one standing before the next. */
static void pieces(void)
{
    pim_tally t = CALLED(pim_tally_none());
    size_t i, size;

    EXPECT(tallied(&t, 0));
    for (i = 0; i < 6; i++) {
        size_t from = i == 0 ? 0 : in_class[i - 1].end;

        t = CALLED(pim_tally_message(t, class_file + from + 2, in_class[i].end - from - 2));
        EXPECT(tallied(&t, in_class[i].end));
    }
    for (size = 1; size <= sizeof class_file; size++) {
        uint8_t piece[sizeof class_file];
        size_t left = 0, read;
        pim_tally_answer a;

        a.tally = CALLED(pim_tally_none());
        for (read = 0; read < sizeof class_file;) {
            size_t more = sizeof class_file - read < size ? sizeof class_file - read : size;

            memcpy(piece + left, class_file + read, more);
            read += more;
            a = CALLED(pim_tally_octets(a.tally, piece, left + more));
            EXPECT(tallied(&a.tally, read));
            left += more - a.used;
            memmove(piece, piece + a.used, left);
        }
        EXPECT(left == 0);
        EXPECT(is_fraction(CALLED(pim_tally_mean(a.tally)), 3, 2));
    }
}

/* Numbers stay at the maximum, 2^64 - 1, which 5 divides. */
static void tallies_full(void)
{
    uint64_t all[27], after[27];
    pim_tally t;
    size_t i;

    memset(all, 0xff, sizeof all);
    memcpy(&t, all, sizeof t);
    for (i = 0; i < 6; i++) {
        size_t from = i == 0 ? 0 : in_class[i - 1].end;

        t = CALLED(pim_tally_message(t, class_file + from + 2, in_class[i].end - from - 2));
    }
    memcpy(after, &t, sizeof after);
    EXPECT(memcmp(after, all, sizeof all) == 0);
    EXPECT(is_fraction(CALLED(pim_tally_mean(t)), 1, 1));
    t = CALLED(pim_tally_none());
    t.accepted.hello.messages = 7; /* neither hello nor assert counts in the mean */
    t.accepted.assert_.messages = t.accepted.assert_.records = 5;
    EXPECT(is_fraction(CALLED(pim_tally_mean(t)), 0, 1));
    t.accepted.simple.messages = 1;
    t.accepted.simple.records = 2;
    EXPECT(is_fraction(CALLED(pim_tally_mean(t)), 2, 1));
    t.accepted.aggregated.messages = 2;
    t.accepted.aggregated.records = 60;
    t.accepted.register_stop.messages = 1;
    t.accepted.register_stop.records = 4;
    EXPECT(is_fraction(CALLED(pim_tally_mean(t)), 33, 2));
    t.accepted.null_register.messages = 1;
    t.accepted.null_register.records = UINT64_MAX;
    EXPECT(is_fraction(CALLED(pim_tally_mean(t)), UINT64_MAX / 5, 1));
}

/* ---- Pop-Count attributes */

/* All eight options: MTU 1500, flags S and P, transit 10, stub 5, 100 x 10^2 and 100 x 10^4 kbit/s, domain 1, node 3,
 * diameter 2, time zone 4. Then transit alone, E set: MTU 1400, flag S, transit 10. */
static const uint8_t attributes[36] = {0x03, 0x16, 0x05, 0xdc, 0x00, 0x11, 0xff, 0x00, 0, 0, 0, 10,
                                       0,    0,    0,    5,    0x08, 0x64, 0x10, 0x64, 1, 3, 2, 4,
                                       0x43, 0x0a, 5,    0x78, 0,    1,    0x80, 0,    0, 0, 0, 10};

static void attributes_read(void)
{
    const uint16_t flags = PIM_POPCOUNT_FLAG_SSM | PIM_POPCOUNT_FLAG_CAPABLE;
    pim_popcount_read_answer r = CALLED(pim_popcount_read(attributes, sizeof attributes, 0));
    pim_popcount_attribute a = r.attribute;

    EXPECT(accepted(r.refusal) && r.next == 24 && !a.e && a.mtu == 1500 && a.flags == flags && a.options == 0xff00);
    EXPECT(a.values.transit == 10 && a.values.stub == 5 && a.values.minimum_speed == 0x0864 &&
           a.values.maximum_speed == 0x1064);
    EXPECT(a.values.domain == 1 && a.values.node == 3 && a.values.diameter == 2 && a.values.time_zone == 4);
    r = CALLED(pim_popcount_read(attributes, sizeof attributes, 24));
    a = r.attribute;
    EXPECT(accepted(r.refusal) && r.next == 36 && a.e && a.mtu == 1400 && a.flags == PIM_POPCOUNT_FLAG_SSM);
    EXPECT(a.options == PIM_POPCOUNT_TRANSIT && a.values.transit == 10 && a.values.stub == 0 && a.values.node == 0);

    r = CALLED(pim_popcount_read(attributes, 35, 24));
    EXPECT(refused(r.refusal, PIM_CUT, 32) && r.next == 0 && !r.attribute.e && r.attribute.mtu == 0);
    EXPECT(refused(CALLED(pim_popcount_read(attributes, 36, SIZE_MAX)).refusal, PIM_CUT, SIZE_MAX));
    EXPECT(refused(CALLED(pim_popcount_read(attributes, 36, 1)).refusal, PIM_BAD_OPTION, 1)); /* type 0x16 */
}

/* Each option alone has its own bit, length and field; and the shortest and the longest attribute. */
static void each_option(void)
{
    static const uint8_t sizes[8] = {4, 4, 2, 2, 1, 1, 1, 1};
    uint8_t o[PIM_POPCOUNT_LONGEST] = {0x03, 6};
    unsigned i;

    EXPECT(CALLED(pim_popcount_read(o, PIM_POPCOUNT_SHORTEST, 0)).next == PIM_POPCOUNT_SHORTEST);
    for (i = 0; i < 8; i++) {
        pim_popcount_values v;
        uint32_t fields[8];

        o[1] = (uint8_t)(6 + sizes[i]);
        o[6] = (uint8_t)(PIM_POPCOUNT_TRANSIT >> i >> 8);
        o[7 + sizes[i]] = 77;
        v = CALLED(pim_popcount_read(o, sizeof o, 0)).attribute.values;
        o[7 + sizes[i]] = 0;
        fields[0] = v.transit, fields[1] = v.stub, fields[2] = v.minimum_speed, fields[3] = v.maximum_speed;
        fields[4] = v.domain, fields[5] = v.node, fields[6] = v.diameter, fields[7] = v.time_zone;
        EXPECT(fields[i] == 77);
        fields[i] = 0;
        EXPECT((fields[0] | fields[1] | fields[2] | fields[3] | fields[4] | fields[5] | fields[6] | fields[7]) == 0);
    }
    o[1] = 255; /* an unallocated option: octets beyond the known ones are ignored */
    o[7] = 1;
    EXPECT(CALLED(pim_popcount_read(o, sizeof o, 0)).next == PIM_POPCOUNT_LONGEST);
}

static void speeds(void)
{
    /* 1 x 10^1 and 10 x 10^0 are equal; 100 x 10^0 is more */
    EXPECT(CALLED(pim_popcount_compare_speeds(0x0401, 0x000a)) == PIM_POPCOUNT_EQUAL);
    EXPECT(CALLED(pim_popcount_compare_speeds(0x0401, 0x0064)) == PIM_POPCOUNT_LESS);
    EXPECT(CALLED(pim_popcount_compare_speeds(0x0064, 0x0401)) == PIM_POPCOUNT_GREATER);
    /* 1 x 10^63 against 1023 x 10^60 */
    EXPECT(CALLED(pim_popcount_compare_speeds(0xfc01, 0xf3ff)) == PIM_POPCOUNT_LESS);
}

/* MTU 1500, flags t and P, transit 2, stub 1, 10 x 10^3 and 100 x 10^4 kbit/s. */
static const pim_popcount_own own = {1500, PIM_POPCOUNT_FLAG_TUNNEL | PIM_POPCOUNT_FLAG_CAPABLE, 2, 1, 0x0c0a, 0x1064};

static void merges(void)
{
    /* of none: our own values, node and diameter 1 */
    static const uint8_t alone[22] = {0x43, 0x14, 0x05, 0xdc, 0, 0x14, 0xf6, 0,    0,    0, 0,
                                      2,    0,    0,    0,    1, 0x0c, 0x0a, 0x10, 0x64, 1, 1};
    /* of both: the least MTU, flags S and t and no P, the one option that both have, 2 + 10 + 10 */
    static const uint8_t merged[12] = {0x03, 0x0a, 0x05, 0x78, 0, 0x05, 0x80, 0, 0, 0, 0, 22};
    uint8_t buffer[PIM_POPCOUNT_MERGED];
    pim_length_answer l;

    memset(buffer, UNTOUCHED, sizeof buffer);
    l = CALLED(pim_popcount_merge(own, false, attributes, sizeof attributes, buffer, 11));
    EXPECT(refused(l.refusal, PIM_NO_ROOM, 0) && l.length == 0);
    l = CALLED(pim_popcount_merge(own, false, attributes, 35, buffer, sizeof buffer));
    EXPECT(refused(l.refusal, PIM_CUT, 32) && untouched(buffer, 0, sizeof buffer));
    l = CALLED(pim_popcount_merge(own, false, attributes, sizeof attributes, buffer, sizeof buffer));
    EXPECT(accepted(l.refusal) && l.length == 12 && memcmp(buffer, merged, 12) == 0 &&
           untouched(buffer, 12, sizeof buffer));
    l = CALLED(pim_popcount_merge(own, true, attributes, 0, buffer, sizeof buffer));
    EXPECT(accepted(l.refusal) && l.length == 22 && memcmp(buffer, alone, 22) == 0);
}

static pim_refusal read_attribute(uint8_t *octets, size_t n)
{
    return CALLED(pim_popcount_read(octets, n, 0)).refusal;
}

/* Merged behind a good contributor of 12 octets. The place counts them too, and they are taken off it. */
static pim_refusal merge_second(uint8_t *octets, size_t n)
{
    uint8_t contributors[12 + 27], buffer[PIM_POPCOUNT_MERGED];
    pim_length_answer l;

    put(contributors, put(contributors, 0, attributes + 24, 12), octets, n);
    memset(buffer, UNTOUCHED, sizeof buffer);
    l = CALLED(pim_popcount_merge(own, true, contributors, 12 + n, buffer, sizeof buffer));
    EXPECT(l.length == 0 && untouched(buffer, 0, sizeof buffer) && l.refusal.place >= 12);
    l.refusal.place -= 12;
    return l.refusal;
}

static void attributes_at_fault(void)
{
    /* all options, an unallocated one, and three octets for it: the length is 6 + 16 + 3 */
    static const uint8_t o[27] = {0x03, 25, 0x05, 0xdc, 0,  0x11, 0xff, 1, 0, 0, 0, 10, 0, 0,
                                  0,    5,  8,    0x64, 16, 0x64, 1,    3, 2, 4, 7, 8,  9};
    /* length, MTU, flags, options; transit, stub, speeds, domain, node, diameter, time zone; what is ignored */
    static const cut cuts[] = {{1, 1, 1},    {2, 3, 2},    {4, 5, 4},    {6, 7, 6},    {8, 11, 8},
                               {12, 15, 12}, {16, 17, 16}, {18, 19, 18}, {20, 20, 20}, {21, 21, 21},
                               {22, 22, 22}, {23, 23, 23}, {24, 26, 24}};
    static const fault faults[] = {
        /* F, type and length against the rule are found at the attribute */
        {0, 1, 0x83, 27, PIM_BAD_OPTION, 0}, {0, 1, 2, 1, PIM_BAD_OPTION, 0},  {1, 1, 5, 2, PIM_BAD_OPTION, 0},
        {1, 1, 21, 8, PIM_BAD_OPTION, 0},    {7, 1, 0, 27, PIM_BAD_OPTION, 0},
    };

    EACH(cut, o, cuts, read_attribute);
    EACH(fault, o, faults, read_attribute);
    EACH(cut, o, cuts, merge_second);
    EACH(fault, o, faults, merge_second);
}

/* ---- the stored sheet */

/* One assert, one pair with source 0, one neighbour: 10.0.0.2, priority 5, packs, holdtime 105. */
#define ASSERT_SECTION 0xe8, 1, 1, 1, 0x0a, 0, 0, 1, 0, 0, 0, 0x6e, 0, 0, 0, 0x14
#define PAIR_SECTION 0xe8, 1, 1, 2, 0, 0, 0, 0
#define ROW_SECTION 0x0a, 0, 0, 2, 0, 0, 0, 5, 3, 0, 0, 105
#define FAMILY 1, 0, 0, 0

/* They begin at 28, 48 and 60; in form 2 at 28, 44 and 52; in the base form at 12, 28 and 36. */
static const uint8_t sheet[76] = {0xff,   0xff,
                                  0,      3,
                                  0,      0,
                                  0,      1,
                                  0,      0,
                                  0,      28,
                                  0,      0,
                                  0,      1,
                                  0,      0,
                                  0,      48,
                                  0,      0,
                                  0,      1,
                                  0,      0,
                                  0,      60,
                                  FAMILY, ASSERT_SECTION,
                                  FAMILY, PAIR_SECTION,
                                  FAMILY, ROW_SECTION};
static const uint8_t second_sheet[64] = {0xff,
                                         0xff,
                                         0,
                                         2,
                                         0,
                                         0,
                                         0,
                                         1,
                                         0,
                                         0,
                                         0,
                                         28,
                                         0,
                                         0,
                                         0,
                                         1,
                                         0,
                                         0,
                                         0,
                                         44,
                                         0,
                                         0,
                                         0,
                                         1,
                                         0,
                                         0,
                                         0,
                                         52,
                                         ASSERT_SECTION,
                                         PAIR_SECTION,
                                         ROW_SECTION};
static const uint8_t base_sheet[48] = {0,          1, 0, 12, 0, 1, 0, 28, 0, 1, 0, 36, ASSERT_SECTION, PAIR_SECTION,
                                       ROW_SECTION};

/* Nothing at all, in each form. */
static const uint8_t no_entries[28] = {0xff, 0xff, 0, 3, 0, 0,  0, 0, 0, 0, 0, 28, 0, 0,
                                       0,    0,    0, 0, 0, 28, 0, 0, 0, 0, 0, 0,  0, 28};
static const uint8_t second_no_entries[28] = {0xff, 0xff, 0, 2, 0, 0,  0, 0, 0, 0, 0, 28, 0, 0,
                                              0,    0,    0, 0, 0, 28, 0, 0, 0, 0, 0, 0,  0, 28};
static const uint8_t base_no_entries[12] = {0, 0, 0, 12, 0, 0, 0, 12, 0, 0, 0, 12};

/* A sheet; the octets of its header, of a number in it, and before the addresses of an entry. */
typedef struct {
    const uint8_t *octets;
    size_t n, header, number, prefix;
} sheet_form;

enum { FORMS = 3 };
static const sheet_form forms[FORMS] = {{sheet, sizeof sheet, 28, 4, 4},
                                        {second_sheet, sizeof second_sheet, 28, 4, 0},
                                        {base_sheet, sizeof base_sheet, 12, 2, 0}};

/* Where asserts, pairs and neighbours begin in these. */
static size_t section_at(const sheet_form *f, size_t section)
{
    return f->header + (section > 0 ? f->prefix + 16 : 0) + (section > 1 ? f->prefix + 8 : 0);
}

static pim_table one_row(void)
{
    return CALLED(pim_hear(PIM_IPV4, CALLED(pim_table_empty()), v4(0x0a000002), five)).table;
}

/* Both reading calls of a family refuse by 14 at a place. */
static void bad_sheet_of(uint8_t family, const uint8_t *o, size_t n, size_t place)
{
    pim_check_answer c = CALLED(pim_check_sheet(family, o, n));
    pim_sheet_answer s = CALLED(pim_read_sheet(family, o, n, NULL, 0, NULL, 0));

    EXPECT(refused(c.refusal, PIM_BAD_SHEET, place) && c.counts.asserts == 0 && c.counts.neighbours == 0);
    EXPECT(refused(s.refusal, PIM_BAD_SHEET, place) && s.counts.pairs == 0 && s.table.count == 0);
}

static void bad_sheet(const uint8_t *o, size_t n, size_t place)
{
    bad_sheet_of(PIM_IPV4, o, n, place);
}

/* Every form gives the same, and that is written in form 3. */
static void sheets_read(void)
{
    size_t f;

    for (f = 0; f < FORMS; f++) {
        const uint8_t *o = forms[f].octets;
        uint8_t asserts[24], pairs[16], buffer[76];
        pim_check_answer c = CALLED(pim_check_sheet(PIM_IPV4, o, forms[f].n));
        pim_sheet_answer s;
        pim_length_answer l;

        EXPECT(accepted(c.refusal) && c.counts.asserts == 1 && c.counts.pairs == 1 && c.counts.neighbours == 1);
        memset(asserts, UNTOUCHED, sizeof asserts);
        memset(pairs, UNTOUCHED, sizeof pairs);
        s = CALLED(pim_read_sheet(PIM_IPV4, o, forms[f].n, asserts, 19, pairs, 12));
        EXPECT(refused(s.refusal, PIM_NO_ROOM, 0) && s.counts.asserts == 0);
        EXPECT(s.table.count == 0 && unused(&s.table, 0));
        s = CALLED(pim_read_sheet(PIM_IPV4, o, forms[f].n, asserts, 20, pairs, 11));
        EXPECT(refused(s.refusal, PIM_NO_ROOM, 0) && untouched(asserts, 0, 24) && untouched(pairs, 0, 16));
        s = CALLED(pim_read_sheet(PIM_IPV4, o, forms[f].n, asserts, sizeof asserts, pairs, sizeof pairs));
        EXPECT(accepted(s.refusal) && s.counts.asserts == 1 && s.counts.pairs == 1 && s.counts.neighbours == 1);
        EXPECT(memcmp(asserts, sheet + 28, 20) == 0 && untouched(asserts, 20, 24));
        EXPECT(memcmp(pairs, sheet + 48, 12) == 0 && untouched(pairs, 12, 16));
        EXPECT(s.table.count == 1 && row_is(s.table.rows[0], 0x0a000002, &five) && unused(&s.table, 1));

        l = CALLED(pim_write_sheet(PIM_IPV4, asserts, 20, pairs, 12, s.table, buffer, sizeof buffer));
        EXPECT(accepted(l.refusal) && l.length == sizeof sheet && memcmp(buffer, sheet, sizeof sheet) == 0);
    }
}

/* The entries of every form at fault: the place is the entry's first octet. */
static void sheet_entries_at_fault(void)
{
    /* the section, the octet that changes, counted behind the entry's family and zeros, and its value */
    static const struct {
        size_t section, at;
        uint8_t value;
    } faults[] = {{0, 0, 0xdf}, {1, 0, 0xf0}, {1, 4, 0xe0}, {2, 8, 4}, {2, 8, 2}, {2, 9, 1}, {2, 11, 0}};
    uint8_t o[76];
    size_t f, i, j;

    for (f = 0; f < FORMS; f++)
        for (i = 0; i < sizeof faults / sizeof faults[0]; i++) {
            const size_t entry = section_at(&forms[f], faults[i].section);

            memcpy(o, forms[f].octets, forms[f].n);
            o[entry + forms[f].prefix + faults[i].at] = faults[i].value;
            bad_sheet(o, forms[f].n, entry);
        }
    /* another family, none, and an octet that is not 0 */
    for (i = 0; i < 3; i++)
        for (j = 0; j < 4; j++) {
            memcpy(o, sheet, sizeof sheet);
            o[section_at(&forms[0], i) + j] = 2;
            bad_sheet(o, sizeof sheet, section_at(&forms[0], i));
            o[section_at(&forms[0], i) + j] = (uint8_t)(j == 0 ? 0 : 255);
            bad_sheet(o, sizeof sheet, section_at(&forms[0], i));
        }
}

/* Every octet of the header with every other value, every cut, and octets more. */
static void sheet_header_at_fault(const sheet_form *good)
{
    uint8_t o[80];
    size_t i, value;

    memset(o, 0, sizeof o);
    memcpy(o, good->octets, good->n);
    for (i = 0; i < good->header; i++) {
        for (value = 0; value < 256; value++) {
            /* without entries forms 2 and 3 differ in that number alone */
            const bool other_form = good->n == 28 && i == 3 && (value == 2 || value == 3);

            o[i] = (uint8_t)value;
            if (o[i] != good->octets[i] && !other_form)
                bad_sheet(o, good->n, 0);
        }
        o[i] = good->octets[i];
    }
    for (i = 0; i < sizeof o; i++)
        if (i != good->n)
            bad_sheet(o, i, 0);
    EXPECT(accepted(CALLED(pim_check_sheet(PIM_IPV4, o, good->n)).refusal));
}

/* An empty section's offset is exact too. */
static void sheet_headers_at_fault(void)
{
    static const sheet_form empty[FORMS] = {{no_entries, sizeof no_entries, 28, 4, 4},
                                            {second_no_entries, sizeof second_no_entries, 28, 4, 0},
                                            {base_no_entries, sizeof base_no_entries, 12, 2, 0}};
    size_t f;

    for (f = 0; f < FORMS; f++) {
        sheet_header_at_fault(&forms[f]);
        sheet_header_at_fault(&empty[f]);
    }
}

/* Only 1 is the first word of the base sheet, only 0xffff that of the others, and only their own number may follow. */
static void first_words(void)
{
    uint8_t o[76];
    size_t f, word;

    for (word = 0; word < 0x10000; word++)
        for (f = 0; f < FORMS; f++) {
            memcpy(o, forms[f].octets, forms[f].n);
            o[0] = (uint8_t)(word >> 8);
            o[1] = (uint8_t)word;
            if (word != (f == 2 ? 1 : 0xffff))
                bad_sheet(o, forms[f].n, 0);
            if (f == 2)
                continue;
            memcpy(o, forms[f].octets, forms[f].n);
            o[2] = (uint8_t)(word >> 8);
            o[3] = (uint8_t)word;
            if (word != 3 - f)
                bad_sheet(o, forms[f].n, 0);
        }
}

/* One assert, two pairs and three neighbours, every field another one; at 28, 48 and 72. */
static void sheets_octet_by_octet(void)
{
    static const uint8_t octets[120] = {
        0xff, 0xff, 0x00, 0x03,   0x00,   0x00, 0x00, 0x01, 0x00,   0x00, 0x00, 0x1c,   0x00,   0x00, 0x00, 0x02, 0x00,
        0x00, 0x00, 0x30, 0x00,   0x00,   0x00, 0x03, 0x00, 0x00,   0x00, 0x48, FAMILY, 0xe1,   0x02, 0x03, 0x04, 0x05,
        0x06, 0x07, 0x08, 0x89,   0x0a,   0x0b, 0x0c, 0x0d, 0x0e,   0x0f, 0x10, FAMILY, 0xee,   0x11, 0x12, 0x13, 0x14,
        0x15, 0x16, 0x17, FAMILY, 0xef,   0x18, 0x19, 0x1a, 0x1b,   0x1c, 0x1d, 0x1e,   FAMILY, 0x1f, 0x20, 0x21, 0x22,
        0x23, 0x24, 0x25, 0x26,   0x01,   0x00, 0x27, 0x28, FAMILY, 0x29, 0x2a, 0x2b,   0x2c,   0x2d, 0x2e, 0x2f, 0x30,
        0x03, 0x00, 0x31, 0x32,   FAMILY, 0x33, 0x34, 0x35, 0x36,   0x00, 0x00, 0x00,   0x00,   0x02, 0x00, 0x37, 0x38};
    static const pim_hello said[3] = {
        {0x2728, true, 0x23242526, false}, {0x3132, true, 0x2d2e2f30, true}, {0x3738, false, 0, true}};
    static const uint32_t addresses[3] = {0x1f202122, 0x292a2b2c, 0x33343536};
    uint8_t buffer[124], asserts[20], pairs[24];
    pim_table table = CALLED(pim_table_empty());
    pim_length_answer l;
    pim_sheet_answer s;
    size_t i;

    for (i = 0; i < 3; i++)
        table = CALLED(pim_hear(PIM_IPV4, table, v4(addresses[i]), said[i])).table;
    memset(buffer, UNTOUCHED, sizeof buffer);
    l = CALLED(pim_write_sheet(PIM_IPV4, octets + 28, 20, octets + 48, 24, table, buffer, 119));
    EXPECT(refused(l.refusal, PIM_NO_ROOM, 0) && l.length == 0 && untouched(buffer, 0, sizeof buffer));
    l = CALLED(pim_write_sheet(PIM_IPV4, octets + 28, 20, octets + 48, 24, table, buffer, sizeof buffer));
    EXPECT(accepted(l.refusal) && l.length == 120 && untouched(buffer, 120, sizeof buffer));
    for (i = 0; i < 120; i++)
        EXPECT(buffer[i] == octets[i]);
    s = CALLED(pim_read_sheet(PIM_IPV4, octets, sizeof octets, asserts, 20, pairs, 24));
    EXPECT(accepted(s.refusal) && s.counts.asserts == 1 && s.counts.pairs == 2 && s.counts.neighbours == 3);
    EXPECT(memcmp(asserts, octets + 28, 20) == 0 && memcmp(pairs, octets + 48, 24) == 0);
    EXPECT(s.table.count == 3 && unused(&s.table, 3));
    for (i = 0; i < 3; i++)
        EXPECT(row_is(s.table.rows[i], addresses[i], &said[i]));
}

static void sheets_written(void)
{
    static const uint8_t many[PIM_IPV4_ASSERT_ENTRY * (PIM_SHEET_ASSERTS + 1)] = {0};
    const uint8_t *asserts = sheet + 28, *pairs = sheet + 48;
    uint8_t buffer[78], bad[20];
    pim_table table = one_row();
    pim_length_answer l;
    size_t i;

    memset(buffer, UNTOUCHED, sizeof buffer);
    memcpy(bad, asserts, 20);
    bad[4] = 10; /* no group */
    EXPECT(refused(CALLED(pim_write_sheet(PIM_IPV4, bad, 19, bad, 12, table, buffer, 0)).refusal, PIM_BAD_LIST, 0));
    EXPECT(refused(CALLED(pim_write_sheet(PIM_IPV4, bad, 20, bad, 12, table, buffer, 75)).refusal, PIM_NO_ROOM, 0));
    EXPECT(refused(CALLED(pim_write_sheet(PIM_IPV4, bad, 20, bad, 12, table, buffer, 76)).refusal, PIM_BAD_ADDRESS, 0));
    l = CALLED(pim_write_sheet(PIM_IPV4, many, sizeof many, bad, 12, table, buffer, 0));
    EXPECT(refused(l.refusal, PIM_BAD_SHEET, 0));
    l = CALLED(pim_write_sheet(PIM_IPV4, bad, 20, many, PIM_IPV4_PAIR_ENTRY * (PIM_SHEET_PAIRS + 1), table, buffer, 0));
    EXPECT(refused(l.refusal, PIM_BAD_SHEET, 0));
    for (i = 0; i < 4; i++) { /* another family, or an octet that is not 0: of an assert, and of a pair */
        memcpy(bad, asserts, 20);
        bad[i] = 2;
        l = CALLED(pim_write_sheet(PIM_IPV4, bad, 20, pairs, 12, table, buffer, 78));
        EXPECT(refused(l.refusal, PIM_BAD_ADDRESS, 0));
        l = CALLED(pim_write_sheet(PIM_IPV4, asserts, 20, bad, 12, table, buffer, 78));
        EXPECT(refused(l.refusal, PIM_BAD_ADDRESS, 0));
    }
    table.rows[1].packs = true; /* a row that is not in use */
    l = CALLED(pim_write_sheet(PIM_IPV4, asserts, 20, pairs, 12, table, buffer, 78));
    EXPECT(refused(l.refusal, PIM_BAD_SHEET, 0) && l.length == 0 && untouched(buffer, 0, 78));
    table.rows[1].packs = false;
    l = CALLED(pim_write_sheet(PIM_IPV4, asserts, 20, pairs, 12, table, buffer, 78));
    EXPECT(accepted(l.refusal) && l.length == 76 && memcmp(buffer, sheet, 76) == 0 && untouched(buffer, 76, 78));
}

static size_t put_number(uint8_t *o, size_t at, size_t octets, size_t number)
{
    size_t i;

    for (i = 0; i < octets; i++)
        o[at + i] = (uint8_t)(number >> 8 * (octets - 1 - i));
    return at + octets;
}

/* Puts a sheet of so many together, of the form that is the base (1), 2 or 3; the length. Every assert is the
 * example's, every pair has its group and source, and the neighbours are 10.0.0.1 and so on, as `five` says. */
static size_t make_sheet(uint8_t *o, uint8_t form, size_t asserts, size_t pairs, size_t neighbours)
{
    static const uint8_t said[8] = {0, 0, 0, 5, 3, 0, 0, 105};
    const uint8_t begin[4] = {0xff, 0xff, 0, form};
    const size_t octets = form == 1 ? 2 : 4, prefix = form == 3 ? 4 : 0, bare = 4 - prefix;
    size_t at = form == 1 ? 0 : put(o, 0, begin, 4), first = at + 6 * octets, i;

    at = put_number(o, put_number(o, at, octets, asserts), octets, first);
    first += (prefix + 16) * asserts;
    at = put_number(o, put_number(o, at, octets, pairs), octets, first);
    first += (prefix + 8) * pairs;
    at = put_number(o, put_number(o, at, octets, neighbours), octets, first);
    for (i = 0; i < asserts; i++)
        at = put(o, at, example_entry + bare, 20 - bare);
    for (i = 0; i < pairs; i++)
        at = put(o, at, example_entry + bare, 12 - bare);
    for (i = 0; i < neighbours; i++) {
        at = put(o, at, example_entry, prefix);
        at = put(o, put_number(o, at, 4, 0x0a000001 + i), said, 8);
    }
    return at;
}

/* The longest sheet, another one, and all entries that a sheet may have. */
static uint8_t longest[PIM_IPV6_LONGEST_SHEET], again[PIM_IPV6_LONGEST_SHEET];
static uint8_t all_asserts[PIM_IPV4_ASSERT_ENTRY * PIM_SHEET_ASSERTS], all_pairs[PIM_IPV4_PAIR_ENTRY * PIM_SHEET_PAIRS];

/* Each count at its limit, which is read and written in form 3, and one over it, which is refused. */
static void sheet_limits(void)
{
    static const size_t limits[3][3] = {{1024, 1024, 16}, {8192, 8192, 64}, {8192, 8192, 64}};
    size_t i, n;
    uint8_t f;

    for (f = 1; f <= 3; f++)
        for (i = 0; i < 3; i++) {
            size_t counts[3] = {1, 1, 1};
            pim_sheet_answer s;
            pim_length_answer l;

            counts[i] = limits[f - 1][i];
            n = make_sheet(longest, f, counts[0], counts[1], counts[2]);
            s = CALLED(
                pim_read_sheet(PIM_IPV4, longest, n, all_asserts, sizeof all_asserts, all_pairs, sizeof all_pairs));
            EXPECT(accepted(s.refusal) && s.counts.asserts == counts[0] && s.counts.pairs == counts[1]);
            EXPECT(s.counts.neighbours == counts[2] && s.table.count == counts[2] && unused(&s.table, counts[2]));
            n = make_sheet(longest, 3, counts[0], counts[1], counts[2]);
            l = CALLED(
                pim_write_sheet(PIM_IPV4, all_asserts, 20 * counts[0], all_pairs, 12 * counts[1], s.table, again, n));
            EXPECT(accepted(l.refusal) && l.length == n && memcmp(again, longest, n) == 0);
            counts[i]++;
            bad_sheet(longest, make_sheet(longest, f, counts[0], counts[1], counts[2]), 0);
        }
}

/* 1,024 asserts, 1,024 pairs and 16 neighbours: 12 + 16,384 is 0x400c, 8,192 more 0x600c. */
static void longest_base_sheet(void)
{
    static const uint8_t header[12] = {4, 0, 0, 12, 4, 0, 0x40, 12, 0, 16, 0x60, 12};
    const size_t n = 24780;
    pim_sheet_counts c;

    EXPECT(make_sheet(longest, 1, 1024, 1024, 16) == n && memcmp(longest, header, 12) == 0);
    c = CALLED(pim_check_sheet(PIM_IPV4, longest, n)).counts;
    EXPECT(c.asserts == 1024 && c.pairs == 1024 && c.neighbours == 16);
    longest[n - 9] = 1; /* the last neighbour: 10.0.0.1 is there twice */
    bad_sheet(longest, n, n - 12);
    longest[0x600c - 4] = 224; /* the last pair */
    bad_sheet(longest, n, 0x600c - 8);
    longest[0x400c - 12] = 224; /* the last assert */
    bad_sheet(longest, n, 0x400c - 16);
    bad_sheet(longest, n - 1, 0);
}

/* 8,192 asserts, 8,192 pairs and 64 neighbours: 28 + 163,840 is 0x2801c, 98,304 more 0x4001c. */
static void longest_sheet(void)
{
    static const uint8_t header[28] = {0xff, 0xff, 0, 3, 0,    0,  0x20, 0, 0, 0,  0, 28, 0, 0,
                                       0x20, 0,    0, 2, 0x80, 28, 0,    0, 0, 64, 0, 4,  0, 28};
    const size_t n = PIM_IPV4_LONGEST_SHEET;
    pim_sheet_answer s;
    pim_length_answer l;

    EXPECT(make_sheet(longest, 3, 8192, 8192, 64) == n && memcmp(longest, header, 28) == 0);
    s = CALLED(pim_read_sheet(PIM_IPV4, longest, n, all_asserts, sizeof all_asserts - 1, all_pairs, sizeof all_pairs));
    EXPECT(refused(s.refusal, PIM_NO_ROOM, 0));
    s = CALLED(pim_read_sheet(PIM_IPV4, longest, n, all_asserts, sizeof all_asserts, all_pairs, sizeof all_pairs));
    EXPECT(accepted(s.refusal) && s.counts.asserts == 8192 && s.counts.pairs == 8192 && s.counts.neighbours == 64);
    EXPECT(row_is(s.table.rows[0], 0x0a000001, &five) && row_is(s.table.rows[63], 0x0a000040, &five));
    l = CALLED(
        pim_write_sheet(PIM_IPV4, all_asserts, sizeof all_asserts, all_pairs, sizeof all_pairs, s.table, again, n - 1));
    EXPECT(refused(l.refusal, PIM_NO_ROOM, 0));
    l = CALLED(
        pim_write_sheet(PIM_IPV4, all_asserts, sizeof all_asserts, all_pairs, sizeof all_pairs, s.table, again, n));
    EXPECT(accepted(l.refusal) && l.length == n && memcmp(again, longest, n) == 0);

    longest[n - 9] = 1; /* the last neighbour: 10.0.0.1 is there twice */
    bad_sheet(longest, n, n - 16);
    longest[0x4001c - 4] = 224; /* the last pair */
    bad_sheet(longest, n, 0x4001c - 12);
    longest[0x2801c - 12] = 224; /* the last assert */
    bad_sheet(longest, n, 0x2801c - 20);
    bad_sheet(longest, n - 1, 0);
}

/* Offsets that count from the first count, from the end of the header, or as in another form. */
static void offsets_from_other_places(void)
{
    static const size_t firsts[6] = {0, 4, 12, 24, 28, 32};
    size_t f, i;

    for (f = 0; f < FORMS; f++)
        for (i = 0; i < 6; i++) {
            const size_t octets = forms[f].number, at = f == 2 ? 0 : 4;
            uint8_t o[76];

            memcpy(o, forms[f].octets, forms[f].n);
            put_number(o, at + octets, octets, firsts[i]);
            put_number(o, at + 3 * octets, octets, firsts[i] + section_at(&forms[f], 1) - forms[f].header);
            put_number(o, at + 5 * octets, octets, firsts[i] + section_at(&forms[f], 2) - forms[f].header);
            if (firsts[i] == forms[f].header)
                EXPECT(accepted(CALLED(pim_check_sheet(PIM_IPV4, o, forms[f].n)).refusal));
            else
                bad_sheet(o, forms[f].n, 0);
        }
}

/* ---- the checksum */

static void checksums(void)
{
    static const uint8_t odd[5] = {0x25, 0x01, 0xe5, 0x58, 0x14};
    uint8_t m[30];

    EXPECT(CALLED(pim_checksum(example, sizeof example)) == 0xe558);
    EXPECT(CALLED(pim_checksum_holds(example, sizeof example)));
    memcpy(m, example, sizeof m);
    m[29] = 0x15;
    EXPECT(!CALLED(pim_checksum_holds(m, sizeof m)));
    /* the field counts as 0, the last octet as a high one: 0x2501 + 0x1400 = 0x3901 */
    EXPECT(CALLED(pim_checksum(odd, sizeof odd)) == 0xffff - 0x3901);
}

/* ---- addresses that are no sources */

/* 224.0.0.0, 239.255.255.255 and 255.255.255.255; and sources about their borders, 0.0.0.1, 223.255.255.255, 240.0.0.0,
 * 240.0.0.1 and 255.255.255.254. */
enum { NO_SOURCES = 3, SOURCES = 5 };
static const uint8_t no_sources[NO_SOURCES][4] = {{224, 0, 0, 0}, {239, 255, 255, 255}, {255, 255, 255, 255}};
static const uint8_t sources[SOURCES][4] = {
    {0, 0, 0, 1}, {223, 255, 255, 255}, {240, 0, 0, 0}, {240, 0, 0, 1}, {255, 255, 255, 254}};
static const uint8_t source_0[4] = {0, 0, 0, 0};

/* A message with another octet 1 and the source at `place`, and with R=1 after it where `r` is true. The source may be
 * 0 where `zero` is true. */
typedef struct {
    const uint8_t *good;
    size_t n, place;
    uint8_t octet_1;
    bool r, zero;
} with_source;

static const with_source with_sources[] = {
    {plain_record, 26, 12, 0, false, false},      {plain_record, 26, 12, 0, true, true},
    {simple_records, 52, 16, 1, false, false},    {simple_records, 52, 16, 1, true, true},
    {simple_records, 52, 38, 1, true, true},      {aggregated_records, 90, 16, 3, false, false},
    {aggregated_records, 90, 66, 3, false, true}, {aggregated_records, 90, 72, 3, false, true},
    {pair_records, 32, 12, 0, false, false},      {pair_records, 32, 26, 0, false, false},
    {pair_records, 32, 12, 0x10, false, true},    {pair_records, 32, 26, 0x10, false, true},
};

/* The message with an address as its source, read and counted: both refuse it, or neither does. */
static pim_refusal read_source(const with_source *w, const uint8_t *address)
{
    uint8_t m[90], entries[6 * PIM_IPV4_ASSERT_ENTRY];
    pim_read_answer read;
    pim_tally t;

    memcpy(m, w->good, w->n);
    m[1] = w->octet_1;
    put(m, w->place + 2, address, 4);
    if (w->r)
        m[w->place + 6] = 0x80;
    seal(m, w->n);
    memset(entries, UNTOUCHED, sizeof entries);
    read = m[0] == 0x2d ? CALLED(pim_read_pairs(PIM_IPV4, any, m, w->n, entries, sizeof entries))
                        : CALLED(pim_read_asserts(PIM_IPV4, any, m, w->n, entries, sizeof entries));
    EXPECT((read.refusal.number == 0) != (read.count == 0 && untouched(entries, 0, sizeof entries)));
    t = CALLED(pim_tally_message(CALLED(pim_tally_none()), m, w->n));
    EXPECT(t.refused[PIM_BAD_ADDRESS] == (read.refusal.number == PIM_BAD_ADDRESS));
    return read.refusal;
}

static void sources_in_messages(void)
{
    size_t i, j;

    for (i = 0; i < sizeof with_sources / sizeof with_sources[0]; i++) {
        const with_source *w = &with_sources[i];

        for (j = 0; j < NO_SOURCES; j++)
            EXPECT(refused(read_source(w, no_sources[j]), PIM_BAD_ADDRESS, w->place));
        for (j = 0; j < SOURCES; j++)
            EXPECT(accepted(read_source(w, sources[j])));
        if (w->zero)
            EXPECT(accepted(read_source(w, source_0)));
        else
            EXPECT(refused(read_source(w, source_0), PIM_BAD_ADDRESS, w->place));
    }
}

/* What comes first in the message is found first. */
static void sources_in_order(void)
{
    uint8_t m[52];

    memcpy(m, plain_record, 26);
    m[8] = 10; /* its group, and its source */
    m[14] = 224;
    refuses(read_asserts, m, 26, PIM_BAD_ADDRESS, 4);
    memcpy(m, pair_records, 32);
    m[22] = 10; /* the second group, and its source */
    m[28] = 224;
    refuses(read_pairs, m, 32, PIM_BAD_ADDRESS, 18);
    memcpy(m, simple_records, 52);
    m[8] = 2; /* the first group, and the second source */
    m[40] = 224;
    refuses(read_asserts, m, 52, PIM_BAD_ADDRESS, 8);
    memcpy(m, simple_records, 52);
    m[18] = 224; /* the first source, and the second group */
    m[30] = 2;
    refuses(read_asserts, m, 52, PIM_BAD_ADDRESS, 16);
}

/* A record at 4 of the plain assert, read singly: its source is at 12. */
static pim_refusal read_single(uint8_t kind, uint8_t r, const uint8_t *address)
{
    uint8_t o[26];

    memcpy(o, plain_record, sizeof o);
    put(o, 14, address, 4);
    o[18] = r;
    return CALLED(pim_read_record(PIM_IPV4, kind, o, sizeof o, 4)).refusal;
}

static void sources_in_records(void)
{
    static const struct {
        uint8_t kind, r;
        bool zero;
    } kinds[] = {{PIM_ASSERT, 0, false},   {PIM_ASSERT, 0x80, true},      {PIM_SIMPLE, 0, false},
                 {PIM_SIMPLE, 0x80, true}, {PIM_NULL_REGISTER, 0, false}, {PIM_REGISTER_STOP, 0, true}};
    size_t i, j;

    for (i = 0; i < sizeof kinds / sizeof kinds[0]; i++) {
        uint8_t kind = kinds[i].kind, r = kinds[i].r;

        for (j = 0; j < NO_SOURCES; j++)
            EXPECT(refused(read_single(kind, r, no_sources[j]), PIM_BAD_ADDRESS, 12));
        for (j = 0; j < SOURCES; j++)
            EXPECT(accepted(read_single(kind, r, sources[j])));
        if (kinds[i].zero)
            EXPECT(accepted(read_single(kind, r, source_0)));
        else
            EXPECT(refused(read_single(kind, r, source_0), PIM_BAD_ADDRESS, 12));
    }
}

/* The packing calls; octets of an entry; and of a message of one entry, with R=0 and with R=1. */
static const struct {
    pim_pack_answer (*pack)(uint8_t, pim_path, const uint8_t *, size_t, size_t, size_t, uint8_t *, size_t);
    size_t entry, lengths[2];
} packings[5] = {{pim_pack_assert, 20, {26, 26}},
                 {pim_pack_simple, 20, {30, 30}},
                 {pim_pack_aggregated, 20, {34, 38}},
                 {pim_pack_null_register, 12, {18, 18}},
                 {pim_pack_register_stop, 12, {18, 18}}};

/* Entries of the example, with R as said; a source in the second and in the fourth. */
static void make_four(uint8_t *entries, size_t entry, uint8_t r, const uint8_t *second, const uint8_t *fourth)
{
    size_t i;

    for (i = 0; i < 4; i++) {
        memcpy(entries + entry * i, example_entry, entry);
        if (entry == PIM_IPV4_ASSERT_ENTRY)
            entries[entry * i + 12] = r;
    }
    put(entries, entry + 8, second, 4);
    put(entries, 3 * entry + 8, fourth, 4);
}

/* The first bad entry from the start on, which the message would not take; one before the start is not looked at. */
static void sources_packed(void)
{
    uint8_t e[4 * PIM_IPV4_ASSERT_ENTRY], buffer[38];
    size_t i, j, r;

    for (i = 0; i < 5; i++)
        for (r = 0; r < 2; r++) {
            const size_t entry = packings[i].entry, size = 4 * entry, length = packings[i].lengths[r];

            memset(buffer, UNTOUCHED, sizeof buffer);
            for (j = 0; j < NO_SOURCES; j++) {
                make_four(e, entry, (uint8_t)(r << 7), no_sources[j], no_sources[j]);
                EXPECT(refused(CALLED(packings[i].pack(PIM_IPV4, any, e, size - 1, 0, 37, buffer, 37)).refusal,
                               PIM_BAD_LIMIT, 0));
                EXPECT(refused(CALLED(packings[i].pack(PIM_IPV4, any, e, size - 1, 0, 38, buffer, 37)).refusal,
                               PIM_NO_ROOM, 0));
                EXPECT(refused(CALLED(packings[i].pack(PIM_IPV4, any, e, size - 1, 0, 38, buffer, 38)).refusal,
                               PIM_BAD_LIST, 0));
                EXPECT(refused(CALLED(packings[i].pack(PIM_IPV4, any, e, size, 0, 38, buffer, 38)).refusal,
                               PIM_BAD_ADDRESS, 1));
                EXPECT(refused(CALLED(packings[i].pack(PIM_IPV4, any, e, size, 1, 38, buffer, 38)).refusal,
                               PIM_BAD_ADDRESS, 1));
                EXPECT(refused(CALLED(packings[i].pack(PIM_IPV4, any, e, size, 2, 38, buffer, 38)).refusal,
                               PIM_BAD_ADDRESS, 3));
                EXPECT(packed(CALLED(packings[i].pack(PIM_IPV4, any, e, size, 4, 38, buffer, 38)), 0, 0));
            }
            EXPECT(untouched(buffer, 0, sizeof buffer));
            for (j = 0; j < SOURCES; j++) {
                make_four(e, entry, (uint8_t)(r << 7), no_sources[0], sources[j]);
                EXPECT(packed(CALLED(packings[i].pack(PIM_IPV4, any, e, size, 3, 38, buffer, 38)), length, 1));
            }
        }
}

/* The same of the choice. One entry takes 30 octets as simple, 34 or 38 as aggregated. */
static void sources_chosen(void)
{
    uint8_t e[4 * PIM_IPV4_ASSERT_ENTRY], s[38], a[38];
    pim_choice_answer c;
    size_t j;

    memset(s, UNTOUCHED, sizeof s);
    memset(a, UNTOUCHED, sizeof a);
    for (j = 0; j < 2 * NO_SOURCES; j++) {
        make_four(e, 20, (uint8_t)(j % 2 << 7), no_sources[j / 2], no_sources[j / 2]);
        EXPECT(refused(CALLED(pim_pack_both(PIM_IPV4, any, e, 80, 0, 38, s, 38, a, 37)).refusal, PIM_NO_ROOM, 0));
        EXPECT(refused(CALLED(pim_pack_both(PIM_IPV4, any, e, 79, 0, 38, s, 38, a, 38)).refusal, PIM_BAD_LIST, 0));
        EXPECT(refused(CALLED(pim_pack_both(PIM_IPV4, any, e, 80, 0, 38, s, 38, a, 38)).refusal, PIM_BAD_ADDRESS, 1));
        EXPECT(refused(CALLED(pim_pack_both(PIM_IPV4, any, e, 80, 2, 38, s, 38, a, 38)).refusal, PIM_BAD_ADDRESS, 3));
    }
    EXPECT(untouched(s, 0, sizeof s) && untouched(a, 0, sizeof a));
    for (j = 0; j < SOURCES; j++) {
        make_four(e, 20, 0x80, no_sources[0], sources[j]);
        c = CALLED(pim_pack_both(PIM_IPV4, any, e, 80, 3, 38, s, 38, a, 38));
        EXPECT(accepted(c.refusal) && c.length == 30 && c.taken == 1 && !c.aggregated);
    }
}

/* The sheet of one assert and one pair, in every form, with an address as the source of either. */
static void sources_in_sheets(void)
{
    uint8_t o[76], asserts[20], pairs[12], buffer[76];
    size_t i, j, f;

    for (f = 0; f < FORMS; f++)
        for (i = 0; i < 2; i++)
            for (j = 0; j < NO_SOURCES; j++) {
                const size_t entry = section_at(&forms[f], i);
                pim_sheet_answer s;

                memcpy(o, forms[f].octets, forms[f].n);
                put(o, entry + forms[f].prefix + 4, no_sources[j], 4);
                memset(asserts, UNTOUCHED, sizeof asserts);
                memset(pairs, UNTOUCHED, sizeof pairs);
                bad_sheet(o, forms[f].n, entry);
                s = CALLED(pim_read_sheet(PIM_IPV4, o, forms[f].n, asserts, 20, pairs, 12));
                EXPECT(refused(s.refusal, PIM_BAD_SHEET, entry) && s.counts.asserts == 0 && s.table.count == 0);
                EXPECT(untouched(asserts, 0, 20) && untouched(pairs, 0, 12));
                if (f == 0) {
                    const uint8_t *a = o + 28, *p = o + 48;
                    pim_table table = one_row();
                    pim_length_answer l;

                    /* a list that is not whole, a table of 65, too little room, then the source */
                    memset(buffer, UNTOUCHED, sizeof buffer);
                    l = CALLED(pim_write_sheet(PIM_IPV4, a, 20, p, 11, table, buffer, 0));
                    EXPECT(refused(l.refusal, PIM_BAD_LIST, 0));
                    table.count = 65;
                    l = CALLED(pim_write_sheet(PIM_IPV4, a, 20, p, 12, table, buffer, 0));
                    EXPECT(refused(l.refusal, PIM_BAD_SHEET, 0));
                    table.count = 1;
                    l = CALLED(pim_write_sheet(PIM_IPV4, a, 20, p, 12, table, buffer, 75));
                    EXPECT(refused(l.refusal, PIM_NO_ROOM, 0));
                    l = CALLED(pim_write_sheet(PIM_IPV4, a, 20, p, 12, table, buffer, 76));
                    EXPECT(refused(l.refusal, PIM_BAD_ADDRESS, 0) && l.length == 0 && untouched(buffer, 0, 76));
                }
                o[f == 2 ? 3 : 11]++; /* the first offset */
                bad_sheet(o, forms[f].n, 0);
            }
    for (f = 0; f < FORMS; f++)
        for (j = 0; j < SOURCES; j++) {
            memcpy(o, forms[f].octets, forms[f].n);
            put(o, section_at(&forms[f], 0) + forms[f].prefix + 4, sources[j], 4);
            put(o, section_at(&forms[f], 1) + forms[f].prefix + 4, sources[SOURCES - 1 - j], 4);
            EXPECT(accepted(CALLED(pim_check_sheet(PIM_IPV4, o, forms[f].n)).refusal));
            EXPECT(accepted(CALLED(pim_read_sheet(PIM_IPV4, o, forms[f].n, asserts, 20, pairs, 12)).refusal));
            EXPECT(accepted(CALLED(pim_write_sheet(PIM_IPV4, asserts, 20, pairs, 12, one_row(), buffer, 76)).refusal));
            EXPECT(memcmp(buffer, sheet, 28) == 0 && memcmp(buffer + 60, sheet + 60, 16) == 0);
            EXPECT(memcmp(buffer + 36, sources[j], 4) == 0 && memcmp(buffer + 56, sources[SOURCES - 1 - j], 4) == 0);
        }
}

/* The address of a neighbour, or of our own router, is no source. */
static void routers_are_no_sources(void)
{
    static const uint32_t addresses[NO_SOURCES] = {0xe0000000, 0xefffffff, 0xffffffff};
    uint8_t o[76], asserts[20], pairs[12];
    size_t j, f;

    for (j = 0; j < NO_SOURCES; j++) {
        pim_table_answer t = CALLED(pim_hear(PIM_IPV4, one_row(), v4(addresses[j]), five));

        EXPECT(accepted(t.refusal) && t.done == PIM_ADDED && row_is(t.table.rows[1], addresses[j], &five));
        EXPECT(CALLED(pim_packing_allowed(PIM_IPV4, t.table)).allowed);
        EXPECT(is_v4(CALLED(pim_elect(PIM_IPV4, t.table, v4(1), 5)).address, addresses[j]));
        EXPECT(is_v4(CALLED(pim_elect(PIM_IPV4, one_row(), v4(addresses[j]), 5)).address, addresses[j]));
        EXPECT(is_v4(CALLED(pim_elect_among(t.table.rows, 2)).address, addresses[j]));
        EXPECT(CALLED(pim_forget(PIM_IPV4, t.table, v4(addresses[j]))).done == PIM_FORGOTTEN);
        for (f = 0; f < FORMS; f++) {
            pim_sheet_answer s;

            memcpy(o, forms[f].octets, forms[f].n);
            put(o, section_at(&forms[f], 2) + forms[f].prefix, no_sources[j], 4);
            s = CALLED(pim_read_sheet(PIM_IPV4, o, forms[f].n, asserts, 20, pairs, 12));
            EXPECT(accepted(s.refusal) && row_is(s.table.rows[0], addresses[j], &five));
        }
    }
}

/* A file of the example with source 239.0.0.1 (239 - 10 = 229 more in a high octet, so as much less in the checksum's)
 * and with its own. */
static void sources_reported(void)
{
    uint8_t file[64];
    pim_report_answer r;

    file[0] = file[32] = 0;
    file[1] = file[33] = 30;
    put(file, put(file, 2, example, 30) + 2, example, 30);
    file[2 + 18] = 239;
    file[2 + 2] = 0xe5 - 229;
    r = CALLED(pim_report(file, sizeof file));
    EXPECT(r.whole && r.tally.refused[PIM_BAD_ADDRESS] == 1 && r.tally.refused[PIM_BAD_CHECKSUM] == 0);
    EXPECT(r.tally.accepted.simple.messages == 1 && r.tally.accepted.simple.records == 1 && is_fraction(r.mean, 1, 1));
    EXPECT(CALLED(pim_tally_octets(CALLED(pim_tally_none()), file, 63)).tally.refused[PIM_BAD_ADDRESS] == 1);
}

/* ---- lent memory */

/* NULL where nothing is lent to be read. */
static void nothing_to_read(void)
{
    uint8_t b[60], c[60];
    size_t i;

    memset(b, UNTOUCHED, sizeof b);
    EXPECT(refused(CALLED(pim_header(PIM_IPV4, any, NULL, 0)).refusal, PIM_BAD_LENGTH, 0));
    EXPECT(CALLED(pim_body(PIM_IPV4, any, NULL, 0)) == 0);
    EXPECT(refused(CALLED(pim_read_record(PIM_IPV4, PIM_ASSERT, NULL, 0, 0)).refusal, PIM_CUT, 0));
    EXPECT(refused(CALLED(pim_read_record(PIM_IPV4, PIM_REGISTER_STOP, NULL, 0, 5)).refusal, PIM_CUT, 5));
    EXPECT(refused(CALLED(pim_read_asserts(PIM_IPV4, any, NULL, 0, b, sizeof b)).refusal, PIM_BAD_LENGTH, 0));
    EXPECT(refused(CALLED(pim_read_pairs(PIM_IPV4, any, NULL, 0, b, sizeof b)).refusal, PIM_BAD_LENGTH, 0));
    EXPECT(refused(CALLED(pim_read_hello(PIM_IPV4, any, NULL, 0)).refusal, PIM_BAD_LENGTH, 0));
    for (i = 0; i < 5; i++)
        EXPECT(packed(CALLED(packings[i].pack(PIM_IPV4, any, NULL, 0, 0, 60, b, sizeof b)), 0, 0));
    EXPECT(accepted(CALLED(pim_pack_both(PIM_IPV4, any, NULL, 0, 0, 60, b, sizeof b, c, sizeof c)).refusal));
    EXPECT(refused(CALLED(pim_elect_among(NULL, 0)).refusal, PIM_ABSENT, 0));
    EXPECT(CALLED(pim_tally_message(CALLED(pim_tally_none()), NULL, 0)).refused[PIM_BAD_LENGTH] == 1);
    EXPECT(CALLED(pim_tally_octets(CALLED(pim_tally_none()), NULL, 0)).used == 0);
    EXPECT(CALLED(pim_report(NULL, 0)).whole);
    EXPECT(refused(CALLED(pim_popcount_read(NULL, 0, 0)).refusal, PIM_CUT, 0));
    EXPECT(refused(CALLED(pim_check_sheet(PIM_IPV4, NULL, 0)).refusal, PIM_BAD_SHEET, 0));
    EXPECT(refused(CALLED(pim_read_sheet(PIM_IPV4, NULL, 0, b, sizeof b, c, sizeof c)).refusal, PIM_BAD_SHEET, 0));
    EXPECT(CALLED(pim_checksum(NULL, 0)) == 0xffff);
    EXPECT(!CALLED(pim_checksum_holds(NULL, 0)));
    EXPECT(untouched(b, 0, sizeof b));
    EXPECT(CALLED(pim_popcount_merge(own, true, NULL, 0, b, sizeof b)).length == 22);
    EXPECT(CALLED(pim_write_sheet(PIM_IPV4, NULL, 0, NULL, 0, CALLED(pim_table_empty()), b, sizeof b)).length == 28);
    EXPECT(memcmp(b, no_entries, 28) == 0);
}

/* NULL where nothing is lent to be written. */
static void nothing_to_write(void)
{
    uint8_t pairs[18] = {0x2d};
    const uint8_t *e = example_entry;

    put(pairs, 4, pair_record, 14);
    seal(pairs, sizeof pairs);
    EXPECT(refused(CALLED(pim_read_asserts(PIM_IPV4, any, example, sizeof example, NULL, 0)).refusal, PIM_NO_ROOM, 0));
    EXPECT(refused(CALLED(pim_read_pairs(PIM_IPV4, any, pairs, sizeof pairs, NULL, 0)).refusal, PIM_NO_ROOM, 0));
    EXPECT(refused(CALLED(pim_write_hello(PIM_IPV4, any, five, NULL, 0)).refusal, PIM_NO_ROOM, 0));
    EXPECT(refused(CALLED(pim_pack_assert(PIM_IPV4, any, e, 20, 0, 38, NULL, 0)).refusal, PIM_NO_ROOM, 0));
    EXPECT(refused(CALLED(pim_pack_simple(PIM_IPV4, any, e, 20, 0, 38, NULL, 0)).refusal, PIM_NO_ROOM, 0));
    EXPECT(refused(CALLED(pim_pack_aggregated(PIM_IPV4, any, e, 20, 0, 38, NULL, 0)).refusal, PIM_NO_ROOM, 0));
    EXPECT(refused(CALLED(pim_pack_null_register(PIM_IPV4, any, e, 12, 0, 38, NULL, 0)).refusal, PIM_NO_ROOM, 0));
    EXPECT(refused(CALLED(pim_pack_register_stop(PIM_IPV4, any, e, 12, 0, 38, NULL, 0)).refusal, PIM_NO_ROOM, 0));
    EXPECT(refused(CALLED(pim_pack_both(PIM_IPV4, any, e, 20, 0, 38, NULL, 0, NULL, 0)).refusal, PIM_NO_ROOM, 0));
    EXPECT(refused(CALLED(pim_popcount_merge(own, true, attributes, 36, NULL, 0)).refusal, PIM_NO_ROOM, 0));
    EXPECT(refused(CALLED(pim_read_sheet(PIM_IPV4, sheet, sizeof sheet, NULL, 0, NULL, 0)).refusal, PIM_NO_ROOM, 0));
    EXPECT(accepted(CALLED(pim_read_sheet(PIM_IPV4, no_entries, 28, NULL, 0, NULL, 0)).refusal));
    EXPECT(accepted(CALLED(pim_read_sheet(PIM_IPV4, second_no_entries, 28, NULL, 0, NULL, 0)).refusal));
    EXPECT(accepted(CALLED(pim_read_sheet(PIM_IPV4, base_no_entries, 12, NULL, 0, NULL, 0)).refusal));
    EXPECT(refused(CALLED(pim_write_sheet(PIM_IPV4, e, 20, e, 12, one_row(), NULL, 0)).refusal, PIM_NO_ROOM, 0));
}

/* One list as asserts and as pairs, and as both entries of a pack: what is only read may be the same memory. Sixty
 * octets are three asserts or five pairs; as both they are refused, for the second pair begins with no family. */
static void same_memory(void)
{
    uint8_t o[60], buffer[200];
    pim_length_answer l;
    size_t i;

    for (i = 0; i < 3; i++)
        put(o, 20 * i, example_entry, 20);
    memset(buffer, UNTOUCHED, sizeof buffer);
    l = CALLED(pim_write_sheet(PIM_IPV4, o, 60, o, 60, CALLED(pim_table_empty()), buffer, sizeof buffer));
    EXPECT(refused(l.refusal, PIM_BAD_ADDRESS, 0) && untouched(buffer, 0, sizeof buffer));
    /* the pair of the first assert stands in the same octets */
    l = CALLED(pim_write_sheet(PIM_IPV4, o, 60, o, 12, CALLED(pim_table_empty()), buffer, sizeof buffer));
    EXPECT(accepted(l.refusal) && l.length == 28 + 60 + 12 && memcmp(buffer + 28, o, 60) == 0);
    EXPECT(memcmp(buffer + 88, o, 12) == 0 && untouched(buffer, 100, sizeof buffer));
}

/* A message and its entries at every alignment. */
static void any_alignment(void)
{
    uint8_t m[30 + 8], entries[20 + 8];
    size_t i, j;

    for (i = 0; i < 8; i++)
        for (j = 0; j < 8; j++) {
            memcpy(m + i, example, sizeof example);
            EXPECT(CALLED(pim_read_asserts(PIM_IPV4, any, m + i, 30, entries + j, 20)).count == 1);
            EXPECT(memcmp(entries + j, example_entry, 20) == 0);
        }
}

/* ---- IPv6 */

/* Octets from their hexadecimal digits, with spaces between; how many. */
static size_t hex(uint8_t *o, const char *text)
{
    size_t digits = 0;

    for (; *text != 0; text++) {
        const int digit = *text <= '9' ? *text - '0' : *text - 'A' + 10;

        if (*text == ' ')
            continue;
        o[digits / 2] = (uint8_t)(digits % 2 == 0 ? digit << 4 : o[digits / 2] | digit);
        digits++;
    }
    return digits / 2;
}

/* Both directions, and the order of the octets. */
static void address_octets(void)
{
    static const uint8_t ipv4[4] = {10, 1, 2, 255};
    static const uint8_t ipv6[16] = {0xfe, 0x80, 3, 4, 5, 6, 7, 8, 0x90, 10, 11, 12, 13, 14, 15, 0xff};
    uint8_t o[17];
    pim_address a = pim_address_from_ipv4(ipv4);

    EXPECT(is(a, 0, 0x0a0102ff));
    memset(o, UNTOUCHED, sizeof o);
    pim_address_to_ipv4(a, o);
    EXPECT(memcmp(o, ipv4, 4) == 0 && untouched(o, 4, sizeof o));
    a = pim_address_from_ipv6(ipv6);
    EXPECT(is(a, 0xfe80030405060708u, 0x900a0b0c0d0e0fffu));
    pim_address_to_ipv6(a, o);
    EXPECT(memcmp(o, ipv6, 16) == 0 && untouched(o, 16, sizeof o));
    pim_address_to_ipv4(a, o); /* the low 32 bits */
    EXPECT(o[0] == 13 && o[1] == 14 && o[2] == 15 && o[3] == 0xff);
}

/* fe80::a1b2:c3d4 to ff02::d. Its words and next header 103 have the sum fe80 + a1b2 = 1a032, so a033; + c3d4 = 16407,
 * so 6408; + ff02 = 1630a, so 630b; + d = 6318; + 67 = 637f. The length of the message comes to it. */
static const pim_path lan = {{0xfe80000000000000u, 0xa1b2c3d4}, {0xff02000000000000u, 0xd}};
enum { LAN_SUM = 0x637f };

static void seal6(uint8_t *m, size_t n)
{
    seal_after((uint32_t)(LAN_SUM + n), m, n);
}

#define GROUP "FF3E2122 23242526 2728292A 2B2C2D2E "
#define OTHER_GROUP "FF0E3132 33343536 3738393A 3B3C3D3E "
#define SOURCE "20010DB8 11121314 15161718 191A1B1C "
#define NO_SOURCE "00000000 00000000 00000000 00000000 "
#define NUMBERS "01020304 05060708 "
#define R_NUMBERS "81020304 05060708 "
#define FAMILY_6 "02000000 "
#define A_GROUP "02000080 "
#define A_SOURCE "0200 "

typedef pim_pack_answer packing(uint8_t, pim_path, const uint8_t *, size_t, size_t, size_t, uint8_t *, size_t);

/* Messages and the entries they stand for. Beside each the sum of the pseudo-header and the message without its
 * checksum, which is that taken from ffff. */
static const struct {
    const char *message, *entries;
    packing *pack;
    uint8_t kind;
    size_t length;
} hand_made[] = {
    /* source aggregated, two groups: 637f + 4e + 2503 + 1014 + b443 + 2 + 13d8 + 8418 = 1e519, so e51a */
    {"2503 1AE5 00000000 " NUMBERS A_SOURCE SOURCE "0002 0000 " A_GROUP GROUP A_GROUP OTHER_GROUP,
     FAMILY_6 GROUP SOURCE NUMBERS FAMILY_6 OTHER_GROUP SOURCE NUMBERS, pim_pack_aggregated, PIM_AGGREGATED, 78},
    /* one group twice, without a source: 637f + 44 + 2503 + 9014 + 2 + 13d8 + 13d8 = 1408c, so 408d */
    {"2503 BF72 00000000 " R_NUMBERS "0002 0000 " A_GROUP GROUP "0000 0000 " A_GROUP GROUP "0000 0000 ",
     FAMILY_6 GROUP NO_SOURCE R_NUMBERS FAMILY_6 GROUP NO_SOURCE R_NUMBERS, pim_pack_aggregated, PIM_AGGREGATED, 68},
    /* a plain assert: 637f + 32 + 2500 + 13d8 + b443 + 1014 = 160e0, so 60e1 */
    {"2500 9F1E " A_GROUP GROUP A_SOURCE SOURCE NUMBERS, FAMILY_6 GROUP SOURCE NUMBERS, pim_pack_assert, PIM_ASSERT,
     50},
    /* simple, the second without a source: 637f + 64 + 2501 + 13d8 + b443 + 1014 + 8418 + 200 + bf9d = 2a6c8, so a6ca
     */
    {"2501 5935 00000000 " A_GROUP GROUP A_SOURCE SOURCE NUMBERS A_GROUP OTHER_GROUP A_SOURCE NO_SOURCE
     "89012345 6789ABCD ",
     FAMILY_6 GROUP SOURCE NUMBERS FAMILY_6 OTHER_GROUP NO_SOURCE "89012345 6789ABCD ", pim_pack_simple, PIM_SIMPLE,
     100},
    /* a null-register of two pairs: 637f + 50 + 2d00 + 13d8 + b443 + 8418 + 63eb = 240ed, so 40ef */
    {"2D00 BF10 " A_GROUP GROUP A_SOURCE SOURCE A_GROUP OTHER_GROUP A_SOURCE "FE805152 53545556 5758595A 5B5C5D5E",
     FAMILY_6 GROUP SOURCE FAMILY_6 OTHER_GROUP "FE805152 53545556 5758595A 5B5C5D5E", pim_pack_null_register,
     PIM_NULL_REGISTER, 80},
    /* a register-stop, the second pair without a source: 637f + 50 + 2d10 + 13d8 + b443 + 8418 + 200 = 1df12, so df13
     */
    {"2D10 20EC " A_GROUP GROUP A_SOURCE SOURCE A_GROUP OTHER_GROUP A_SOURCE NO_SOURCE,
     FAMILY_6 GROUP SOURCE FAMILY_6 OTHER_GROUP NO_SOURCE, pim_pack_register_stop, PIM_REGISTER_STOP, 80},
};

static bool has_pairs(uint8_t kind)
{
    return kind == PIM_NULL_REGISTER || kind == PIM_REGISTER_STOP;
}

static pim_read_answer read6(uint8_t kind, pim_path path, const uint8_t *m, size_t n, uint8_t *entries, size_t room)
{
    return has_pairs(kind) ? CALLED(pim_read_pairs(PIM_IPV6, path, m, n, entries, room))
                           : CALLED(pim_read_asserts(PIM_IPV6, path, m, n, entries, room));
}

/* Each is read into its entries, and packed from them. */
static void ipv6_messages(void)
{
    uint8_t m[100], list[88], entries[90], buffer[102];
    size_t i;

    for (i = 0; i < sizeof hand_made / sizeof hand_made[0]; i++) {
        const uint8_t kind = hand_made[i].kind;
        const size_t n = hex(m, hand_made[i].message), size = hex(list, hand_made[i].entries);
        const size_t count = size / (has_pairs(kind) ? PIM_IPV6_PAIR_ENTRY : PIM_IPV6_ASSERT_ENTRY);
        const size_t limit = n < PIM_IPV6_LEAST_LIMIT ? PIM_IPV6_LEAST_LIMIT : n;
        pim_header_answer h = CALLED(pim_header(PIM_IPV6, lan, m, n));
        pim_read_answer r;

        EXPECT(n == hand_made[i].length && accepted(h.refusal) && h.kind == kind);
        EXPECT(CALLED(pim_body(PIM_IPV6, lan, m, n)) == n - 4);
        memset(entries, UNTOUCHED, sizeof entries);
        r = read6(kind, lan, m, n, entries, size - 1);
        EXPECT(refused(r.refusal, PIM_NO_ROOM, 0) && untouched(entries, 0, sizeof entries));
        r = read6(kind, lan, m, n, entries, sizeof entries);
        EXPECT(accepted(r.refusal) && r.count == count && r.kind == kind);
        EXPECT(memcmp(entries, list, size) == 0 && untouched(entries, size, sizeof entries));
        memset(buffer, UNTOUCHED, sizeof buffer);
        EXPECT(packed(CALLED(hand_made[i].pack(PIM_IPV6, lan, list, size, 0, limit, buffer, limit)), n, count));
        EXPECT(memcmp(buffer, m, n) == 0 && untouched(buffer, n, sizeof buffer));
        EXPECT(packed(CALLED(hand_made[i].pack(PIM_IPV6, lan, list, size, count, limit, buffer, limit)), 0, 0));
    }
}

/* The record of the plain assert at 4: group, source, R word and metric at 4, 24, 42 and 46. */
static void ipv6_records(void)
{
    uint8_t m[50];
    const size_t n = hex(m, hand_made[2].message);
    pim_record_answer r = CALLED(pim_read_record(PIM_IPV6, PIM_ASSERT, m, n, 4));

    EXPECT(accepted(r.refusal) && r.next == 50 && !r.is_pair && r.r_preference == 0x01020304 && r.metric == 0x05060708);
    EXPECT(is(r.group, 0xff3e212223242526u, 0x2728292a2b2c2d2eu));
    EXPECT(is(r.source, 0x20010db811121314u, 0x15161718191a1b1cu));
    r = CALLED(pim_read_record(PIM_IPV6, PIM_NULL_REGISTER, m, n, 4));
    EXPECT(accepted(r.refusal) && r.next == 42 && r.is_pair && r.r_preference == 0 && r.metric == 0);
    EXPECT(is(r.group, 0xff3e212223242526u, 0x2728292a2b2c2d2eu));
    EXPECT(is(r.source, 0x20010db811121314u, 0x15161718191a1b1cu));
    EXPECT(refused(CALLED(pim_read_record(PIM_IPV6, PIM_AGGREGATED, m, n, 4)).refusal, PIM_BAD_KIND, 0));
    EXPECT(refused(CALLED(pim_read_record(PIM_IPV6, PIM_ASSERT, m, n, 5)).refusal, PIM_BAD_ADDRESS, 5));
    EXPECT(refused(CALLED(pim_read_record(PIM_IPV6, PIM_ASSERT, m, n, SIZE_MAX)).refusal, PIM_CUT, SIZE_MAX));
    EXPECT(refused(CALLED(pim_read_record(PIM_IPV6, PIM_ASSERT, m, 23, 4)).refusal, PIM_CUT, 4));
    EXPECT(refused(CALLED(pim_read_record(PIM_IPV6, PIM_ASSERT, m, 41, 4)).refusal, PIM_CUT, 24));
    EXPECT(refused(CALLED(pim_read_record(PIM_IPV6, PIM_ASSERT, m, 45, 4)).refusal, PIM_CUT, 42));
    EXPECT(refused(CALLED(pim_read_record(PIM_IPV6, PIM_ASSERT, m, 49, 4)).refusal, PIM_CUT, 46));
}

/* A hand-made message of which `count` octets from number `at` on become `value`, and the first n are read. */
typedef struct {
    size_t message, at, count;
    uint8_t value;
    size_t n;
    unsigned number;
    size_t place;
} fault6;

static void ipv6_at_fault(void)
{
    static const fault6 faults[] = {
        /* source aggregated: R word, metric, source, number and reserved at 8, 12, 16, 34 and 36, groups at 38 and 58
         */
        {0, 0, 0, 0, 4, PIM_CUT, 4},
        {0, 0, 0, 0, 7, PIM_CUT, 5},
        {0, 0, 0, 0, 8, PIM_NO_RECORD, 8},
        {0, 4, 1, 1, 78, PIM_NO_RECORD, 4},
        {0, 0, 0, 0, 11, PIM_CUT, 8},
        {0, 0, 0, 0, 33, PIM_CUT, 16},
        {0, 0, 0, 0, 35, PIM_CUT, 34},
        {0, 0, 0, 0, 37, PIM_CUT, 36},
        {0, 0, 0, 0, 57, PIM_CUT, 38},
        {0, 0, 0, 0, 77, PIM_CUT, 58},
        {0, 16, 1, 1, 78, PIM_BAD_ADDRESS, 16},
        {0, 18, 16, 0, 78, PIM_BAD_ADDRESS, 16},
        {0, 18, 1, 0xff, 34, PIM_BAD_ADDRESS, 16},
        {0, 18, 1, 0xff, 33, PIM_CUT, 16},
        {0, 35, 1, 0, 78, PIM_CUT, 34},
        {0, 35, 1, 3, 78, PIM_CUT, 78},
        {0, 38, 1, 1, 78, PIM_BAD_ADDRESS, 38},
        {0, 41, 1, 32, 78, PIM_BAD_ADDRESS, 38},
        {0, 62, 1, 0xfe, 78, PIM_BAD_ADDRESS, 58},
        {0, 62, 1, 0xfe, 77, PIM_CUT, 58},
        /* RP aggregated: number at 16, groups at 20 and 44, numbers at 40 and 64 */
        {1, 17, 1, 0, 68, PIM_CUT, 16},
        {1, 17, 1, 3, 68, PIM_CUT, 68},
        {1, 20, 1, 1, 68, PIM_BAD_ADDRESS, 20},
        {1, 0, 0, 0, 65, PIM_CUT, 64},
        {1, 0, 0, 0, 67, PIM_CUT, 66},
        {1, 41, 1, 1, 62, PIM_CUT, 62},
        {1, 65, 1, 1, 68, PIM_CUT, 68},
        /* a plain assert: group, source, R word and metric at 4, 24, 42 and 46 */
        {2, 4, 1, 1, 50, PIM_BAD_ADDRESS, 4},
        {2, 4, 1, 1, 23, PIM_CUT, 4},
        {2, 24, 1, 1, 50, PIM_BAD_ADDRESS, 24},
        {2, 26, 16, 0, 50, PIM_BAD_ADDRESS, 24},
        {2, 26, 16, 0, 46, PIM_BAD_ADDRESS, 24},
        {2, 26, 16, 0, 45, PIM_CUT, 42},
        {2, 26, 16, 0xff, 42, PIM_BAD_ADDRESS, 24},
        {2, 26, 1, 0xfe, 45, PIM_CUT, 42},
        {2, 0, 0, 0, 49, PIM_CUT, 46},
        /* a simple message: records at 8 and 54; the second has its source at 74 */
        {3, 54, 1, 1, 100, PIM_BAD_ADDRESS, 54},
        {3, 92, 1, 0, 100, PIM_BAD_ADDRESS, 74},
        {3, 92, 1, 0, 95, PIM_CUT, 92},
        {3, 76, 1, 0xff, 92, PIM_BAD_ADDRESS, 74},
        /* pairs at 4 and 42 */
        {4, 0, 0, 0, 4, PIM_NO_RECORD, 4},
        {4, 64, 16, 0, 80, PIM_BAD_ADDRESS, 62},
        {4, 64, 16, 0, 79, PIM_CUT, 62},
        {5, 42, 1, 1, 80, PIM_BAD_ADDRESS, 42},
        {5, 64, 16, 0xff, 80, PIM_BAD_ADDRESS, 62},
    };
    uint8_t m[102], entries[88];
    size_t i;

    memset(entries, UNTOUCHED, sizeof entries);
    for (i = 0; i < sizeof faults / sizeof faults[0]; i++) {
        const fault6 *f = &faults[i];
        pim_read_answer r;

        hex(m, hand_made[f->message].message);
        memset(m + f->at, f->value, f->count);
        seal6(m, f->n);
        r = read6(hand_made[f->message].kind, lan, m, f->n, entries, sizeof entries);
        if (!refused(r.refusal, f->number, f->place)) {
            char what[80];

            snprintf(what, sizeof what, "fault %lu: refusal %u at %lu", (unsigned long)i, f->number,
                     (unsigned long)f->place);
            fail(__LINE__, what);
        }
        EXPECT(r.count == 0 && r.kind == 0 && untouched(entries, 0, sizeof entries));
    }
    /* octets after a plain assert */
    hex(m, hand_made[2].message);
    m[50] = m[51] = 0;
    seal6(m, 52);
    EXPECT(refused(read6(PIM_ASSERT, lan, m, 52, entries, sizeof entries).refusal, PIM_CUT, 50));
}

/* 637f + 16 + 2000 + 6c + 68c3 + 28 = ecec. */
static void ipv6_hellos(void)
{
    static const uint8_t octets[22] = {0x20, 0, 0x13, 0x13, 0,    1,    0,    2, 0,  105, 0,
                                       19,   0, 4,    0x12, 0x34, 0x56, 0x78, 0, 40, 0,   0};
    static const pim_hello said = {105, true, 0x12345678, true};
    uint8_t buffer[24];
    pim_length_answer l;
    pim_hello_answer h = CALLED(pim_read_hello(PIM_IPV6, lan, octets, sizeof octets));

    EXPECT(accepted(h.refusal) && h.hello.holdtime == 105 && h.hello.has_priority && h.hello.priority == 0x12345678 &&
           h.hello.packing);
    memset(buffer, UNTOUCHED, sizeof buffer);
    l = CALLED(pim_write_hello(PIM_IPV6, lan, said, buffer, 21));
    EXPECT(refused(l.refusal, PIM_NO_ROOM, 0) && untouched(buffer, 0, sizeof buffer));
    l = CALLED(pim_write_hello(PIM_IPV6, lan, said, buffer, sizeof buffer));
    EXPECT(accepted(l.refusal) && l.length == 22 && memcmp(buffer, octets, 22) == 0 && untouched(buffer, 22, 24));
    buffer[13] = 5;
    seal6(buffer, 22);
    EXPECT(refused(CALLED(pim_read_hello(PIM_IPV6, lan, buffer, 22)).refusal, PIM_BAD_OPTION, 10));
    buffer[13] = 4;
    seal6(buffer, 17);
    EXPECT(refused(CALLED(pim_read_hello(PIM_IPV6, lan, buffer, 17)).refusal, PIM_CUT, 14));
}

/* An entry of a group ff3e::g and a source 2001:db8::s, or none where s is 0. */
static void make_entry6(uint8_t *entry, uint8_t g, uint8_t s, bool r)
{
    hex(entry, FAMILY_6 "FF3E0000 00000000 00000000 00000000" NO_SOURCE "0000006E 00000014");
    entry[19] = g;
    if (s != 0) {
        entry[20] = 0x20;
        entry[21] = 0x01;
        entry[22] = 0x0d;
        entry[23] = 0xb8;
        entry[35] = s;
    }
    entry[36] = (uint8_t)(r ? 0x80 : 0);
}

/* Limit 0 is 556: 11 records of 46 octets after 8, 25 groups of 20 after 38, 14 pairs of 38 after 4. The choice takes
 * the one that took more. */
static void ipv6_packing(void)
{
    uint8_t e[40 * PIM_IPV6_ASSERT_ENTRY], pairs[40 * PIM_IPV6_PAIR_ENTRY], a[PIM_USUAL_LIMIT], b[PIM_USUAL_LIMIT];
    pim_choice_answer c;
    size_t i;

    for (i = 0; i < 40; i++) {
        make_entry6(e + PIM_IPV6_ASSERT_ENTRY * i, (uint8_t)i, 1, false);
        put(pairs, PIM_IPV6_PAIR_ENTRY * i, e + PIM_IPV6_ASSERT_ENTRY * i, PIM_IPV6_PAIR_ENTRY);
    }
    EXPECT(packed(CALLED(pim_pack_simple(PIM_IPV6, lan, e, sizeof e, 0, 0, a, sizeof a)), 514, 11));
    EXPECT(packed(CALLED(pim_pack_aggregated(PIM_IPV6, lan, e, sizeof e, 0, 0, a, sizeof a)), 538, 25));
    EXPECT(packed(CALLED(pim_pack_aggregated(PIM_IPV6, lan, e, sizeof e, 25, 0, a, sizeof a)), 338, 15));
    EXPECT(packed(CALLED(pim_pack_null_register(PIM_IPV6, lan, pairs, sizeof pairs, 0, 0, a, sizeof a)), 536, 14));
    EXPECT(packed(CALLED(pim_pack_register_stop(PIM_IPV6, lan, pairs, sizeof pairs, 28, 0, a, sizeof a)), 460, 12));
    EXPECT(packed(CALLED(pim_pack_assert(PIM_IPV6, lan, e, sizeof e, 39, 0, a, sizeof a)), 50, 1));
    c = CALLED(pim_pack_both(PIM_IPV6, lan, e, sizeof e, 0, 0, a, sizeof a, b, sizeof b));
    EXPECT(accepted(c.refusal) && c.aggregated && c.length == 538 && c.taken == 25);
    EXPECT(CALLED(pim_checksum_ipv6_holds(lan, a, 514)) && CALLED(pim_checksum_ipv6_holds(lan, b, 538)));
    /* one entry: 54 octets as simple, 58 as aggregated */
    c = CALLED(pim_pack_both(PIM_IPV6, lan, e, PIM_IPV6_ASSERT_ENTRY, 0, 62, a, 62, b, 62));
    EXPECT(accepted(c.refusal) && !c.aggregated && c.length == 54 && c.taken == 1);
    c = CALLED(pim_pack_both(PIM_IPV6, lan, e, sizeof e, 40, 0, a, sizeof a, b, sizeof b));
    EXPECT(accepted(c.refusal) && !c.aggregated && c.length == 0 && c.taken == 0);
}

/* One to five entries of one group without a source: group records of 24 octets up to three, then one with sources of
 * 18; and with a source among them. 20 octets go before. */
static void ipv6_runs(void)
{
    static const size_t lengths[5] = {44, 68, 92, 116, 134};
    uint8_t e[5 * PIM_IPV6_ASSERT_ENTRY], b[134];
    size_t i;

    for (i = 0; i < 5; i++)
        make_entry6(e + PIM_IPV6_ASSERT_ENTRY * i, 1, 0, true);
    for (i = 0; i < 5; i++) {
        const size_t size = PIM_IPV6_ASSERT_ENTRY * (i + 1);

        EXPECT(packed(CALLED(pim_pack_aggregated(PIM_IPV6, lan, e, size, 0, 134, b, 134)), lengths[i], i + 1));
        EXPECT(b[17] == (i < 3 ? i + 1 : 1) && b[41] == (i < 3 ? 0 : i + 1));
    }
    /* cut by the limit */
    EXPECT(packed(CALLED(pim_pack_aggregated(PIM_IPV6, lan, e, sizeof e, 0, 67, b, 134)), 44, 1));
    EXPECT(packed(CALLED(pim_pack_aggregated(PIM_IPV6, lan, e, sizeof e, 0, 115, b, 134)), 92, 3));
    EXPECT(packed(CALLED(pim_pack_aggregated(PIM_IPV6, lan, e, sizeof e, 0, 133, b, 134)), 116, 4));
    /* the third with a source: joined at 98, before that two alone */
    make_entry6(e + 2 * PIM_IPV6_ASSERT_ENTRY, 1, 7, true);
    EXPECT(packed(CALLED(pim_pack_aggregated(PIM_IPV6, lan, e, 3 * PIM_IPV6_ASSERT_ENTRY, 0, 97, b, 134)), 68, 2));
    EXPECT(packed(CALLED(pim_pack_aggregated(PIM_IPV6, lan, e, 3 * PIM_IPV6_ASSERT_ENTRY, 0, 98, b, 134)), 98, 3));
    EXPECT(b[17] == 1 && b[41] == 3);
    EXPECT(packed(CALLED(pim_pack_aggregated(PIM_IPV6, lan, e, 3 * PIM_IPV6_ASSERT_ENTRY, 2, 62, b, 134)), 62, 1));
}

/* 9 below 62, 8, 10, then 7, also for an entry's family and zeros. */
static void ipv6_packing_refuses(void)
{
    uint8_t e[2 * PIM_IPV6_ASSERT_ENTRY], b[PIM_IPV6_LEAST_LIMIT], c[PIM_IPV6_LEAST_LIMIT];
    const size_t size = sizeof e;
    size_t i;

    make_entry6(e, 1, 1, false);
    make_entry6(e + PIM_IPV6_ASSERT_ENTRY, 2, 1, false);
    memset(b, UNTOUCHED, sizeof b);
    memset(c, UNTOUCHED, sizeof c);
    for (i = 0; i < 4; i++) {
        e[PIM_IPV6_ASSERT_ENTRY + i] ^= 1; /* the second entry's family, or a zero */
        EXPECT(refused(CALLED(pim_pack_assert(PIM_IPV6, lan, e, size - 1, 0, 61, b, 61)).refusal, PIM_BAD_LIMIT, 0));
        EXPECT(refused(CALLED(pim_pack_simple(PIM_IPV6, lan, e, size - 1, 0, 62, b, 61)).refusal, PIM_NO_ROOM, 0));
        EXPECT(refused(CALLED(pim_pack_aggregated(PIM_IPV6, lan, e, size - 1, 0, 62, b, 62)).refusal, PIM_BAD_LIST, 0));
        EXPECT(refused(CALLED(pim_pack_aggregated(PIM_IPV6, lan, e, size, 3, 62, b, 62)).refusal, PIM_BAD_LIST, 0));
        EXPECT(refused(CALLED(pim_pack_aggregated(PIM_IPV6, lan, e, size, 0, 62, b, 62)).refusal, PIM_BAD_ADDRESS, 1));
        EXPECT(refused(CALLED(pim_pack_both(PIM_IPV6, lan, e, size, 1, 62, b, 62, c, 62)).refusal, PIM_BAD_ADDRESS, 1));
        EXPECT(refused(CALLED(pim_pack_both(PIM_IPV6, lan, e, size, 1, 62, b, 62, c, 61)).refusal, PIM_NO_ROOM, 0));
        e[PIM_IPV6_ASSERT_ENTRY + i] ^= 1;
    }
    e[4] = 0xfe; /* no group; then a source that is one, and none where R is 0 */
    EXPECT(refused(CALLED(pim_pack_simple(PIM_IPV6, lan, e, size, 0, 62, b, 62)).refusal, PIM_BAD_ADDRESS, 0));
    e[4] = e[20] = 0xff;
    EXPECT(refused(CALLED(pim_pack_simple(PIM_IPV6, lan, e, size, 0, 62, b, 62)).refusal, PIM_BAD_ADDRESS, 0));
    memset(e + 20, 0, 16);
    EXPECT(refused(CALLED(pim_pack_simple(PIM_IPV6, lan, e, size, 0, 62, b, 62)).refusal, PIM_BAD_ADDRESS, 0));
    EXPECT(untouched(b, 0, sizeof b) && untouched(c, 0, sizeof c));
}

/* What gives k entries in the fewest octets: k group records without sources, or from four on one with k of them. */
static size_t smallest6(uint8_t *m, size_t k)
{
    size_t n = hex(m, "2503 0000 00000000 8000006E 00000014"), i;

    n = put_number(m, n, 4, (k < 4 ? k : 1) << 16);
    for (i = 0; i < (k < 4 ? k : 1); i++) {
        n += hex(m + n, A_GROUP GROUP);
        n = put_number(m, n, 4, (k < 4 ? 0 : k) << 16);
    }
    for (i = 0; k >= 4 && i < k; i++)
        n += hex(m + n, A_SOURCE SOURCE);
    seal6(m, n);
    return n;
}

static void ipv6_most_is_attained(void)
{
    static const size_t bounds[] = {44, 67, 68, 91, 92, 115, 116, 133, 134, PIM_USUAL_LIMIT, 1460, PIM_LONGEST_MESSAGE};
    static uint8_t m[PIM_LONGEST_MESSAGE], entries[PIM_IPV6_ASSERT_ENTRY * PIM_IPV6_MOST_ASSERTS(PIM_LONGEST_MESSAGE)];
    pim_read_answer read;
    size_t i, n;

    for (i = 0; i < sizeof bounds / sizeof bounds[0]; i++) {
        const size_t k = PIM_IPV6_MOST_ASSERTS(bounds[i]);

        n = smallest6(m, k);
        EXPECT(n <= bounds[i] && PIM_IPV6_MOST_ASSERTS(n) == k && PIM_IPV6_MOST_ASSERTS(n - 1) == k - 1);
        read = CALLED(pim_read_asserts(PIM_IPV6, lan, m, n, entries, PIM_IPV6_ASSERT_ENTRY * k));
        EXPECT(accepted(read.refusal) && read.count == k && read.kind == PIM_AGGREGATED);
        read = CALLED(pim_read_asserts(PIM_IPV6, lan, m, n, entries, PIM_IPV6_ASSERT_ENTRY * k - 1));
        EXPECT(refused(read.refusal, PIM_NO_ROOM, 0));
    }
    /* 1,723 pairs: 4 + 38 * 1,723 = 65,478 */
    EXPECT(PIM_IPV6_MOST_PAIRS(PIM_LONGEST_MESSAGE) == 1723);
    n = hex(m, "2D10 0000");
    for (i = 0; i < 1723; i++)
        n += hex(m + n, A_GROUP GROUP A_SOURCE SOURCE);
    seal6(m, n);
    read = CALLED(pim_read_pairs(PIM_IPV6, lan, m, n, entries, PIM_IPV6_PAIR_ENTRY * 1723));
    EXPECT(n == 65478 && accepted(read.refusal) && read.count == 1723 && read.kind == PIM_REGISTER_STOP);
}

/* fe80::n */
static pim_address link_local(uint64_t n)
{
    pim_address a;

    a.high = 0xfe80000000000000u;
    a.low = n;
    return a;
}

/* Heard, replaced, forgotten; elected by priority, by address and by its high half; a full table. */
static void ipv6_neighbours(void)
{
    static const pim_hello nine = {210, true, 9, false}, unsaid = {105, false, 0, true};
    const pim_address low = {1, 0xffffffffffffffffu}, high = {2, 0}, zero = {0, 0};
    pim_table table = CALLED(pim_table_empty());
    pim_table_answer t = CALLED(pim_hear(PIM_IPV6, table, link_local(2), five));
    pim_elect_answer e;
    uint64_t i;

    EXPECT(accepted(t.refusal) && t.done == PIM_ADDED && is(t.table.rows[0].address, 0xfe80000000000000u, 2));
    t = CALLED(pim_hear(PIM_IPV6, t.table, low, nine));
    EXPECT(accepted(t.refusal) && t.done == PIM_ADDED && t.table.count == 2);
    e = CALLED(pim_elect(PIM_IPV6, t.table, link_local(1), 8)); /* priority 9 */
    EXPECT(accepted(e.refusal) && is(e.address, 1, 0xffffffffffffffffu));
    EXPECT(!CALLED(pim_packing_allowed(PIM_IPV6, t.table)).allowed);
    t = CALLED(pim_hear(PIM_IPV6, t.table, low, unsaid));
    EXPECT(accepted(t.refusal) && t.done == PIM_REPLACED && t.table.count == 2);
    e = CALLED(pim_elect(PIM_IPV6, t.table, link_local(1), 8)); /* the highest address */
    EXPECT(accepted(e.refusal) && is(e.address, 0xfe80000000000000u, 2));
    EXPECT(CALLED(pim_packing_allowed(PIM_IPV6, t.table)).allowed);
    t = CALLED(pim_forget(PIM_IPV6, t.table, link_local(2)));
    EXPECT(accepted(t.refusal) && t.done == PIM_FORGOTTEN && t.table.count == 1);
    e = CALLED(pim_elect(PIM_IPV6, t.table, high, 0)); /* the high half decides */
    EXPECT(accepted(e.refusal) && is(e.address, 2, 0));
    EXPECT(refused(CALLED(pim_forget(PIM_IPV6, t.table, link_local(2))).refusal, PIM_ABSENT, 0));
    EXPECT(refused(CALLED(pim_elect(PIM_IPV6, t.table, zero, 1)).refusal, PIM_BAD_ADDRESS, 0));
    EXPECT(refused(CALLED(pim_hear(PIM_IPV6, t.table, zero, five)).refusal, PIM_BAD_ADDRESS, 0));
    t.table.rows[0].address = zero;
    EXPECT(refused(CALLED(pim_packing_allowed(PIM_IPV6, t.table)).refusal, PIM_BAD_SHEET, 0));

    t.table = table;
    for (i = 1; i <= PIM_ROWS; i++)
        t = CALLED(pim_hear(PIM_IPV6, t.table, link_local(i), five));
    EXPECT(accepted(t.refusal) && t.table.count == PIM_ROWS);
    EXPECT(refused(CALLED(pim_hear(PIM_IPV6, t.table, link_local(65), five)).refusal, PIM_TABLE_FULL, 0));
    e = CALLED(pim_elect_among(t.table.rows, PIM_ROWS));
    EXPECT(accepted(e.refusal) && is(e.address, 0xfe80000000000000u, 64));
    t.table.rows[3].address = t.table.rows[60].address;
    EXPECT(refused(CALLED(pim_packing_allowed(PIM_IPV6, t.table)).refusal, PIM_BAD_SHEET, 0));
}

/* One assert, two pairs and two neighbours, every field another one: at 28, 72 and 144, to 200. */
#define SHEET_6                                                                                                        \
    "FFFF 0004 00000001 0000001C 00000002 00000048 00000002 00000090 " FAMILY_6                                        \
    "FF020304 05060708 090A0B0C 0D0E0F10 21222324 25262728 292A2B2C 2D2E2F30 B1323334 35363738 " FAMILY_6              \
    "FF111213 14151617 18191A1B 1C1D1E1F 41424344 45464748 494A4B4C 4D4E4F50 " FAMILY_6                                \
    "FF515253 54555657 58595A5B 5C5D5E5F 00000000 00000000 00000000 00000000 " FAMILY_6                                \
    "61626364 65666768 696A6B6C 6D6E6F70 71727374 03 00 7576 " FAMILY_6                                                \
    "81828384 85868788 898A8B8C 8D8E8F90 00000000 00 00 9192"

static void ipv6_sheets(void)
{
    static const size_t entries[5] = {28, 72, 108, 144, 172};
    uint8_t o[200], asserts[46], pairs[74], buffer[202];
    pim_check_answer c;
    pim_sheet_answer s;
    pim_length_answer l;
    size_t i, j;

    EXPECT(hex(o, SHEET_6) == 200);
    c = CALLED(pim_check_sheet(PIM_IPV6, o, 200));
    EXPECT(accepted(c.refusal) && c.counts.asserts == 1 && c.counts.pairs == 2 && c.counts.neighbours == 2);
    memset(asserts, UNTOUCHED, sizeof asserts);
    memset(pairs, UNTOUCHED, sizeof pairs);
    memset(buffer, UNTOUCHED, sizeof buffer);
    EXPECT(refused(CALLED(pim_read_sheet(PIM_IPV6, o, 200, asserts, 43, pairs, 72)).refusal, PIM_NO_ROOM, 0));
    EXPECT(refused(CALLED(pim_read_sheet(PIM_IPV6, o, 200, asserts, 44, pairs, 71)).refusal, PIM_NO_ROOM, 0));
    EXPECT(untouched(asserts, 0, 46) && untouched(pairs, 0, 74));
    s = CALLED(pim_read_sheet(PIM_IPV6, o, 200, asserts, sizeof asserts, pairs, sizeof pairs));
    EXPECT(accepted(s.refusal) && s.counts.asserts == 1 && s.counts.pairs == 2 && s.counts.neighbours == 2);
    EXPECT(memcmp(asserts, o + 28, 44) == 0 && untouched(asserts, 44, 46));
    EXPECT(memcmp(pairs, o + 72, 72) == 0 && untouched(pairs, 72, 74));
    EXPECT(s.table.count == 2 && unused(&s.table, 2));
    EXPECT(is(s.table.rows[0].address, 0x6162636465666768u, 0x696a6b6c6d6e6f70u));
    EXPECT(s.table.rows[0].priority == 0x71727374 && s.table.rows[0].has_priority && s.table.rows[0].packs);
    EXPECT(s.table.rows[0].holdtime == 0x7576 && s.table.rows[1].holdtime == 0x9192);
    EXPECT(is(s.table.rows[1].address, 0x8182838485868788u, 0x898a8b8c8d8e8f90u) && !s.table.rows[1].packs);
    l = CALLED(pim_write_sheet(PIM_IPV6, asserts, 44, pairs, 72, s.table, buffer, 199));
    EXPECT(refused(l.refusal, PIM_NO_ROOM, 0) && untouched(buffer, 0, sizeof buffer));
    l = CALLED(pim_write_sheet(PIM_IPV6, asserts, 44, pairs, 72, s.table, buffer, sizeof buffer));
    EXPECT(accepted(l.refusal) && l.length == 200 && memcmp(buffer, o, 200) == 0 && untouched(buffer, 200, 202));
    EXPECT(refused(CALLED(pim_write_sheet(PIM_IPV6, asserts, 43, pairs, 72, s.table, buffer, 0)).refusal, PIM_BAD_LIST,
                   0));
    asserts[4] = 0xfe;
    l = CALLED(pim_write_sheet(PIM_IPV6, asserts, 44, pairs, 72, s.table, buffer, sizeof buffer));
    EXPECT(refused(l.refusal, PIM_BAD_ADDRESS, 0));

    /* every entry: its family and zeros, and what it begins with, which is then neither a group nor an address */
    for (i = 0; i < 5; i++) {
        for (j = 0; j < 4; j++) {
            o[entries[i] + j] ^= 3;
            bad_sheet_of(PIM_IPV6, o, 200, entries[i]);
            o[entries[i] + j] ^= 3;
        }
        hex(o, SHEET_6);
        memset(o + entries[i] + 4, 0, 16);
        bad_sheet_of(PIM_IPV6, o, 200, entries[i]);
        hex(o, SHEET_6);
    }
    put(o, 176, o + 148, 16); /* the first neighbour's address again */
    bad_sheet_of(PIM_IPV6, o, 200, 172);
    for (i = 0; i < 200; i++)
        bad_sheet_of(PIM_IPV6, o, i, 0);
    for (i = 0; i < 28; i++) {
        hex(o, SHEET_6);
        o[i]++;
        bad_sheet_of(PIM_IPV6, o, 200, 0);
    }
}

/* 8,192 asserts, 8,192 pairs and 64 neighbours: 28 + 360,448 is 0x5801c, 294,912 more 0xa001c. */
static void ipv6_longest_sheet(void)
{
    static uint8_t asserts[PIM_IPV6_ASSERT_ENTRY * PIM_SHEET_ASSERTS], pairs[PIM_IPV6_PAIR_ENTRY * PIM_SHEET_PAIRS];
    const size_t n = PIM_IPV6_LONGEST_SHEET;
    pim_sheet_answer s;
    pim_length_answer l;
    size_t at = hex(longest, "FFFF 0004 00002000 0000001C 00002000 0005801C 00000040 000A001C"), i;

    for (i = 0; i < 8192; i++)
        at += hex(longest + at, FAMILY_6 GROUP SOURCE NUMBERS);
    EXPECT(at == 0x5801c);
    for (i = 0; i < 8192; i++)
        at += hex(longest + at, FAMILY_6 GROUP NO_SOURCE);
    EXPECT(at == 0xa001c);
    for (i = 0; i < 64; i++) {
        at += hex(longest + at, FAMILY_6 "FE800000 00000000 00000000 00000001 00000005 03 00 0069");
        longest[at - 9] = (uint8_t)(i + 1);
    }
    EXPECT(at == n);
    s = CALLED(pim_read_sheet(PIM_IPV6, longest, n, asserts, sizeof asserts, pairs, sizeof pairs));
    EXPECT(accepted(s.refusal) && s.counts.asserts == 8192 && s.counts.pairs == 8192 && s.counts.neighbours == 64);
    EXPECT(is(s.table.rows[63].address, 0xfe80000000000000u, 64));
    l = CALLED(pim_write_sheet(PIM_IPV6, asserts, sizeof asserts, pairs, sizeof pairs, s.table, again, n));
    EXPECT(accepted(l.refusal) && l.length == n && memcmp(again, longest, n) == 0);
    l = CALLED(pim_write_sheet(PIM_IPV6, asserts, sizeof asserts, pairs, sizeof pairs, s.table, again, n - 1));
    EXPECT(refused(l.refusal, PIM_NO_ROOM, 0));
    longest[n - 9] = 1; /* fe80::1 again, in the last row */
    bad_sheet_of(PIM_IPV6, longest, n, n - 28);
    longest[0xa001c - 16] = 0xff; /* the last pair's source */
    bad_sheet_of(PIM_IPV6, longest, n, 0xa001c - 36);
    longest[0x5801c - 24] = 0xff; /* the last assert's source */
    bad_sheet_of(PIM_IPV6, longest, n, 0x5801c - 44);
}

/* The pseudo-header alone; octets with it; a length over 16 bits. */
static void ipv6_checksums(void)
{
    static const uint8_t odd[5] = {0x20, 0, 0xab, 0xcd, 0x14};
    static const pim_path none = {{0, 0}, {0, 0}};
    uint8_t m[100];
    size_t i;

    EXPECT(CALLED(pim_checksum_ipv6(none, NULL, 0)) == 0xffff - 103);
    EXPECT(!CALLED(pim_checksum_ipv6_holds(none, NULL, 0)));
    /* the field counts as 0, the last octet as a high one: 67 + 5 + 2000 + 1400 = 346c */
    EXPECT(CALLED(pim_checksum_ipv6(none, odd, sizeof odd)) == 0xffff - 0x346c);
    memset(longest, 0, 65536);
    EXPECT(CALLED(pim_checksum_ipv6(none, longest, 65536)) == 0xffff - 0x67 - 1);
    for (i = 0; i < sizeof hand_made / sizeof hand_made[0]; i++) {
        const size_t n = hex(m, hand_made[i].message);

        EXPECT(CALLED(pim_checksum_ipv6(lan, m, n)) == (m[2] << 8 | m[3]));
        EXPECT(CALLED(pim_checksum_ipv6_holds(lan, m, n)));
        EXPECT(!CALLED(pim_checksum_holds(m, n)));
        m[n - 1] ^= 1;
        EXPECT(!CALLED(pim_checksum_ipv6_holds(lan, m, n)));
    }
}

/* ---- another path, the other family, and none */

/* Another source, another destination and another length are refused by 3. The two exchanged have the same sum. IPv4
 * ignores the path. */
static void paths(void)
{
    uint8_t m[102], entries[88];
    pim_path path = lan;
    size_t n = hex(m, hand_made[0].message);

    path.source.low ^= 1;
    EXPECT(refused(CALLED(pim_header(PIM_IPV6, path, m, n)).refusal, PIM_BAD_CHECKSUM, 0));
    EXPECT(CALLED(pim_body(PIM_IPV6, path, m, n)) == 0);
    EXPECT(refused(read6(PIM_AGGREGATED, path, m, n, entries, sizeof entries).refusal, PIM_BAD_CHECKSUM, 0));
    EXPECT(!CALLED(pim_checksum_ipv6_holds(path, m, n)));
    path = lan;
    path.destination.high ^= 1;
    EXPECT(refused(CALLED(pim_header(PIM_IPV6, path, m, n)).refusal, PIM_BAD_CHECKSUM, 0));
    path.source = lan.destination;
    path.destination = lan.source;
    EXPECT(accepted(CALLED(pim_header(PIM_IPV6, path, m, n)).refusal));
    m[n] = m[n + 1] = 0;
    EXPECT(refused(CALLED(pim_header(PIM_IPV6, lan, m, n + 2)).refusal, PIM_BAD_CHECKSUM, 0));
    EXPECT(accepted(CALLED(pim_header(PIM_IPV4, lan, example, 30)).refusal));
    EXPECT(accepted(CALLED(pim_header(PIM_IPV4, path, example, 30)).refusal));
}

/* Messages, records and lists of the one family, with the other one named. */
static void other_family(void)
{
    uint8_t m[100], entries[440], list[440], b[62];
    size_t n = hex(m, hand_made[2].message), i;

    /* a plain assert of IPv6, with a checksum of IPv4; and the example, with one of IPv6 */
    EXPECT(refused(CALLED(pim_header(PIM_IPV4, lan, m, n)).refusal, PIM_BAD_CHECKSUM, 0));
    EXPECT(refused(CALLED(pim_header(PIM_IPV6, lan, example, 30)).refusal, PIM_BAD_CHECKSUM, 0));
    seal(m, n);
    EXPECT(refused(CALLED(pim_read_asserts(PIM_IPV4, lan, m, n, entries, 99)).refusal, PIM_BAD_ADDRESS, 4));
    memcpy(m, example, 30);
    seal6(m, 30);
    EXPECT(refused(CALLED(pim_read_asserts(PIM_IPV6, lan, m, 30, entries, 99)).refusal, PIM_BAD_ADDRESS, 8));
    seal6(m, 27); /* 19 octets are not a group of 20 */
    EXPECT(refused(CALLED(pim_read_asserts(PIM_IPV6, lan, m, 27, entries, 99)).refusal, PIM_CUT, 8));
    EXPECT(refused(CALLED(pim_read_record(PIM_IPV6, PIM_SIMPLE, example, 30, 8)).refusal, PIM_BAD_ADDRESS, 8));
    /* 44 octets are not whole entries of 20, 220 are 11 of them; as many are 5 of 44 */
    for (i = 0; i < 5; i++)
        make_entry6(list + 44 * i, 1, 1, false);
    EXPECT(refused(CALLED(pim_pack_simple(PIM_IPV4, lan, list, 44, 0, 62, b, 62)).refusal, PIM_BAD_LIST, 0));
    EXPECT(refused(CALLED(pim_pack_simple(PIM_IPV4, lan, list, 220, 0, 62, b, 62)).refusal, PIM_BAD_ADDRESS, 0));
    for (i = 0; i < 11; i++)
        put(list, 20 * i, example_entry, 20);
    EXPECT(refused(CALLED(pim_pack_simple(PIM_IPV6, lan, list, 20, 0, 62, b, 62)).refusal, PIM_BAD_LIST, 0));
    EXPECT(refused(CALLED(pim_pack_simple(PIM_IPV6, lan, list, 220, 2, 62, b, 62)).refusal, PIM_BAD_ADDRESS, 2));
}

/* Sheets of each form as one of the other family: 14 at 0, also where they are empty. */
static void other_sheets(void)
{
    uint8_t o[200];
    size_t f, n = hex(o, SHEET_6);

    bad_sheet(o, n, 0);
    for (f = 0; f < FORMS; f++)
        bad_sheet_of(PIM_IPV6, forms[f].octets, forms[f].n, 0);
    bad_sheet_of(PIM_IPV6, no_entries, 28, 0);
    bad_sheet_of(PIM_IPV6, second_no_entries, 28, 0);
    bad_sheet_of(PIM_IPV6, base_no_entries, 12, 0);
    memcpy(o, no_entries, 28);
    o[3] = 4;
    bad_sheet(o, 28, 0);
    EXPECT(accepted(CALLED(pim_check_sheet(PIM_IPV6, o, 28)).refusal));
}

/* An address that is none of IPv4, in a row and given to the call: 14, before 7. In IPv6 every number is one. */
static void other_tables(void)
{
    static const pim_address others[4] = {
        {0, 0x100000000u}, {1, 0}, {0xfe80000000000000u, 1}, {0, 0x8000000000000001u}};
    const pim_hello gone = {0, false, 0, false};
    size_t i;

    for (i = 0; i < 4; i++) {
        pim_table table = one_row();
        pim_table_answer t = CALLED(pim_hear(PIM_IPV4, table, others[i], five));

        EXPECT(refused(t.refusal, PIM_BAD_SHEET, 0) && t.done == PIM_NOTHING_DONE && t.table.count == 1);
        EXPECT(refused(CALLED(pim_hear(PIM_IPV4, table, others[i], gone)).refusal, PIM_BAD_SHEET, 0));
        EXPECT(refused(CALLED(pim_forget(PIM_IPV4, table, others[i])).refusal, PIM_BAD_SHEET, 0));
        EXPECT(refused(CALLED(pim_elect(PIM_IPV4, table, others[i], 1)).refusal, PIM_BAD_SHEET, 0));
        t = CALLED(pim_hear(PIM_IPV6, table, others[i], five));
        EXPECT(accepted(t.refusal) && t.table.count == 2);
        bad_table(&t.table);
        EXPECT(CALLED(pim_packing_allowed(PIM_IPV6, t.table)).allowed);
        EXPECT(is(CALLED(pim_elect_among(t.table.rows, 2)).address, others[i].high, others[i].low));
    }
}

/* A number that is neither family: 4 at 0, before everything else. */
static void no_family(void)
{
    static const uint8_t numbers[5] = {0, 3, 4, 128, 255};
    uint8_t b[76], c[76];
    size_t i;

    memset(b, UNTOUCHED, sizeof b);
    memset(c, UNTOUCHED, sizeof c);
    for (i = 0; i < 5; i++) {
        const uint8_t f = numbers[i];
        pim_table table = one_row();
        pim_table_answer t = CALLED(pim_hear(f, table, v4(0), five));
        pim_sheet_answer s = CALLED(pim_read_sheet(f, sheet, sizeof sheet, b, 0, c, 0));
        size_t j;

        EXPECT(refused(t.refusal, PIM_BAD_KIND, 0) && t.done == PIM_NOTHING_DONE && t.table.count == 1);
        EXPECT(row_is(t.table.rows[0], 0x0a000002, &five));
        EXPECT(refused(s.refusal, PIM_BAD_KIND, 0) && s.counts.asserts == 0 && s.table.count == 0);
        table.count = 65;
        EXPECT(refused(CALLED(pim_forget(f, table, v4(0))).refusal, PIM_BAD_KIND, 0));
        EXPECT(refused(CALLED(pim_packing_allowed(f, table)).refusal, PIM_BAD_KIND, 0));
        EXPECT(refused(CALLED(pim_elect(f, table, v4(0), 1)).refusal, PIM_BAD_KIND, 0));
        EXPECT(refused(CALLED(pim_header(f, any, example, 3)).refusal, PIM_BAD_KIND, 0));
        EXPECT(CALLED(pim_body(f, any, example, sizeof example)) == 0);
        EXPECT(refused(CALLED(pim_read_record(f, PIM_SIMPLE, example, sizeof example, 8)).refusal, PIM_BAD_KIND, 0));
        EXPECT(refused(CALLED(pim_read_asserts(f, any, example, sizeof example, b, 76)).refusal, PIM_BAD_KIND, 0));
        EXPECT(refused(CALLED(pim_read_pairs(f, any, example, 0, b, 76)).refusal, PIM_BAD_KIND, 0));
        EXPECT(refused(CALLED(pim_read_hello(f, any, example, 3)).refusal, PIM_BAD_KIND, 0));
        EXPECT(refused(CALLED(pim_write_hello(f, any, five, b, 0)).refusal, PIM_BAD_KIND, 0));
        for (j = 0; j < 5; j++)
            EXPECT(refused(CALLED(packings[j].pack(f, any, example_entry, 20, 0, 1, b, 0)).refusal, PIM_BAD_KIND, 0));
        EXPECT(refused(CALLED(pim_pack_both(f, any, example_entry, 20, 0, 60, b, 60, c, 60)).refusal, PIM_BAD_KIND, 0));
        EXPECT(refused(CALLED(pim_check_sheet(f, sheet, 5)).refusal, PIM_BAD_KIND, 0));
        EXPECT(refused(CALLED(pim_write_sheet(f, b, 1, c, 1, table, b, 0)).refusal, PIM_BAD_KIND, 0));
    }
    EXPECT(untouched(b, 0, sizeof b) && untouched(c, 0, sizeof c));
}

int main(void)
{
    most_entries(&ipv4_sizes);
    most_entries(&ipv6_sizes);
    most_is_attained();
    most_pairs_attained();
    headers();
    records();
    asserts_read();
    pairs_read();
    hellos();
    plain_at_fault();
    simple_at_fault();
    aggregated_at_fault();
    pairs_at_fault();
    hellos_at_fault();
    records_at_fault();
    hellos_written();
    plain_and_simple();
    limit_0();
    source_aggregated();
    rp_aggregated();
    pairs_packed();
    packing_refuses();
    choices();
    hearing();
    full_tables();
    bad_tables();
    elections();
    elections_among();
    counters();
    reports();
    pieces();
    tallies_full();
    attributes_read();
    each_option();
    speeds();
    merges();
    attributes_at_fault();
    sheets_read();
    sheets_octet_by_octet();
    sheets_written();
    sheet_entries_at_fault();
    sheet_headers_at_fault();
    first_words();
    offsets_from_other_places();
    sheet_limits();
    longest_base_sheet();
    longest_sheet();
    checksums();
    sources_in_messages();
    sources_in_order();
    sources_in_records();
    sources_packed();
    sources_chosen();
    sources_in_sheets();
    routers_are_no_sources();
    sources_reported();
    nothing_to_read();
    nothing_to_write();
    same_memory();
    any_alignment();
    address_octets();
    ipv6_messages();
    ipv6_records();
    ipv6_at_fault();
    ipv6_hellos();
    ipv6_packing();
    ipv6_runs();
    ipv6_packing_refuses();
    ipv6_most_is_attained();
    ipv6_neighbours();
    ipv6_sheets();
    ipv6_longest_sheet();
    ipv6_checksums();
    paths();
    other_family();
    other_sheets();
    other_tables();
    no_family();
    printf("%lu calls, all as expected\n", calls);
    return fflush(stdout) == 0 ? EXIT_SUCCESS : EXIT_FAILURE;
}
