/* Pelseydrip: PIM messages of a shared LAN, read, packed and kept.
 *
 * The functions of the library are proved to meet their contracts (crates/pim/src): no input traps them, every call
 * ends, and a call that refuses changes none of the memory lent to it. The compiler and this header are not proved. The
 * header says in words what the contracts say, and is tested: examples/every.c calls every function and asserts every
 * size and offset, as C99 and as C++. docs/FORMAT.md describes the octets of messages and sheets, and the refusal
 * numbers, in full.
 *
 * Link target/staticlib/libpim.a (README.md has the lines). It is for x86-64 with the System V calling convention, as
 * on Linux. Of other libraries it needs the C library's memory functions alone (memcpy and such).
 *
 * Lent memory is a pointer and a length, and a call keeps no pointer after it returns. The length counts octets; that
 * of a list of rows counts rows. Counters are lent by a pointer alone, to one record, never NULL.
 * - A pointer lent with length 0 may be NULL: nothing is read or written through it. Any other pointer is not NULL.
 * - Octets need no alignment. Rows and counters are aligned as C aligns them.
 * - Memory that a call only reads (const) may be the same as, or overlap, other memory that it only reads. Memory that
 *   it writes must not overlap any other memory lent to the same call.
 * - Calls share nothing and keep nothing. Any calls may run at the same time in threads, as long as none writes memory
 *   that is lent to another.
 *
 * All other records go by value; each has its size beside it. Compare them field by field: octets between fields are
 * not set. A bool in a record, or passed by itself, must be 0 or 1, as C's conversions make it. No call refuses another
 * one, and with it nothing is promised.
 *
 * Numbers in messages, entries and sheets are big-endian; numbers in records are plain numbers of this machine.
 *
 * A message, a list of entries, a table and a sheet are of one address family, IPv4 or IPv6. The caller names it first:
 * `family` is an enum pim_family. A number that is neither is refused by 4 at 0 before anything else is looked at
 * (pim_body, which refuses nothing: 0).
 *
 * The checksum of a PIM message in IPv6 covers a pseudo-header (RFC 8200) beside the message: the IPv6 source and
 * destination that it was sent with, its length, and next header 103. A call that reads or writes a header therefore
 * takes a `path` after the family, these two addresses, which may be any two. A message that is read with others than
 * its checksum was made from is refused by 3, unless their words have the same sum, as the two exchanged have. In IPv4
 * there is no pseudo-header, and the path is ignored: all 0 will do.
 *
 * An address is a number in two halves, pim_address. In IPv4 the high half is 0, and 10.0.0.1 is 0x0a000001 in the low
 * one; fe80::1 is 0xfe80000000000000 in the high half and 1 in the low one. A group lies in 224.0.0.0/4, or in
 * ff00::/8. A source does not, and it is not 255.255.255.255, wherever a source stands: in messages, entries and
 * sheets. 0 stands for no source, and is allowed with R, in a PIM_REGISTER_STOP and in the pairs of a sheet. An address
 * of a neighbour, or of our own router, is no source; it is any address of its family but 0.
 *
 * An entry begins with its family and three octets that are 0; then group and source, of 4 octets each in IPv4 and 16
 * in IPv6; an assert entry ends with R and preference, 4 octets, and metric, 4 octets.
 *
 * Every answer of a call that can refuse has a `refusal`, or is one. Its `number` is 0 where the call did what it says,
 * and `place` is then 0 too. Else it is one of the fourteen numbers, and `place` says where. The other fields of a
 * refused answer are 0, but for a table, which comes back as it was passed (pim_read_sheet: without neighbours).
 *
 * A place is an octet of what is read, counted from 0, or the number of an entry that is to be packed. Where a message,
 * a record or an attribute is refused by 6 or 7, it is the first octet of the field at fault: of a field that is cut or
 * missing (if missing, it is where the octets end), of a number that may not be 0, of a group or a source. A group is
 * one field, of 8 octets in IPv4 and 20 in IPv6, and a source one of 6 or 18. One of the other family is 7 at the field
 * where as many octets are there as a field of the named family has, else 6. Every other place is said with its call.
 *
 * Contents, in order: version; families, addresses and paths; sizes and limits; kinds, numbers and lengths; messages
 * read; messages written; neighbours and election; counters; the report of a file; Pop-Count attributes; the stored
 * sheet; the checksum.
 */
#ifndef PIM_H
#define PIM_H

#include <stdbool.h>
#include <stddef.h>
#include <stdint.h>

#ifdef __cplusplus
extern "C" {
#endif

/* ---- version */

/* Each change of this file that a caller can notice raises it: a name, a layout, a number, a size, or what a call does.
 * It is no version of the protocol. 2: counters and rows are lent, names of Pop-Count begin pim_popcount_, the sheet's
 * counts are pim_sheet_counts. 3: pim_write_hello, and PIM_LONGEST_HELLO. 4: limit 0 is 556, before it was 1480.
 * 5: 6 and 7 in reading are placed at the field, before it was at the record, the option or the attribute. 6: the
 * report of a file, pim_report, and pim_tally_none to pim_tally_mean. 7: a source in 224.0.0.0/4, and 255.255.255.255,
 * is refused in messages, entries and sheets. 8: a table has 64 rows, before it had 16; sheets of up to 8,192 asserts,
 * 8,192 pairs and 64 neighbours, with a header of 28 octets. Sheets of before are still read. 9: IPv6 beside IPv4:
 * calls take a family, and where a header is read or written a path; addresses are pim_address; every entry begins with
 * its family; sizes and limits name their family; new sheets hold one family; pim_checksum_ipv6,
 * pim_checksum_ipv6_holds. Sheets of before are still read, as IPv4. */
#define PIM_VERSION 9

/* ---- families, addresses and paths */

/* The numbers that stand in messages and entries. */
enum pim_family { PIM_IPV4 = 1, PIM_IPV6 = 2 };

/* 16 octets. An address as a number of 128 bits. */
typedef struct {
    uint64_t high, low; /* IPv4: 0, and 32 bits */
} pim_address;

/* 32 octets. The addresses of the IPv6 header that a message is sent with. Ignored in IPv4. */
typedef struct {
    pim_address source, destination;
} pim_path;

/* Addresses from octets in network order, and back. */
static inline pim_address pim_address_from_ipv4(const uint8_t o[4])
{
    pim_address a;
    a.high = 0;
    a.low = (uint64_t)o[0] << 24 | (uint64_t)o[1] << 16 | (uint64_t)o[2] << 8 | (uint64_t)o[3];
    return a;
}

static inline pim_address pim_address_from_ipv6(const uint8_t o[16])
{
    pim_address a;
    int i;
    a.high = 0;
    a.low = 0;
    for (i = 0; i < 8; i++) {
        a.high = a.high << 8 | o[i];
        a.low = a.low << 8 | o[8 + i];
    }
    return a;
}

/* The low 32 bits. */
static inline void pim_address_to_ipv4(pim_address a, uint8_t o[4])
{
    int i;
    for (i = 0; i < 4; i++)
        o[i] = (uint8_t)(a.low >> (24 - 8 * i));
}

static inline void pim_address_to_ipv6(pim_address a, uint8_t o[16])
{
    int i;
    for (i = 0; i < 8; i++) {
        o[i] = (uint8_t)(a.high >> (56 - 8 * i));
        o[8 + i] = (uint8_t)(a.low >> (56 - 8 * i));
    }
}

/* ---- sizes and limits, in octets where nothing else is said */

#define PIM_HEADER_SIZE 4             /* of a message; its body follows */
#define PIM_SHORTEST_MESSAGE 4        /* a shorter one is refused */
#define PIM_LONGEST_MESSAGE 65515     /* a longer one is refused */
#define PIM_IPV4_ASSERT_ENTRY 20      /* family, three zeros, group, source, R with preference, metric */
#define PIM_IPV6_ASSERT_ENTRY 44      /* the same */
#define PIM_IPV4_PAIR_ENTRY 12        /* family, three zeros, group, source */
#define PIM_IPV6_PAIR_ENTRY 36        /* the same */
#define PIM_IPV4_LEAST_LIMIT 38       /* of a message that is packed */
#define PIM_IPV6_LEAST_LIMIT 62       /* the same */
#define PIM_GREATEST_LIMIT 65515      /* the longest message */
#define PIM_USUAL_LIMIT 556           /* what limit 0 is read as: an IPv4 datagram of 576, without its header */
#define PIM_USUAL_HOLDTIME 105        /* seconds, of a Hello that has none */
#define PIM_LONGEST_HELLO 22          /* the longest that is written, in either family */
#define PIM_ROWS 64                   /* rows of a neighbour table, and neighbours of a sheet at most */
#define PIM_NUMBERS 15                /* of enum pim_number, 0 to 14 */
#define PIM_LONGEST_LEFT 65536        /* what pim_tally_octets leaves at most */
#define PIM_POPCOUNT_SHORTEST 8       /* a Pop-Count attribute without options */
#define PIM_POPCOUNT_LONGEST 257      /* the longest that can be read */
#define PIM_POPCOUNT_MERGED 22        /* the longest that merging writes */
#define PIM_SHEET_HEADER 28           /* of a sheet that is written; entries of asserts and of pairs follow */
#define PIM_IPV4_SHEET_ROW 16         /* of a neighbour in a sheet that is written, last */
#define PIM_IPV6_SHEET_ROW 28         /* the same */
#define PIM_SHEET_ASSERTS 8192        /* entries at most */
#define PIM_SHEET_PAIRS 8192          /* entries at most */
#define PIM_IPV4_LONGEST_SHEET 263196 /* all of these, with PIM_ROWS neighbours */
#define PIM_IPV6_LONGEST_SHEET 657180 /* the same */

/* The most entries that a message of n octets or fewer can give: of pim_read_asserts, and of pim_read_pairs. All four
 * are exact: some message of at most n octets gives so many. They take n more than once, and are constant where n is.
 * A message that is read may be longer than PIM_USUAL_LIMIT; on Ethernet, in datagrams of 1,500 octets, it has up to
 * 1,480 in IPv4 and 1,460 in IPv6.
 *
 *     uint8_t entries[PIM_IPV4_ASSERT_ENTRY * PIM_IPV4_MOST_ASSERTS(1480)];
 *
 * In IPv4 a plain assert has 26 octets; a source aggregated record of two groups makes 42, and an RP aggregated record
 * of one group and k sources 32 + 6k. Pairs take 4 + 14k. In IPv6 an RP aggregated record of k group records without
 * sources makes 20 + 24k, and one of one group and k sources 44 + 18k, which is as short from four on. Pairs take
 * 4 + 38k. */
#define PIM_IPV4_MOST_ASSERTS(n)                                                                                       \
    ((n) < 26 ? 0 : (n) < 42 ? 1 : (n) < 44 ? 2 : (((n) < PIM_LONGEST_MESSAGE ? (n) : PIM_LONGEST_MESSAGE) - 32) / 6)
#define PIM_IPV6_MOST_ASSERTS(n)                                                                                       \
    ((n) < 44 ? 0 : (n) < 116 ? ((n) - 20) / 24 : (((n) < PIM_LONGEST_MESSAGE ? (n) : PIM_LONGEST_MESSAGE) - 44) / 18)
#define PIM_IPV4_MOST_PAIRS(n) ((n) < 18 ? 0 : (((n) < PIM_LONGEST_MESSAGE ? (n) : PIM_LONGEST_MESSAGE) - 4) / 14)
#define PIM_IPV6_MOST_PAIRS(n) ((n) < 42 ? 0 : (((n) < PIM_LONGEST_MESSAGE ? (n) : PIM_LONGEST_MESSAGE) - 4) / 38)

/* ---- kinds, numbers and lengths */

enum pim_kind {
    PIM_HELLO = 0,
    PIM_ASSERT = 1,
    PIM_SIMPLE = 2,        /* PackedAssert, simple */
    PIM_AGGREGATED = 3,    /* PackedAssert, aggregated */
    PIM_NULL_REGISTER = 4, /* packed Null-Register */
    PIM_REGISTER_STOP = 5  /* packed Register-Stop */
};

/* What a call refuses. docs/FORMAT.md has the same words, and says exactly when. */
enum pim_number {
    PIM_ACCEPTED = 0,
    PIM_BAD_LENGTH = 1,   /* length not 4 to 65,515 octets */
    PIM_BAD_VERSION = 2,  /* version not 2 */
    PIM_BAD_CHECKSUM = 3, /* checksum wrong */
    PIM_BAD_KIND = 4,     /* kind not read here; or not counted, or a family that is none */
    PIM_NO_RECORD = 5,    /* Zero not 0, or no record; of a packed message */
    PIM_CUT = 6,          /* cut short, or a number of records is 0; or octets follow a plain assert */
    PIM_BAD_ADDRESS = 7,  /* address not allowed; or its form, or its family */
    PIM_NO_ROOM = 8,      /* too little room; in a buffer that is lent */
    PIM_BAD_LIMIT = 9,    /* limit not allowed; neither 0 nor 38 (IPv6: 62) to 65,515 */
    PIM_BAD_LIST = 10,    /* list not whole, or start past its end */
    PIM_TABLE_FULL = 11,  /* table full; a new neighbour, and 64 rows in use */
    PIM_ABSENT = 12,      /* no such neighbour; to forget, or none to elect */
    PIM_BAD_OPTION = 13,  /* option or attribute against its rule; of a Hello, of Pop-Count */
    PIM_BAD_SHEET = 14    /* sheet or table against its rule; or of another family */
};

/* 16 octets */
typedef struct {
    uint8_t number; /* enum pim_number */
    size_t place;   /* the first octet of what is at fault, or the entry; 0 where nothing is refused */
} pim_refusal;

/* 24 octets */
typedef struct {
    pim_refusal refusal;
    size_t length; /* octets written */
} pim_length_answer;

/* ---- messages read */

/* 24 octets */
typedef struct {
    pim_refusal refusal;
    uint8_t kind; /* enum pim_kind */
} pim_header_answer;

/* The kind of the message of n octets at m. Refuses 1, 2, 3, 4 at place 0. */
pim_header_answer pim_header(uint8_t family, pim_path path, const uint8_t *m, size_t n);

/* How many octets the body has that begins at m + PIM_HEADER_SIZE: all that follow, or 0 where pim_header refuses. */
size_t pim_body(uint8_t family, pim_path path, const uint8_t *m, size_t n);

/* The R bit, above the 31 bits of metric preference. */
#define PIM_R_BIT 0x80000000u

/* 72 octets */
typedef struct {
    pim_refusal refusal;
    size_t next; /* the place past the record */
    pim_address group;
    pim_address source;
    uint32_t r_preference; /* PIM_R_BIT, and 31 bits of preference; 0 for a pair */
    uint32_t metric;       /* 0 for a pair */
    bool is_pair;
} pim_record_answer;

/* The record of a kind at place `at` of n octets. No header is read, and no checksum. What follows the record is no
 * fault. Refuses 4 at 0 for PIM_HELLO, PIM_AGGREGATED and a number that is no kind; 6 and 7 at the field, as in
 * pim_read_asserts. `at` may be any number: at the end of the octets or past it the group is missing, and that is 6 at
 * `at`. */
pim_record_answer pim_read_record(uint8_t family, uint8_t kind, const uint8_t *o, size_t n, size_t at);

/* 32 octets */
typedef struct {
    pim_refusal refusal;
    size_t count; /* how many entries were written */
    uint8_t kind; /* enum pim_kind */
} pim_read_answer;

/* Reads a message of kind PIM_ASSERT, PIM_SIMPLE or PIM_AGGREGATED into entries of PIM_IPV4_ASSERT_ENTRY or
 * PIM_IPV6_ASSERT_ENTRY octets. `room` counts octets; those past the entries stay. PIM_IPV4_MOST_ASSERTS(n), or
 * PIM_IPV6_MOST_ASSERTS(n), entries are always room enough.
 * Refuses 1, 2, 3, 4 at 0; then, in the message's order, 5 at 4 for Zero and at 8 where there is no record, 6 and 7 at
 * the field: Zero at 4, Reserved at 5, octets after a plain assert where they begin, at 26 or, in IPv6, 50. The two
 * reserved octets after a number are a field of their own, looked at after the number. A source that is 0 where R is 0
 * is 7 at the source, in an assert record once the four octets of R with preference are there; any other source that is
 * not allowed is 7 once its own octets are there. Last 8 at 0, exactly if all entries take more than the room. */
pim_read_answer pim_read_asserts(uint8_t family, pim_path path, const uint8_t *m, size_t n, uint8_t *entries,
                                 size_t room);

/* The same for PIM_NULL_REGISTER and PIM_REGISTER_STOP, with entries of PIM_IPV4_PAIR_ENTRY or PIM_IPV6_PAIR_ENTRY
 * octets. PIM_IPV4_MOST_PAIRS(n), or PIM_IPV6_MOST_PAIRS(n), of them are always room enough. No record is 5 at 4;
 * source 0 in a PIM_NULL_REGISTER is 7 at the source. */
pim_read_answer pim_read_pairs(uint8_t family, pim_path path, const uint8_t *m, size_t n, uint8_t *entries,
                               size_t room);

/* 12 octets */
typedef struct {
    uint16_t holdtime; /* PIM_USUAL_HOLDTIME where the Hello has none */
    bool has_priority;
    uint32_t priority; /* 0 where it has none */
    bool packing;      /* the packed assert capability */
} pim_hello;

/* 32 octets */
typedef struct {
    pim_refusal refusal;
    pim_hello hello;
} pim_hello_answer;

/* Reads a Hello. Refuses 1, 2, 3, 4 at 0, then, in the options' order, 6 at the type, the length or the value that is
 * cut or missing, and 13 at the option's first octet. */
pim_hello_answer pim_read_hello(uint8_t family, pim_path path, const uint8_t *m, size_t n);

/* ---- messages written */

/* Writes the Hello that says what `said` does: holdtime always, 0 and PIM_USUAL_HOLDTIME too; priority where
 * has_priority is true, else it is not looked at; the packed assert capability where packing is true. pim_read_hello
 * gives back the same. It needs 10 octets, 8 more with a priority and 4 more with packing, PIM_LONGEST_HELLO at most;
 * octets past the length stay. Refuses 8 at 0, exactly if the message takes more than the room, and, the family apart,
 * nothing else. */
pim_length_answer pim_write_hello(uint8_t family, pim_path path, pim_hello said, uint8_t *buffer, size_t room);

/* 32 octets */
typedef struct {
    pim_refusal refusal;
    size_t length; /* octets written; 0 at the end of the list: no message */
    size_t taken;  /* entries in the message */
} pim_pack_answer;

/* Each packs entries from number `start` on, counted from 0, into one message at `buffer`: as many as fit the limit
 * (pim_pack_assert: one). Limits run from PIM_IPV4_LEAST_LIMIT, or PIM_IPV6_LEAST_LIMIT, to PIM_GREATEST_LIMIT; limit 0
 * is read as PIM_USUAL_LIMIT in either family. `entries` has `size` octets; the entries are those of pim_read_asserts,
 * or of pim_read_pairs, of the same family. The buffer needs room for the limit, also where the message is shorter.
 * Octets past the length stay. Call again with start + taken until length is 0: at the end of the list nothing is
 * written, and taken is 0.
 * Refuses 9, 8, 10 at 0, then 7 with the number of the first bad entry from the start on, also of one that this message
 * would not take. An entry is also bad if it does not begin with the family and three octets that are 0. */
pim_pack_answer pim_pack_assert(uint8_t family, pim_path path, const uint8_t *entries, size_t size, size_t start,
                                size_t limit, uint8_t *buffer, size_t room);
pim_pack_answer pim_pack_simple(uint8_t family, pim_path path, const uint8_t *entries, size_t size, size_t start,
                                size_t limit, uint8_t *buffer, size_t room);
pim_pack_answer pim_pack_aggregated(uint8_t family, pim_path path, const uint8_t *entries, size_t size, size_t start,
                                    size_t limit, uint8_t *buffer, size_t room);
pim_pack_answer pim_pack_null_register(uint8_t family, pim_path path, const uint8_t *entries, size_t size, size_t start,
                                       size_t limit, uint8_t *buffer, size_t room);
pim_pack_answer pim_pack_register_stop(uint8_t family, pim_path path, const uint8_t *entries, size_t size, size_t start,
                                       size_t limit, uint8_t *buffer, size_t room);

/* 40 octets */
typedef struct {
    pim_refusal refusal;
    size_t length;   /* of the chosen message; 0 at the end of the list */
    size_t taken;    /* entries in the chosen message */
    bool aggregated; /* which buffer the chosen message stands in, from its start */
} pim_choice_answer;

/* Packs both forms, each into its own buffer, and chooses the one that took more entries, then the shorter, then the
 * simple. The other form overwrites the start of the other buffer all the same; how far is not told. At the end of the
 * list neither is written: length 0, taken 0, aggregated false. Both messages have the same path.
 * Refuses 9 at 0; 8 at 0, if either buffer is smaller than the limit; 10 at 0; then 7 with the number of the first bad
 * entry from the start on. Where it refuses, neither buffer is written. */
pim_choice_answer pim_pack_both(uint8_t family, pim_path path, const uint8_t *entries, size_t size, size_t start,
                                size_t limit, uint8_t *simple, size_t simple_room, uint8_t *aggregated,
                                size_t aggregated_room);

/* ---- neighbours and election */

/* 24 octets */
typedef struct {
    pim_address address;
    uint32_t priority; /* 0 where none was announced */
    bool has_priority;
    bool packs;
    uint16_t holdtime;
} pim_neighbour;

/* 1,544 octets. The rows in use come first; the others are all 0. A table is of the family that its calls name. */
typedef struct {
    pim_neighbour rows[PIM_ROWS];
    size_t count;
} pim_table;

/* A table without neighbours, of either family. */
pim_table pim_table_empty(void);

enum pim_done {
    PIM_NOTHING_DONE = 0, /* the call refused */
    PIM_REPLACED = 1,     /* the row of the address was replaced */
    PIM_ADDED = 2,        /* a new row went last */
    PIM_FORGOTTEN = 3     /* the row went, and those after it moved up */
};

/* 1,568 octets */
typedef struct {
    pim_refusal refusal;
    pim_table table; /* changed, or as it was */
    uint8_t done;    /* enum pim_done */
} pim_table_answer;

/* Hears a Hello from an address; holdtime 0 forgets it.
 * Refuses 14 (the table, or an address none of the family), 7 (address 0), then 12 (holdtime 0, and absent) or 11
 * (full), at 0. Every call on a table looks at all of it first: over 64 rows, an address that is 0, there twice or none
 * of the family, a holdtime 0, a priority without its flag or an unused row that is not 0 is 14. Together with it every
 * call looks at the address that it is given: one that is none of the family is 14 too. In IPv4 that is one over 32
 * bits; in IPv6 there is none. */
pim_table_answer pim_hear(uint8_t family, pim_table table, pim_address address, pim_hello said);

/* Forgets an address. Refuses 14, 7, 12 at 0. */
pim_table_answer pim_forget(uint8_t family, pim_table table, pim_address address);

/* 24 octets */
typedef struct {
    pim_refusal refusal;
    bool allowed;
} pim_allowed_answer;

/* Whether every neighbour announced the packed assert capability. Refuses 14 at 0. */
pim_allowed_answer pim_packing_allowed(uint8_t family, pim_table table);

/* 32 octets */
typedef struct {
    pim_refusal refusal;
    pim_address address; /* of the designated router */
} pim_elect_answer;

/* Elects among the neighbours and our own router, which has an address and a priority. Refuses 14, 7 at 0. */
pim_elect_answer pim_elect(uint8_t family, pim_table table, pim_address address, uint32_t priority);

/* Elects among lent rows, of any number, without our own router. `count` counts rows. Where has_priority is false in
 * any row, the highest address is elected and no priority counts; else the highest priority, then address. It names no
 * family: addresses compare as numbers of 128 bits. Only they are tested; packs and holdtime are not looked at.
 * Refuses 12 (no row), 7 (an address is 0) at 0. */
pim_elect_answer pim_elect_among(const pim_neighbour *rows, size_t count);

/* ---- counters */

/* 16 octets */
typedef struct {
    uint64_t messages;
    uint64_t records;
} pim_totals;

/* 96 octets. One total for each kind, in the order of enum pim_kind. */
typedef struct {
    pim_totals hello, assert_, simple, aggregated, null_register, register_stop;
} pim_by_kind;

/* 192 octets */
typedef struct {
    pim_by_kind sent, received;
} pim_counters;

/* Counters that have counted nothing. */
pim_counters pim_counters_none(void);

/* One message more of a kind, sent or received, and so many records, counted where `counters` points; each number stays
 * at the 64-bit maximum. The answer is the refusal itself, its number 0 where the call counted.
 * Refuses 4 at 0, for a number that is no kind. */
pim_refusal pim_count(pim_counters *counters, bool received, uint8_t kind, uint64_t records);

/* ---- the report of a file of messages */

/* A file holds messages, each preceded by its length in 16 bits. The length is that of the message alone, and may be
 * any number. Its messages are IPv4, since a file has no addresses for a path. A message counts as accepted exactly if
 * the call that reads its kind (pim_read_asserts, pim_read_pairs or pim_read_hello) accepts it with room enough. Any
 * other one counts under the number of that call's refusal, or of pim_header's, which is 1 to 7 or 13 and never 8. Its
 * place is not kept. */

/* 216 octets. What came of messages. */
typedef struct {
    pim_by_kind accepted;          /* messages that were accepted, and their records: entries, of a Hello none */
    uint64_t refused[PIM_NUMBERS]; /* messages that were refused, by enum pim_number; [0] counts none */
} pim_tally;

/* Of no message. */
pim_tally pim_tally_none(void);

/* One message more, of n octets at m, accepted or refused: an image can keep its own report so. Each number stays at
 * the 64-bit maximum. Like the other calls of this part it refuses nothing. */
pim_tally pim_tally_message(pim_tally tally, const uint8_t *m, size_t n);

/* 224 octets */
typedef struct {
    pim_tally tally;
    size_t used; /* octets, from the first on: the messages that were counted, with their lengths */
} pim_tally_answer;

/* The messages more that stand whole at o, from its first octet on, each with its length before it. What is left after
 * `used`, PIM_LONGEST_LEFT octets at most, is the start of a length or of a message: a file can be read in pieces of
 * any size, what is left of one standing before the next. Where nothing is left after the last piece, the file is
 * whole. */
pim_tally_answer pim_tally_octets(pim_tally tally, const uint8_t *o, size_t n);

/* 16 octets */
typedef struct {
    uint64_t numerator, denominator;
} pim_fraction;

/* The mean of records over the accepted messages that are packed, of any kind but PIM_HELLO and PIM_ASSERT, in lowest
 * terms; 0/1 where there is no such message. Both sums stay at the 64-bit maximum. */
pim_fraction pim_tally_mean(pim_tally tally);

/* 240 octets */
typedef struct {
    pim_tally tally;
    pim_fraction mean;
    bool whole; /* false where the file is cut: it ends in a length, or in a message */
} pim_report_answer;

/* The report of a file of n octets: its whole messages from the first on, their mean, and whether the file is whole.
 * An empty file is. Nothing of a message that is cut is counted. */
pim_report_answer pim_report(const uint8_t *file, size_t n);

/* ---- Pop-Count attributes (RFC 6807) */

/* The bits of `flags`. */
enum pim_popcount_flag {
    PIM_POPCOUNT_FLAG_SSM = 0x0001,         /* S: a member reported a source-specific group */
    PIM_POPCOUNT_FLAG_ASM = 0x0002,         /* A: a member reported a group from any source */
    PIM_POPCOUNT_FLAG_TUNNEL = 0x0004,      /* t: there are manually configured tunnels */
    PIM_POPCOUNT_FLAG_AUTO_TUNNEL = 0x0008, /* a: there are auto-tunnels */
    PIM_POPCOUNT_FLAG_CAPABLE = 0x0010      /* P: all downstream routers are Pop-Count capable */
};

/* The bits of `options`. */
enum pim_popcount_option {
    PIM_POPCOUNT_TRANSIT = 0x8000,
    PIM_POPCOUNT_STUB = 0x4000,
    PIM_POPCOUNT_MINIMUM_SPEED = 0x2000,
    PIM_POPCOUNT_MAXIMUM_SPEED = 0x1000,
    PIM_POPCOUNT_DOMAIN = 0x0800,
    PIM_POPCOUNT_NODE = 0x0400,
    PIM_POPCOUNT_DIAMETER = 0x0200,
    PIM_POPCOUNT_TIME_ZONE = 0x0100
};

/* 16 octets. The values of the options: 0 where one is not present. */
typedef struct {
    uint32_t transit, stub;
    uint16_t minimum_speed, maximum_speed; /* 6-bit exponent, 10-bit significand */
    uint8_t domain, node, diameter, time_zone;
} pim_popcount_values;

/* 24 octets */
typedef struct {
    bool e;
    uint16_t mtu, flags, options; /* options as the attribute has them, unallocated bits too */
    pim_popcount_values values;
} pim_popcount_attribute;

/* 48 octets */
typedef struct {
    pim_refusal refusal;
    size_t next; /* the place past the attribute */
    pim_popcount_attribute attribute;
} pim_popcount_read_answer;

/* Reads the attribute at place `at` of n octets. Refuses 13 at `at`, and 6 at the field that is cut or missing: the
 * first octet, the length, MTU, flags, options, each value, and the octets that are ignored, which are one field. `at`
 * may be any number: at the end of the octets or past it the first octet is missing, and that is 6 at `at`. */
pim_popcount_read_answer pim_popcount_read(const uint8_t *o, size_t n, size_t at);

enum pim_popcount_order { PIM_POPCOUNT_LESS = 0, PIM_POPCOUNT_EQUAL = 1, PIM_POPCOUNT_GREATER = 2 };

/* How link speed a stands to link speed b, by exact size: enum pim_popcount_order. */
uint8_t pim_popcount_compare_speeds(uint16_t a, uint16_t b);

/* 16 octets */
typedef struct {
    uint16_t mtu, flags;
    uint32_t transit, stub;
    uint16_t minimum_speed, maximum_speed;
} pim_popcount_own;

/* Merges our own values with the attributes that stand one after another in `contributors`, possibly none, into one
 * attribute at `buffer`. It needs PIM_POPCOUNT_MERGED octets at most; octets past the length stay.
 * Refuses 13 at the first octet of the attribute at fault and 6 at the field, both counted in `contributors`; then 8 at
 * 0. */
pim_length_answer pim_popcount_merge(pim_popcount_own own, bool e, const uint8_t *contributors, size_t n,
                                     uint8_t *buffer, size_t room);

/* ---- the stored sheet */

/* A sheet has one of four forms, which its first octets tell. All have three pairs of numbers, a count and an offset
 * from the sheet's start, for asserts, pairs and neighbours, and then the three sections without gaps, to the end.
 * - Forms 3, of IPv4, and 4, of IPv6: 16 bits 0xFFFF, 16 bits that hold 3 or 4, and numbers of 32 bits:
 *   PIM_SHEET_HEADER octets. Entries are as they are packed. A neighbour is its family, three octets that are 0,
 *   address, priority, flags (1 has a priority, 2 packs), an octet that is 0, and holdtime in 16 bits. At most
 *   PIM_SHEET_ASSERTS, PIM_SHEET_PAIRS and PIM_ROWS entries. Sheets are written in these forms alone.
 * - Form 2, of sheets stored with version 8: the same header with 2, and the same limits; entries and neighbours are
 *   those of IPv4 without family and zeros: 16, 8 and 12 octets.
 * - The base form, of sheets stored before that: numbers of 16 bits, 12 octets; entries and neighbours as in form 2. At
 *   most 1,024 asserts, 1,024 pairs and 16 neighbours.
 * The two older forms are still read where IPv4 is named: they give entries with family and zeros, which, written, are
 * a sheet of form 3. First 16 bits from 1,025 to 65,534 are those of no form, and refused, and so is 0xFFFF before
 * another number, and a sheet of another family than the one named. */

/* 24 octets */
typedef struct {
    size_t asserts, pairs, neighbours;
} pim_sheet_counts;

/* 40 octets */
typedef struct {
    pim_refusal refusal;
    pim_sheet_counts counts;
} pim_check_answer;

/* Checks a sheet of any form of the family. Refuses 14: at 0 for the header, the family and the sheet's length, else at
 * the first octet of the entry at fault, as the sheet has it. */
pim_check_answer pim_check_sheet(uint8_t family, const uint8_t *o, size_t n);

/* 1,584 octets */
typedef struct {
    pim_refusal refusal;
    pim_sheet_counts counts;
    pim_table table; /* without neighbours where the call refuses */
} pim_sheet_answer;

/* Reads a sheet of any form of the family into assert entries, pair entries and a table. Room past the entries stays.
 * Refuses 14 as pim_check_sheet does, then 8 at 0, if either room is too small for the entries as they are given. A
 * refused answer counts nothing: ask pim_check_sheet first how many entries there are, and lend PIM_IPV4_ASSERT_ENTRY
 * or PIM_IPV6_ASSERT_ENTRY times counts.asserts and PIM_IPV4_PAIR_ENTRY or PIM_IPV6_PAIR_ENTRY times counts.pairs
 * octets. PIM_SHEET_ASSERTS and PIM_SHEET_PAIRS entries are always room enough. */
pim_sheet_answer pim_read_sheet(uint8_t family, const uint8_t *o, size_t n, uint8_t *asserts, size_t assert_room,
                                uint8_t *pairs, size_t pair_room);

/* Writes the sheet of two entry lists and a table of the family, in form 3 or 4: PIM_SHEET_HEADER octets, then all
 * entries as they stand, then PIM_IPV4_SHEET_ROW or PIM_IPV6_SHEET_ROW octets for each neighbour;
 * PIM_IPV4_LONGEST_SHEET or PIM_IPV6_LONGEST_SHEET at most. Octets past it stay.
 * Refuses 10 (a list is not whole), 14 (too many entries, or the table), 8, 7 (an entry), all at 0. */
pim_length_answer pim_write_sheet(uint8_t family, const uint8_t *asserts, size_t assert_size, const uint8_t *pairs,
                                  size_t pair_size, pim_table table, uint8_t *buffer, size_t room);

/* ---- the checksum */

/* What the checksum field of a message holds in IPv4, its octets 2 and 3 counted as 0. */
uint16_t pim_checksum(const uint8_t *m, size_t n);

/* Whether the one's complement sum of all octets is 0xFFFF, as it has to be in IPv4. */
bool pim_checksum_holds(const uint8_t *m, size_t n);

/* The same in IPv6: the sum begins with the pseudo-header, which is the path's two addresses, n in 32 bits, and next
 * header 103. Of an n over 32 bits the low 32 count. */
uint16_t pim_checksum_ipv6(pim_path path, const uint8_t *m, size_t n);
bool pim_checksum_ipv6_holds(pim_path path, const uint8_t *m, size_t n);

#ifdef __cplusplus
}
#endif

#endif
