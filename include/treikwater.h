/*
 * Treikwater: a scheduler for crossbar cell switches of up to 16 x 16 ports.
 *
 * Two calls, a fresh start and a slot. Each is proved to do what document 01 says, for every
 * input: it takes any words and any lengths, and answers with a number. Link libexports.a.
 *
 * What the caller owes, since nothing here can test it:
 *   - each pointer is aligned for uint32_t and valid for the length that follows it, counted in
 *     words: for reading, and for writing unless it is const (also where the length is 0, where
 *     the pointer must still not be null);
 *   - the lists of one call do not overlap;
 *   - no other thread uses them until the call returns.
 * The calls keep nothing, call nobody back but memset, and take no memory but some KiB of stack.
 */
#ifndef TREIKWATER_H
#define TREIKWATER_H

#include <stddef.h>
#include <stdint.h>

#ifdef __cplusplus
extern "C" {
#endif

/* Sizes: each of these from 1 to the largest. The next slot is any word. */
#define TREIKWATER_MOST_PORTS 16u
#define TREIKWATER_MOST_SPEEDUP 8u
#define TREIKWATER_MOST_RECORDS 1024u
#define TREIKWATER_LAST_SLOT UINT32_MAX

/* The switch's numbers: three words, at these places. */
#define TREIKWATER_PORTS 0    /* N, as many inputs as outputs */
#define TREIKWATER_SPEEDUP 1  /* S */
#define TREIKWATER_NEXT 2     /* t, the slot that runs next */
#define TREIKWATER_NUMBER_WORDS 3u

/* A record of the cell table: five words, at these places. Ports and slots count from 0. */
#define TREIKWATER_PLACE 0
#define TREIKWATER_INPUT 1
#define TREIKWATER_OUTPUT 2
#define TREIKWATER_ENTERED 3  /* slot of entry */
#define TREIKWATER_TAG 4
#define TREIKWATER_RECORD_WORDS 5u

/* A record by name. An array of them is the same bytes as the flat words, so that a pointer to them
 * may be passed as the table, by a cast or by treikwater_words: TREIKWATER_TABLE_LENGTH(records)
 * words long. */
struct treikwater_record {
    uint32_t place;
    uint32_t input;
    uint32_t output;
    uint32_t entered;
    uint32_t tag;
};

#if defined __cplusplus && __cplusplus >= 201103L
#define TREIKWATER_ASSERT static_assert
#elif defined __STDC_VERSION__ && __STDC_VERSION__ >= 201112L
#define TREIKWATER_ASSERT _Static_assert
#endif
#ifdef TREIKWATER_ASSERT
TREIKWATER_ASSERT(sizeof(struct treikwater_record) == TREIKWATER_RECORD_WORDS * sizeof(uint32_t),
                  "a record is five words and nothing else");
#undef TREIKWATER_ASSERT
#endif

static inline uint32_t *treikwater_words(struct treikwater_record *records)
{
    return &records->place;
}

/* The places. A free record is all zeros. */
#define TREIKWATER_FREE 0u
#define TREIKWATER_WAITING 1u /* in its input unit */
#define TREIKWATER_READY 2u   /* in its output unit */

/* Arrivals: two words an input. 0 for none, or output + 1; then the tag, not looked at after a 0. */
#define TREIKWATER_ARRIVAL_WORDS 2u
#define TREIKWATER_ARRIVALS_LENGTH(ports) ((size_t)(ports) * TREIKWATER_ARRIVAL_WORDS)

/* Matches: a word an output, phase after phase. 0 for none, or 1 + the input served. */
#define TREIKWATER_MATCHES_LENGTH(ports, speedup) ((size_t)(speedup) * (size_t)(ports))

/* Exhaled: four words an output. 1, input, slot of entry, tag; or four zeros. */
#define TREIKWATER_EXHALED_WORDS 4u
#define TREIKWATER_EXHALED_LENGTH(ports) ((size_t)(ports) * TREIKWATER_EXHALED_WORDS)

/* The table of so many records. */
#define TREIKWATER_TABLE_LENGTH(records) ((size_t)(records) * TREIKWATER_RECORD_WORDS)

/* The numbers given back: the first that holds, in this order, and 0 where none does. */
enum treikwater_answer {
    TREIKWATER_DONE = 0,
    TREIKWATER_BAD_PORTS = 1,      /* N is 0 or above 16 */
    TREIKWATER_BAD_SPEEDUP = 2,    /* S is 0 or above 8 */
    TREIKWATER_BAD_RECORDS = 3,    /* the table is no whole records, or 0, or more than 1,024 */
    TREIKWATER_UNFIT = 4,          /* the table is not fit; see below */
    TREIKWATER_BAD_LISTS = 5,      /* arrivals, matches or exhaled has another length than above */
    TREIKWATER_NO_SUCH_OUTPUT = 6, /* some first word of an arrival is above N */
    TREIKWATER_CLOCK_SPENT = 7,    /* t is the last slot */
    TREIKWATER_NO_ROOM = 8,        /* live records and arriving cells exceed the table's length */
    TREIKWATER_NO_NUMBERS = 255    /* before all others: the list of numbers has not three words */
};

/*
 * A table is fit when every record has place 0, 1 or 2; a free record holds zero in its other four
 * words; a live record has input and output below N and its slot of entry below t; and no two live
 * records have the same slot of entry and the same input. What a fresh start leaves is fit, and
 * what a slot leaves of a fit table is fit for the next slot.
 */

/*
 * A fresh start with the wanted N and S among the numbers. The old t and the old records are not
 * looked at.
 *   0            t becomes 0 and every word of the table 0; N and S stay.
 *   1, 2, 3, 255 nothing is changed. Keep the earlier numbers: the switch goes on with those.
 */
uint32_t treikwater_fresh_start(uint32_t *numbers, size_t numbers_length,
                                uint32_t *table, size_t table_length);

/*
 * Slot t. The arriving cells, by rising input, take the lowest free records and wait. Each output's
 * ready cells are counted, once for all S transfer phases. In a phase, waiting cells become ready,
 * no two of one input or one output: of two such cells the one goes whose output's count is lower,
 * then the older, then that of the lower input. Last, each output emits its oldest ready cell, and
 * that record becomes free.
 *   0            t is raised by 1, the table is the switch after the slot, and every word of matches
 *                and exhaled is written.
 *   1 to 8, 255  nothing is changed, and no time passes.
 */
uint32_t treikwater_slot(uint32_t *numbers, size_t numbers_length,
                         uint32_t *table, size_t table_length,
                         const uint32_t *arrivals, size_t arrivals_length,
                         uint32_t *matches, size_t matches_length,
                         uint32_t *exhaled, size_t exhaled_length);

#ifdef __cplusplus
}
#endif

#endif
