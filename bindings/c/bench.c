/* Document 01's examples from the bench, run through the library: a line for each call, to be
 * compared with expected.txt. The last of the sizes is the header's own: numbers are three words. */
#include <stdio.h>
#include <string.h>

#include "treikwater.h"

#define ONE_TOO_MANY (TREIKWATER_MOST_RECORDS + 1)
#define MOST_ARRIVALS TREIKWATER_ARRIVALS_LENGTH(TREIKWATER_MOST_PORTS)
#define MOST_MATCHES TREIKWATER_MATCHES_LENGTH(TREIKWATER_MOST_PORTS, TREIKWATER_MOST_SPEEDUP)
#define MOST_EXHALED TREIKWATER_EXHALED_LENGTH(TREIKWATER_MOST_PORTS)

typedef struct treikwater_record record;
typedef uint32_t arrival[TREIKWATER_ARRIVAL_WORDS];

/* Each name of a record stands for the word at its place. */
#define NAMES_WORD(name, word) \
    _Static_assert(offsetof(record, name) == (word) * sizeof(uint32_t), #name " is that word")
NAMES_WORD(place, TREIKWATER_PLACE);
NAMES_WORD(input, TREIKWATER_INPUT);
NAMES_WORD(output, TREIKWATER_OUTPUT);
NAMES_WORD(entered, TREIKWATER_ENTERED);
NAMES_WORD(tag, TREIKWATER_TAG);

/* A switch as its owner keeps it. */
struct owned {
    uint32_t numbers[TREIKWATER_NUMBER_WORDS];
    record table[ONE_TOO_MANY];
    size_t records;
};

static struct owned bench;

static const arrival nothing[TREIKWATER_MOST_PORTS];

static void set_numbers(uint32_t ports, uint32_t speedup, uint32_t next)
{
    bench.numbers[TREIKWATER_PORTS] = ports;
    bench.numbers[TREIKWATER_SPEEDUP] = speedup;
    bench.numbers[TREIKWATER_NEXT] = next;
}

/* A fresh start over words that are no table. */
static void fresh(uint32_t ports, uint32_t speedup, size_t records)
{
    uint32_t number;

    set_numbers(ports, speedup, 9);
    memset(bench.table, 7, sizeof bench.table);
    bench.records = records;
    number = treikwater_fresh_start(bench.numbers, TREIKWATER_NUMBER_WORDS,
                                    treikwater_words(bench.table), TREIKWATER_TABLE_LENGTH(records));
    printf("fresh N %u S %u records %zu: %u\n", ports, speedup, records, number);
}

/* A switch in the midst of its work. */
static void hold(uint32_t ports, uint32_t speedup, uint32_t next, const record *records, size_t count)
{
    set_numbers(ports, speedup, next);
    memcpy(bench.table, records, count * sizeof(record));
    bench.records = count;
}

static size_t count_live(void)
{
    size_t live = 0;

    for (size_t k = 0; k < bench.records; k++)
        live += bench.table[k].place != TREIKWATER_FREE;
    return live;
}

static void show_exhaled(const uint32_t *exhaled, uint32_t ports)
{
    for (uint32_t output = 0; output < ports; output++) {
        const uint32_t *cell = exhaled + TREIKWATER_EXHALED_LENGTH(output);
        if (cell[0] != 0)
            printf("; output %u emits input %u slot %u tag %u", output, cell[1], cell[2], cell[3]);
    }
}

/* Slot t, with an arrival for each input. */
static void slot(const arrival *arrivals)
{
    uint32_t ports = bench.numbers[TREIKWATER_PORTS];
    uint32_t next = bench.numbers[TREIKWATER_NEXT];
    size_t matches_length = TREIKWATER_MATCHES_LENGTH(ports, bench.numbers[TREIKWATER_SPEEDUP]);
    uint32_t words[MOST_ARRIVALS], matches[MOST_MATCHES], exhaled[MOST_EXHALED];
    uint32_t number;

    memcpy(words, arrivals, ports * sizeof(arrival));
    number = treikwater_slot(bench.numbers, TREIKWATER_NUMBER_WORDS, treikwater_words(bench.table),
                             TREIKWATER_TABLE_LENGTH(bench.records), words,
                             TREIKWATER_ARRIVALS_LENGTH(ports), matches, matches_length, exhaled,
                             TREIKWATER_EXHALED_LENGTH(ports));
    printf("  slot %u: %u", next, number);
    if (number == TREIKWATER_DONE) {
        printf("; matches");
        for (size_t i = 0; i < matches_length; i++)
            printf(" %u", matches[i]);
        show_exhaled(exhaled, ports);
    }
    printf("; live %zu\n", count_live());
}

static void sizes(void)
{
    fresh(16, 3, 4);
    fresh(17, 3, 4);
    fresh(0, 9, 4);
    fresh(2, 8, 4);
    fresh(2, 9, 4);
    fresh(2, 3, TREIKWATER_MOST_RECORDS);
    fresh(2, 3, ONE_TOO_MANY);
    printf("two words for numbers: %u\n",
           treikwater_fresh_start(bench.numbers, 2, treikwater_words(bench.table), 5));
}

static void fit_tables(void)
{
    static const record slot_is_t[] = {{1, 0, 0, 5, 0}};
    static const record free_with_tag[] = {{0, 0, 0, 0, 5}};
    static const record same_slot_and_input[] = {{1, 1, 0, 4, 7}, {2, 1, 1, 4, 8}};
    static const record same_but_for_input[] = {{1, 0, 1, 4, 7}, {1, 1, 1, 4, 7}};

    puts("a live record whose slot equals t");
    hold(2, 3, 5, slot_is_t, 1);
    slot(nothing);
    puts("a free record with tag 5");
    hold(2, 3, 5, free_with_tag, 1);
    slot(nothing);
    puts("two live records with equal slot and input");
    hold(2, 3, 5, same_slot_and_input, 2);
    slot(nothing);
    puts("equal slot, output and tag with different inputs");
    hold(2, 3, 5, same_but_for_input, 2);
    slot(nothing);
}

static void arrival_words(void)
{
    static const record full[] = {{2, 0, 0, 0, 1}, {2, 1, 0, 0, 2}};
    static const arrival word_3[] = {{3, 0}, {0, 0}};
    static const arrival word_2[] = {{2, 0}, {0, 0}};

    puts("an arrival word 3, with a full table besides");
    hold(2, 3, 5, full, 2);
    slot(word_3);
    puts("an arrival word 2, without room and with");
    slot(word_2);
    fresh(2, 3, 2);
    slot(word_2);
}

static void spent_clock(void)
{
    static const record empty[] = {{0, 0, 0, 0, 0}};

    puts("t is spent; and the slot before that");
    hold(2, 3, TREIKWATER_LAST_SLOT, empty, 1);
    slot(nothing);
    hold(2, 3, TREIKWATER_LAST_SLOT - 1, empty, 1);
    slot(nothing);
}

static void small_tables(void)
{
    static const arrival two[] = {{1, 5}, {1, 6}};
    static const arrival one[] = {{1, 5}, {0, 0}};
    static const record full[] = {{1, 0, 0, 0, 1}, {2, 1, 0, 0, 2}};

    fresh(2, 3, 1);
    slot(two);
    slot(one);
    slot(one);
    fresh(2, 3, 2);
    slot(two);
    slot(two);
    slot(one);
    puts("a full table with no arrivals, and with t spent");
    hold(2, 3, 1, full, 2);
    slot(nothing);
    hold(2, 3, TREIKWATER_LAST_SLOT, full, 2);
    slot(nothing);
}

static void schedules(void)
{
    static const arrival all_for_2[] = {{3, 10}, {3, 11}, {3, 12}};
    static const record younger_moves[] = {{2, 1, 0, 2, 0}, {1, 0, 0, 3, 0}, {1, 0, 1, 4, 0}};
    static const record read_once[] = {
        {1, 0, 0, 1, 0}, {1, 1, 2, 0, 0}, {1, 1, 0, 2, 0}, {1, 1, 1, 3, 0}};
    static const arrival both_for_0[] = {{1, 0}, {1, 0}};
    static const arrival input_1_for_1[] = {{0, 0}, {2, 5}};

    fresh(3, 3, 3);
    slot(all_for_2);
    slot(nothing);
    slot(nothing);
    puts("the younger cell moves, its output being empty");
    hold(2, 1, 5, younger_moves, 3);
    slot(nothing);
    puts("the counts are read once");
    hold(3, 2, 4, read_once, 4);
    slot(nothing);
    puts("at speedup 1 a cell is late");
    fresh(2, 1, 4);
    slot(both_for_0);
    slot(input_1_for_1);
    slot(nothing);
}

int main(void)
{
    sizes();
    fit_tables();
    arrival_words();
    spent_clock();
    small_tables();
    schedules();
    return 0;
}
