/*
 * Calls each export of the tool from C, on arrays that C lends. Prints a line for
 * each check that fails; the exit status is 1 if any did.
 *
 * From the repository's root, after `tools/staticlib`:
 *
 *   mkdir -p tests/target && gcc -std=c99 -pedantic -Wall -Wextra -Werror -O2 \
 *     -o tests/target/calls tests/c/calls.c target/staticlib/libeditor.a && tests/target/calls
 */
#include "../../include/sts.h"

#include <stdio.h>
#include <string.h>

static int checks = 0;
static int failures = 0;

static void check(int holds, const char *what)
{
    checks++;
    if (!holds) {
        failures++;
        printf("failed: %s\n", what);
    }
}

/* The inverter: header, two nodes, two transistors, one entry. */
static const uint8_t inverter[96] = {
    2, 2, 1, 2, 0xe8, 3,  0, 0, 1,    0, 3, 0, 5, 0, 0, 0,
    1, 0, 2, 0, 1,    2,  0, 0, 0,    0, 0, 0, 0, 0, 0, 0,
    1, 0, 0, 0, 0,    3, 50, 0, 0,    0, 0, 0, 0, 0, 0, 0,
    2, 0, 4, 0, 1,    2,  1, 3, 0xd0, 7, 0, 0, 0, 0, 0, 0,
    2, 0, 0, 0, 0,    2,  0, 3, 0xe8, 3, 0, 0, 0, 0, 0, 0,
    3, 0, 0, 0, 2,    4,  0, 0, 200,  0, 0, 0, 0, 0, 0, 0,
};

/* The lent header stands within more numbers, so that none beside it changes. */
#define MARGIN 2
#define WIDEST 8
#define NUMBERS (MARGIN + WIDEST + MARGIN)

static uint32_t numbers[NUMBERS];

static void fill(uint32_t *at)
{
    uint32_t i;

    for (i = 0; i < NUMBERS; i++)
        at[i] = 0xfeed0000u + i;
}

/* Reads a file into a header of this length. */
static uint32_t read_into(const uint8_t *file, size_t file_length, size_t header_length)
{
    fill(numbers);
    return sts_read(file, file_length, numbers + MARGIN, header_length);
}

/* All numbers are as before the call, but for the header's, which are these. */
static int numbers_are(const uint32_t *header, size_t header_length)
{
    uint32_t expected[NUMBERS];

    fill(expected);
    if (header_length > 0)
        memcpy(expected + MARGIN, header, header_length * sizeof *header);
    return memcmp(numbers, expected, sizeof expected) == 0;
}

static void check_kept(const char *what)
{
    checks++;
    if (!numbers_are(NULL, 0)) {
        failures++;
        printf("failed: the header is kept where %s\n", what);
    }
}

static void check_read(void)
{
    static const uint32_t header[STS_HEADER_LENGTH] = { 2, 2, 1, 2, 1000 };

    check(read_into(inverter, sizeof inverter, STS_HEADER_LENGTH) == STS_OK,
          "sts_read reads the inverter");
    check(numbers_are(header, STS_HEADER_LENGTH),
          "sts_read gives the inverter's header and writes nothing else");
    check(numbers[MARGIN + STS_NODES] == 2 && numbers[MARGIN + STS_TRANSISTORS] == 2 &&
              numbers[MARGIN + STS_ENTRIES] == 1 && numbers[MARGIN + STS_LETTERS] == 2 &&
              numbers[MARGIN + STS_HORIZON] == 1000,
          "the header's numbers stand where sts.h says");
}

/* The inverter with one byte changed, or cut, is refused so. */
static void check_refused(size_t at, uint8_t byte, size_t length, uint32_t number, const char *what)
{
    uint8_t file[sizeof inverter];

    memcpy(file, inverter, sizeof file);
    file[at] = byte;
    check(read_into(file, length, STS_HEADER_LENGTH) == number, what);
    check_kept(what);
}

static void check_refusals(void)
{
    const size_t all = sizeof inverter;

    check_refused(0, 2, 0, STS_LENGTH, "sts_read refuses no bytes with 1");
    check_refused(0, 2, 15, STS_LENGTH, "sts_read refuses 15 bytes with 1");
    check_refused(0, 2, all - 1, STS_LENGTH, "sts_read refuses a byte less with 1");
    check_refused(3, 13, all, STS_HEADER, "sts_read refuses 13 letters with 2");
    check_refused(3, 13, all - 1, STS_HEADER, "sts_read refuses the header before the length");
    check_refused(10, 0, all, STS_CHAIN, "sts_read refuses a chain without transistors with 3");
    check_refused(32 + 6, 0, all, STS_RECORD, "sts_read refuses an inner node of 0 fF with 4");
}

/* Two entries, the second no later than the first. */
static void check_order(void)
{
    static const char twice[] = "sts_read refuses the same moment twice with 5";
    uint8_t file[sizeof inverter + 16];

    memcpy(file, inverter, sizeof inverter);
    memcpy(file + 96, inverter + 80, 16);
    file[2] = 2;
    file[80 + 2] = 6;
    check(read_into(file, sizeof file, STS_HEADER_LENGTH) == STS_ORDER, twice);
    check_kept(twice);
    file[96 + 8] = 201;
    check(read_into(file, sizeof file, STS_HEADER_LENGTH) == STS_OK,
          "sts_read reads two entries that rise");
}

static void check_header_lengths(void)
{
    static const char wrong[] = "sts_read refuses a header of another length with 8";
    static const char first[] = "sts_read refuses the header's length before the file's";
    size_t length;

    for (length = 0; length <= WIDEST; length++) {
        if (length == STS_HEADER_LENGTH)
            continue;
        check(read_into(inverter, sizeof inverter, length) == STS_BUFFER, wrong);
        check_kept(wrong);
        check(read_into(inverter, 3, length) == STS_BUFFER, first);
        check_kept(first);
    }
}

/* A record of a cell at its limits: nodes are inputs, transistors lead from ground to
   node 2, entries are those of node 2 at rising times. */
static void put_record(uint8_t *at, uint32_t number)
{
    at[0] = number <= STS_MOST_NODES ? 1 : number <= STS_MOST_NODES + STS_MOST_TRANSISTORS ? 2 : 3;
    at[2] = (uint8_t)(number + 1);
    at[4] = at[0] == 3 ? 2 : at[0] == 1;
    at[7] = at[0] == 2 ? 2 : 0;
    at[8] = at[0] == 1 ? 0 : (uint8_t)number;
}

/* A cell that has the most of everything, records in the order of their chains. */
static void make_longest_file(uint8_t *file)
{
    uint32_t i;

    memset(file, 0, STS_MOST_BYTES);
    file[0] = STS_MOST_NODES;
    file[1] = STS_MOST_TRANSISTORS;
    file[2] = STS_MOST_ENTRIES;
    file[3] = STS_MOST_LETTERS;
    file[4] = STS_MOST_HORIZON & 0xff;
    file[5] = STS_MOST_HORIZON >> 8 & 0xff;
    file[6] = STS_MOST_HORIZON >> 16;
    file[8] = 1;
    file[10] = 1 + STS_MOST_NODES;
    file[12] = 1 + STS_MOST_NODES + STS_MOST_TRANSISTORS;
    for (i = 1; i <= STS_MOST_NODES + STS_MOST_TRANSISTORS + STS_MOST_ENTRIES; i++)
        put_record(file + STS_RECORD_BYTES * i, i);
    file[STS_RECORD_BYTES * STS_MOST_NODES + 2] = 0;
    file[STS_RECORD_BYTES * (STS_MOST_NODES + STS_MOST_TRANSISTORS) + 2] = 0;
    file[STS_MOST_BYTES - STS_RECORD_BYTES + 2] = 0;
}

static void check_longest_file(void)
{
    static const uint32_t limits[STS_HEADER_LENGTH] = {
        STS_MOST_NODES, STS_MOST_TRANSISTORS, STS_MOST_ENTRIES, STS_MOST_LETTERS, STS_MOST_HORIZON
    };
    uint8_t file[STS_MOST_BYTES + 2] = { 0 };

    make_longest_file(file);
    check(read_into(file, STS_MOST_BYTES, STS_HEADER_LENGTH) == STS_OK &&
              numbers_are(limits, STS_HEADER_LENGTH),
          "sts_read reads a cell at all its limits");
    check(read_into(file, STS_MOST_BYTES + 1, STS_HEADER_LENGTH) == STS_LENGTH &&
              read_into(file, STS_MOST_BYTES + 2, STS_HEADER_LENGTH) == STS_LENGTH,
          "sts_read refuses more bytes than the limits allow with 1");
}

/* The inverter with its records the other way round, from the entry to the first node. */
static const uint8_t backwards[96] = {
    2, 2, 1, 2, 0xe8, 3,  0, 0, 5,    0, 3, 0, 1, 0, 0, 0,
    3, 0, 0, 0, 2,    4,  0, 0, 200,  0, 0, 0, 0, 0, 0, 0,
    2, 0, 0, 0, 0,    2,  0, 3, 0xe8, 3, 0, 0, 0, 0, 0, 0,
    2, 0, 2, 0, 1,    2,  1, 3, 0xd0, 7, 0, 0, 0, 0, 0, 0,
    1, 0, 0, 0, 0,    3, 50, 0, 0,    0, 0, 0, 0, 0, 0, 0,
    1, 0, 4, 0, 1,    2,  0, 0, 0,    0, 0, 0, 0, 0, 0, 0,
};

/* The buffer for a saved file and its length stand within more memory, so that nothing
   beside them changes. */
struct buffer {
    uint8_t before[STS_RECORD_BYTES];
    uint8_t out[STS_MOST_BYTES + STS_RECORD_BYTES];
    uint32_t length[3];
};

static struct buffer buffer;

static void fill_buffer(struct buffer *b)
{
    uint8_t *bytes = (uint8_t *)b;
    size_t i;

    for (i = 0; i < sizeof *b; i++)
        bytes[i] = (uint8_t)(7 * i + 3);
}

/* Saves a file into a buffer of this length. */
static uint32_t save_into(const uint8_t *file, size_t file_length, size_t out_length)
{
    fill_buffer(&buffer);
    return sts_save(file, file_length, buffer.out, out_length, &buffer.length[1]);
}

/* All bytes are as before the call, but for this saved file and its length. */
static int buffer_has(const uint8_t *file, size_t file_length)
{
    struct buffer expected;

    fill_buffer(&expected);
    memcpy(expected.out, file, file_length);
    expected.length[1] = (uint32_t)file_length;
    return memcmp(&buffer, &expected, sizeof expected) == 0;
}

static int buffer_is_kept(void)
{
    struct buffer expected;

    fill_buffer(&expected);
    return memcmp(&buffer, &expected, sizeof expected) == 0;
}

/* A file is saved as these bytes in every buffer that is long enough, and is refused 8 in
   every shorter one. */
static void check_saved(const uint8_t *file, const uint8_t *saved, size_t length, const char *what)
{
    int refused = 1, answered = 1;
    size_t room;

    for (room = 0; room < length; room++)
        refused &= save_into(file, length, room) == STS_BUFFER && buffer_is_kept();
    check(refused, "sts_save refuses every short buffer with 8 and keeps it and the length");
    for (room = length; room <= sizeof buffer.out; room++)
        answered &= save_into(file, length, room) == STS_OK && buffer_has(saved, length);
    check(answered, what);
}

static void check_save(void)
{
    uint8_t file[sizeof backwards];
    uint32_t header[STS_HEADER_LENGTH];

    memcpy(file, backwards, sizeof file);
    check_saved(file, inverter, sizeof file, "sts_save puts the inverter's records in order");
    check(memcmp(file, backwards, sizeof file) == 0, "sts_save only reads the file");
    check_saved(inverter, inverter, sizeof inverter, "sts_save keeps a saved file as it is");
    check(sts_read(buffer.out, buffer.length[1], header, STS_HEADER_LENGTH) == STS_OK &&
              header[STS_NODES] == 2 && header[STS_HORIZON] == 1000,
          "sts_read reads what sts_save saved");
}

/* Without entries the schedule has no first record. */
static void check_save_without_entries(void)
{
    uint8_t file[80], saved[80];

    memcpy(saved, inverter, sizeof saved);
    saved[2] = saved[12] = 0;
    memcpy(file, saved, 16);
    memcpy(file + 16, inverter + 64, 16);
    memcpy(file + 32, inverter + 32, 16);
    memcpy(file + 48, inverter + 16, 16);
    memcpy(file + 64, inverter + 48, 16);
    file[8] = 3;
    file[10] = 4;
    file[64 + 2] = 1;
    check_saved(file, saved, sizeof file, "sts_save saves a cell without a schedule");
}

static void check_save_longest(void)
{
    static uint8_t file[STS_MOST_BYTES];

    make_longest_file(file);
    check(save_into(file, sizeof file, STS_MOST_BYTES) == STS_OK && buffer_has(file, sizeof file),
          "sts_save saves a cell at all its limits into STS_MOST_BYTES bytes");
    check(save_into(file, sizeof file, STS_MOST_BYTES - 1) == STS_BUFFER && buffer_is_kept(),
          "sts_save refuses a byte less for it with 8");
}

/* A wrong file is refused with its own number in a long buffer, in a short one and in one
   of no bytes: 8 comes last. */
static void check_save_refused(const uint8_t *file, size_t length, uint32_t number,
                               const char *what)
{
    static const size_t rooms[6] = { sizeof buffer.out, STS_MOST_BYTES, 96, 95, 1, 0 };
    int i;

    for (i = 0; i < 6; i++) {
        check(save_into(file, length, rooms[i]) == number, what);
        check(buffer_is_kept(), "a refused sts_save keeps the buffer and the length");
    }
}

/* The inverter with one byte changed, or cut. */
static void check_save_damaged(size_t at, uint8_t byte, size_t length, uint32_t number,
                               const char *what)
{
    uint8_t file[sizeof backwards];

    memcpy(file, backwards, sizeof file);
    file[at] = byte;
    check_save_refused(file, length, number, what);
}

static void check_save_refusals(void)
{
    const size_t all = sizeof backwards;
    uint8_t file[sizeof inverter + 16];

    check_save_damaged(0, 2, 0, STS_LENGTH, "sts_save refuses no bytes with 1");
    check_save_damaged(3, 13, 15, STS_LENGTH, "sts_save refuses 15 bytes with 1, before 2");
    check_save_damaged(3, 13, all - 1, STS_HEADER, "sts_save refuses the header with 2");
    check_save_damaged(10, 0, all - 1, STS_LENGTH, "sts_save refuses a byte less with 1");
    check_save_damaged(10, 0, all, STS_CHAIN, "sts_save refuses a chain with 3");
    check_save_damaged(64 + 6, 0, all, STS_RECORD, "sts_save refuses a record with 4");
    memcpy(file, inverter, sizeof inverter);
    memcpy(file + 96, inverter + 80, 16);
    file[2] = 2;
    file[80 + 2] = 6;
    check_save_refused(file, sizeof file, STS_ORDER, "sts_save refuses the order with 5");
    file[32 + 6] = 0;
    check_save_refused(file, sizeof file, STS_RECORD, "sts_save refuses 4 before 5");
    file[80 + 2] = 0;
    check_save_refused(file, sizeof file, STS_CHAIN, "sts_save refuses 3 before 4");
}

/* The first small cell: an n from ground to supply, gated by ground. */
static const uint8_t first_small[64] = {
    2, 1, 0, 1, 10, 0, 0, 0, 1, 0, 3, 0, 0, 0, 0, 0,
    1, 0, 2, 0, 1,  2, 0, 0, 0, 0, 0, 0, 0, 0, 0, 0,
    1, 0, 0, 0, 0,  0, 1, 0, 0, 0, 0, 0, 0, 0, 0, 0,
    2, 0, 0, 0, 0,  0, 0, 1, 1, 0, 0, 0, 0, 0, 0, 0,
};

/* The last one: two p from the inner node to the input, gated by the inner node. */
static const uint8_t last_small[80] = {
    2, 2, 0, 1, 10, 0, 0, 0, 1, 0, 3, 0, 0, 0, 0, 0,
    1, 0, 2, 0, 1,  2, 0, 0, 0, 0, 0, 0, 0, 0, 0, 0,
    1, 0, 0, 0, 0,  0, 1, 0, 0, 0, 0, 0, 0, 0, 0, 0,
    2, 0, 4, 0, 1,  3, 3, 2, 1, 0, 0, 0, 0, 0, 0, 0,
    2, 0, 0, 0, 1,  3, 3, 2, 1, 0, 0, 0, 0, 0, 0, 0,
};

/* Gets the small cell at a place, in a buffer of this length. */
static uint32_t small_into(uint32_t place, size_t out_length)
{
    fill_buffer(&buffer);
    return sts_small(place, buffer.out, out_length, &buffer.length[1]);
}

static void check_small_at(uint32_t place, const uint8_t *file, size_t length)
{
    check(small_into(place, length) == STS_OK && buffer_has(file, length),
          "sts_small gives a cell in just enough bytes");
    check(small_into(place, sizeof buffer.out) == STS_OK && buffer_has(file, length),
          "sts_small keeps the bytes past the file");
    check(small_into(place, length - 1) == STS_BUFFER && buffer_is_kept(),
          "sts_small refuses a byte less with 8");
    check(small_into(place, 0) == STS_BUFFER && buffer_is_kept(),
          "sts_small refuses no bytes with 8");
}

/* Places past the last, one of them a place in its lower 16 bits. */
static void check_small_past(void)
{
    static const uint32_t places[4] = { STS_SMALL_CELLS, STS_SMALL_CELLS + 1, 65536, UINT32_MAX };
    static const size_t rooms[4] = { sizeof buffer.out, STS_SMALL_BYTES, 63, 0 };
    int i, j;

    for (i = 0; i < 4; i++)
        for (j = 0; j < 4; j++)
            check(small_into(places[i], rooms[j]) == STS_QUESTION && buffer_is_kept(),
                  "sts_small refuses a place past the last with 9, before 8");
}

/* One small cell comes before another in the list: it has fewer transistors, or as many
   and the first type, gate or end that differs is less. */
static int comes_before(const uint8_t *one, const uint8_t *other)
{
    int first = memcmp(one + 48 + 4, other + 48 + 4, 4);

    if (one[1] != other[1])
        return one[1] < other[1];
    if (first != 0 || one[1] == 1)
        return first < 0;
    return memcmp(one + 64 + 4, other + 64 + 4, 4) < 0;
}

/* A cell has what all small cells have: the header, the nodes, transistors of 1 ohm. */
static int has_the_rest(const uint8_t *file)
{
    return file[0] == 2 && memcmp(file + 2, first_small + 2, 46) == 0 &&
           memcmp(file + 48 + 8, first_small + 48 + 8, 8) == 0 &&
           (file[1] == 1 || memcmp(file + 64 + 8, last_small + 64 + 8, 8) == 0);
}

/* All places: legal cells, saved as they are and in their order. They are as many as there
   are such cells, so none is left out. */
static void check_small_list(void)
{
    uint8_t file[STS_SMALL_BYTES], before[STS_SMALL_BYTES];
    uint32_t header[STS_HEADER_LENGTH], length = 0, place;
    int answered = 1, legal = 1, saved = 1, rise = 1;

    for (place = 0; place < STS_SMALL_CELLS; place++) {
        memset(file, 0xab, sizeof file);
        answered &= sts_small(place, file, sizeof file, &length) == STS_OK;
        legal &= sts_read(file, length, header, STS_HEADER_LENGTH) == STS_OK && has_the_rest(file);
        saved &= save_into(file, length, sizeof buffer.out) == STS_OK && buffer_has(file, length);
        rise &= place == 0 || comes_before(before, file);
        memcpy(before, file, sizeof file);
    }
    check(answered, "sts_small gives every cell of the list in STS_SMALL_BYTES bytes");
    check(legal, "sts_read reads every small cell, with what all have");
    check(saved, "sts_save keeps every small cell as it is");
    check(rise, "sts_small gives the cells in their order");
}

static void check_small(void)
{
    check_small_at(0, first_small, sizeof first_small);
    check_small_at(STS_SMALL_CELLS - 1, last_small, sizeof last_small);
    check_small_past();
    check_small_list();
}

/*
 * A function table in memory, with more room in each column than is lent.
 */
#define ROOM 24
#define LENT 16
#define K 2

struct table {
    uint32_t letter[ROOM];
    uint32_t low[ROOM];
    uint32_t high[ROOM];
    uint32_t used;
};

/* The columns of a table as parameters, all of one length. */
#define COLUMNS(t, n) (t)->letter, (n), (t)->low, (n), (t)->high, (n)

/* Entries of the table that make_table makes. */
enum {
    LETTER_0 = 3,
    LETTER_1 = 4,
    FIVE = 5,
    LATE = 6,
    MADE = 7
};

static void put(struct table *t, uint32_t letter, uint32_t low, uint32_t high)
{
    t->letter[t->used] = letter;
    t->low[t->used] = low;
    t->high[t->used] = high;
    t->used++;
}

/* Both letters, the number 5, and 5 where letter 1 is 0 and else never. */
static void make_table(struct table *t)
{
    memset(t, 0xab, sizeof *t);
    check(sts_fresh(COLUMNS(t, LENT)) == STS_OK, "sts_fresh makes a table");
    t->used = STS_FRESH_USED;
    put(t, 0, STS_ENTRY_0, STS_ENTRY_1);
    put(t, 1, STS_ENTRY_0, STS_ENTRY_1);
    put(t, STS_TERMINAL, 5, 0);
    put(t, 1, FIVE, STS_ENTRY_NEVER);
}

static int same(const struct table *t, const struct table *other)
{
    return memcmp(t, other, sizeof *t) == 0;
}

static void check_fresh(void)
{
    static const uint32_t letter[4] = { STS_TERMINAL, STS_TERMINAL, STS_TERMINAL, 0 };
    static const uint32_t low[4] = { 0, 1, STS_NEVER, 0 };
    static const uint32_t high[4] = { 0, 0, 0, 0 };
    struct table t, before;
    size_t length;

    memset(&t, 0xab, sizeof t);
    before = t;
    for (length = 0; length < STS_LEAST_TABLE; length++)
        check(sts_fresh(COLUMNS(&t, length)) == STS_BUFFER, "sts_fresh refuses short columns");
    check(sts_fresh(t.letter, 4, t.low, 4, t.high, 5) == STS_BUFFER &&
              sts_fresh(t.letter, 4, t.low, 3, t.high, 4) == STS_BUFFER &&
              sts_fresh(t.letter, 5, t.low, 4, t.high, 4) == STS_BUFFER,
          "sts_fresh refuses columns of unequal length");
    check(same(&t, &before), "a refused sts_fresh changes nothing");
    check(sts_fresh(COLUMNS(&t, 4)) == STS_OK, "sts_fresh makes a table of four entries");
    check(memcmp(t.letter, letter, sizeof letter) == 0 && memcmp(t.low, low, sizeof low) == 0 &&
              memcmp(t.high, high, sizeof high) == 0,
          "a fresh table has three terminals and zeros");
    check(t.letter[4] == before.letter[4] && t.low[4] == before.low[4] &&
              t.high[4] == before.high[4],
          "sts_fresh writes nothing past its columns");
}

/* The function of an entry has these numbers at the four patterns. */
static int numbers_at(const struct table *t, uint32_t entry, uint32_t at_0, uint32_t at_1,
                      uint32_t at_2, uint32_t at_3)
{
    const uint32_t expected[4] = { at_0, at_1, at_2, at_3 };
    uint32_t pattern, number;

    for (pattern = 0; pattern < 4; pattern++) {
        if (sts_number(K, COLUMNS(t, LENT), t->used, entry, pattern, &number) != STS_OK)
            return 0;
        if (number != expected[pattern])
            return 0;
    }
    return 1;
}

static uint32_t count_of(const struct table *t, uint32_t entry)
{
    uint32_t count;

    return sts_count(K, COLUMNS(t, LENT), t->used, entry, &count) == STS_OK ? count : STS_NEVER;
}

/* The entry that was added last. */
static int last_is(const struct table *t, uint32_t letter, uint32_t low, uint32_t high)
{
    const uint32_t last = t->used - 1;

    return t->letter[last] == letter && t->low[last] == low && t->high[last] == high;
}

static void check_choose(void)
{
    struct table t, before;
    uint32_t entry;

    make_table(&t);
    check(sts_choose(K, COLUMNS(&t, LENT), &t.used, LETTER_0, LETTER_1, STS_ENTRY_0, &entry) ==
              STS_OK,
          "sts_choose gives the and of two letters");
    check(entry == MADE && t.used == MADE + 1 && last_is(&t, 0, STS_ENTRY_0, LETTER_1),
          "the and of two letters is one new entry");
    check(numbers_at(&t, entry, 0, 0, 0, 1), "the and of two letters at every pattern");
    check(count_of(&t, entry) == 1, "sts_count counts one pattern");
    check(sts_choose(K, COLUMNS(&t, LENT), &t.used, LETTER_0, STS_ENTRY_1, LETTER_1, &entry) ==
              STS_OK,
          "sts_choose gives the or of two letters");
    check(numbers_at(&t, entry, 0, 1, 1, 1), "the or of two letters at every pattern");
    check(count_of(&t, entry) == 3, "sts_count counts three patterns");
    before = t;
    check(sts_choose(K, COLUMNS(&t, LENT), &t.used, LETTER_1, LETTER_0, STS_ENTRY_0, &entry) ==
                  STS_OK && entry == MADE && same(&t, &before),
          "the same function again is the same entry");
}

/* Letters on which a function does not depend double its count. */
static void check_count(void)
{
    struct table t;
    uint32_t letters, count;

    make_table(&t);
    for (letters = K; letters <= STS_MOST_LETTERS; letters++) {
        check(sts_count(letters, COLUMNS(&t, LENT), t.used, STS_ENTRY_1, &count) == STS_OK &&
                  count == (uint32_t)1 << letters,
              "sts_count counts all patterns");
        check(sts_count(letters, COLUMNS(&t, LENT), t.used, LETTER_1, &count) == STS_OK &&
                  count == (uint32_t)1 << (letters - 1),
              "sts_count counts half of the patterns");
    }
}

static void check_smaller(void)
{
    struct table t;
    uint32_t entry;

    make_table(&t);
    check(sts_smaller(K, COLUMNS(&t, LENT), &t.used, LATE, LETTER_0, &entry) == STS_OK &&
              entry == LETTER_0 && t.used == MADE,
          "sts_smaller adds nothing where the smaller is there");
    check(sts_smaller(K, COLUMNS(&t, LENT), &t.used, LETTER_1, LETTER_0, &entry) == STS_OK &&
              numbers_at(&t, entry, 0, 0, 0, 1),
          "sts_smaller at every pattern");
}

static void check_sum(void)
{
    struct table t;
    uint32_t entry;

    make_table(&t);
    check(sts_sum(K, COLUMNS(&t, LENT), &t.used, LATE, LETTER_0, &entry) == STS_OK &&
              numbers_at(&t, entry, 5, 6, STS_NEVER, STS_NEVER),
          "sts_sum at every pattern, with never");
    check(t.used == MADE + 3 && t.low[MADE] == 6 &&
              t.letter[MADE + 1] == 1 && last_is(&t, 0, LATE, MADE + 1),
          "sts_sum adds the low part, the high part and the root");
    put(&t, STS_TERMINAL, STS_NEVER - 1, 0);
    check(sts_sum(K, COLUMNS(&t, LENT), &t.used, t.used - 1, FIVE, &entry) == STS_OK &&
              entry == t.used - 1,
          "a large sum stays below never");
}

static void check_fix(void)
{
    struct table t;
    uint32_t entry;

    make_table(&t);
    check(sts_fix(K, COLUMNS(&t, LENT), &t.used, LATE, 1, 0, &entry) == STS_OK && entry == FIVE,
          "sts_fix fixes a letter at 0");
    check(sts_fix(K, COLUMNS(&t, LENT), &t.used, LATE, 1, 1, &entry) == STS_OK &&
              entry == STS_ENTRY_NEVER,
          "sts_fix fixes a letter at 1");
    check(sts_fix(K, COLUMNS(&t, LENT), &t.used, LATE, 0, 1, &entry) == STS_OK && entry == LATE &&
              t.used == MADE,
          "fixing a letter that a function does not have changes nothing");
}

/* What the calls on a table are given; each uses what concerns it. */
struct given {
    uint32_t letters;
    size_t lengths[3];
    uint32_t entry;
    uint32_t letter_number;
    uint32_t bit;
    uint32_t pattern;
    uint32_t selector;
};

static const struct given right = { K, { LENT, LENT, LENT }, LATE, 0, 0, 0, LETTER_0 };

#define GIVEN(t, g)                                                                            \
    (g)->letters, (t)->letter, (g)->lengths[0], (t)->low, (g)->lengths[1], (t)->high,          \
        (g)->lengths[2]

/* The calls on a table, numbered. */
enum { CHOOSE, SMALLER, SUM, FIX, NUMBER, COUNT, CALLS };

static uint32_t make_call(int call, struct table *t, const struct given *g, uint32_t *result)
{
    switch (call) {
    case CHOOSE:
        return sts_choose(GIVEN(t, g), &t->used, g->selector, g->entry, LETTER_1, result);
    case SMALLER:
        return sts_smaller(GIVEN(t, g), &t->used, g->entry, LETTER_0, result);
    case SUM:
        return sts_sum(GIVEN(t, g), &t->used, g->entry, g->entry, result);
    case FIX:
        return sts_fix(GIVEN(t, g), &t->used, g->entry, g->letter_number, g->bit, result);
    case NUMBER:
        return sts_number(GIVEN(t, g), t->used, g->entry, g->pattern, result);
    default:
        return sts_count(GIVEN(t, g), t->used, g->selector, result);
    }
}

static void check_named(int holds, int call, const char *what)
{
    static const char *const names[CALLS] = {
        "sts_choose", "sts_smaller", "sts_sum", "sts_fix", "sts_number", "sts_count"
    };

    checks++;
    if (!holds) {
        failures++;
        printf("failed: %s %s\n", names[call], what);
    }
}

/* The call is refused so, and nothing changes. */
static void check_call_refused(int call, const struct table *t, const struct given *g,
                               uint32_t number, const char *what)
{
    struct table after = *t;
    uint32_t result = 0xfeedu;

    check_named(make_call(call, &after, g, &result) == number, call, what);
    check_named(same(&after, t) && result == 0xfeedu, call, "changes nothing where it is refused");
}

static void check_call_lengths(int call, const struct table *t)
{
    static const size_t wrong[5][3] = {
        { 2, 2, 2 }, { 0, 0, 0 }, { LENT, LENT, LENT + 1 }, { LENT, LENT - 1, LENT },
        { LENT + 1, LENT, LENT }
    };
    struct given g = right;
    int i;

    for (i = 0; i < 5; i++) {
        memcpy(g.lengths, wrong[i], sizeof g.lengths);
        check_call_refused(call, t, &g, STS_BUFFER, "refuses wrong lengths with 8");
    }
}

static void check_call_questions(int call, const struct table *t)
{
    struct given g = right;

    g.letters = STS_MOST_LETTERS + 1;
    check_call_refused(call, t, &g, STS_QUESTION, "refuses 13 letters with 9");
    g = right;
    g.entry = g.selector = t->used;
    check_call_refused(call, t, &g, STS_QUESTION, "refuses an entry that is none with 9");
    if (call == CHOOSE || call == COUNT) {
        g = right;
        g.selector = LATE;
        check_call_refused(call, t, &g, STS_QUESTION, "refuses numbers but 0 and 1 with 9");
    }
    if (call == FIX) {
        g = right;
        g.letter_number = K;
        check_call_refused(call, t, &g, STS_QUESTION, "refuses letter K with 9");
        g = right;
        g.bit = 2;
        check_call_refused(call, t, &g, STS_QUESTION, "refuses bit 2 with 9");
    }
    if (call == NUMBER) {
        g = right;
        g.pattern = 4;
        check_call_refused(call, t, &g, STS_QUESTION, "refuses pattern 4 with 9");
    }
}

static void check_call_unsound(int call, const struct table *made)
{
    struct given g = right;
    struct table t = *made;

    g.letters = 1;
    check_call_refused(call, &t, &g, STS_UNSOUND, "refuses a letter not below K with 7");
    t.used = 2;
    check_call_refused(call, &t, &right, STS_UNSOUND, "refuses a used count of 2 with 7");
    t.used = LENT + 1;
    check_call_refused(call, &t, &right, STS_UNSOUND, "refuses too large a count with 7");
    t = *made;
    t.high[LENT - 1] = 1;
    check_call_refused(call, &t, &right, STS_UNSOUND, "refuses a rest that is not 0 with 7");
    t = *made;
    put(&t, 1, STS_ENTRY_0, STS_ENTRY_1);
    check_call_refused(call, &t, &right, STS_UNSOUND, "refuses an entry twice with 7");
}

/* With room for all of its new entries but one the call is refused. */
static void check_full(int call, const struct table *t, struct given g, uint32_t missing)
{
    struct table after = *t;
    uint32_t result;
    int i;

    for (i = 0; i < 3; i++)
        g.lengths[i] = t->used + missing - 1;
    check_call_refused(call, t, &g, STS_FULL, "refuses a table that gets full with 6");
    for (i = 0; i < 3; i++)
        g.lengths[i] = t->used + missing;
    check_named(make_call(call, &after, &g, &result) == STS_OK &&
                    after.used == t->used + missing,
                call, "is answered where its result just fits");
}

static void check_full_tables(void)
{
    struct table t;
    struct given g = right;

    make_table(&t);
    /* LATE where letter 0 is 1, and else letter 1: a branch. */
    check_full(CHOOSE, &t, g, 1);
    /* 10 where letter 1 is 0, and else never: a terminal and a branch. */
    check_full(SUM, &t, g, 2);
    /* 1 where both letters are: a branch. */
    g.entry = LETTER_1;
    check_full(SMALLER, &t, g, 1);
    /* Never where letter 0 is 1, and else 1: a branch. */
    g.entry = t.used;
    put(&t, 0, LETTER_1, LATE);
    g.letter_number = 1;
    g.bit = 1;
    check_full(FIX, &t, g, 1);
}

static void check_table_refusals(void)
{
    struct table t;
    int call;

    make_table(&t);
    for (call = 0; call < CALLS; call++) {
        struct table after = t;
        uint32_t result;

        check_named(make_call(call, &after, &right, &result) == STS_OK, call, "is answered");
        check_call_lengths(call, &t);
        check_call_questions(call, &t);
        check_call_unsound(call, &t);
    }
}

static uint32_t long_columns[3][STS_LONGEST_TABLE + 1];

static void check_longest(void)
{
    uint32_t *letter = long_columns[0], *low = long_columns[1], *high = long_columns[2];
    const size_t n = STS_LONGEST_TABLE;
    uint32_t used = STS_FRESH_USED, entry, number;

    check(sts_fresh(letter, n + 1, low, n + 1, high, n + 1) == STS_BUFFER,
          "sts_fresh refuses more than the longest table");
    check(sts_fresh(letter, n, low, n, high, n) == STS_OK, "sts_fresh makes the longest table");
    check(sts_sum(STS_MOST_LETTERS, letter, n, low, n, high, n, &used, STS_ENTRY_1, STS_ENTRY_1,
                  &entry) == STS_OK && entry == 3 && used == 4,
          "sts_sum adds to the longest table");
    check(sts_number(STS_MOST_LETTERS, letter, n, low, n, high, n, used, entry, 4095, &number) ==
                  STS_OK && number == 2,
          "sts_number reads the longest table");
    check(sts_number(0, letter, n + 1, low, n + 1, high, n + 1, used, entry, 0, &number) ==
              STS_BUFFER,
          "sts_number refuses more than the longest table");
}

/*
 * A run of the inverter: its table, of which so many entries are lent, its record
 * with numbers beside it, and the record's places that the inverter uses.
 */
#define JUST_ENOUGH 14

struct run {
    struct table table;
    uint32_t record[STS_RECORD_LENGTH + MARGIN];
};

/* The record: time, used count, the values' entries and the next changes'. */
static const uint32_t moments[4][6] = {
    { 0, 5, 3, 4, STS_ENTRY_NEVER, STS_ENTRY_NEVER },
    { 200, 11, 5, 4, STS_ENTRY_NEVER, 10 },
    { 250, 14, 5, 12, STS_ENTRY_NEVER, 13 },
    { 300, 14, 5, 11, STS_ENTRY_NEVER, STS_ENTRY_NEVER },
};

/* Value and next change of nodes 2 and 3 at the four patterns, at each moment. */
static const uint32_t wires[4][2][4][STS_ANSWER_LENGTH] = {
    { { { 0, STS_NEVER }, { 1, STS_NEVER }, { 0, STS_NEVER }, { 1, STS_NEVER } },
      { { 1, STS_NEVER }, { 0, STS_NEVER }, { 1, STS_NEVER }, { 0, STS_NEVER } } },
    { { { 0, STS_NEVER }, { 0, STS_NEVER }, { 1, STS_NEVER }, { 1, STS_NEVER } },
      { { 1, STS_NEVER }, { 0, 300 }, { 1, 250 }, { 0, STS_NEVER } } },
    { { { 0, STS_NEVER }, { 0, STS_NEVER }, { 1, STS_NEVER }, { 1, STS_NEVER } },
      { { 1, STS_NEVER }, { 0, 300 }, { 0, STS_NEVER }, { 0, STS_NEVER } } },
    { { { 0, STS_NEVER }, { 0, STS_NEVER }, { 1, STS_NEVER }, { 1, STS_NEVER } },
      { { 1, STS_NEVER }, { 1, STS_NEVER }, { 0, STS_NEVER }, { 0, STS_NEVER } } },
};

/* The working columns, with a number more than is lent at the least. */
static uint32_t working[3][STS_LEAST_WORKING + 1];

#define SOILED 0xab

static void soil_working(void)
{
    memset(working, SOILED, sizeof working);
}

/* The lent numbers consist of this byte, and the number past each column is as it was. */
static int working_is(uint8_t byte)
{
    const uint8_t *at;
    size_t i, column;

    for (column = 0; column < 3; column++) {
        at = (const uint8_t *)working[column];
        for (i = 0; i < sizeof working[column]; i++)
            if (at[i] != (i < STS_LEAST_WORKING * sizeof(uint32_t) ? byte : SOILED))
                return 0;
    }
    return 1;
}

/* The calls that start or advance a run, numbered. */
enum { START, STEP, ADVANCE, RUN };

/* What such a call is given. */
struct task {
    int call;
    const uint8_t *file;
    size_t file_length;
    /* The used count of a start; the time of a run. */
    uint32_t number;
    size_t lengths[3];
    size_t record_length;
    size_t work_lengths[3];
};

static struct task task_of(int call, uint32_t number, size_t length)
{
    struct task k;
    int i;

    k.call = call;
    k.file = inverter;
    k.file_length = sizeof inverter;
    k.number = number;
    k.record_length = STS_RECORD_LENGTH;
    for (i = 0; i < 3; i++) {
        k.lengths[i] = length;
        k.work_lengths[i] = STS_LEAST_WORKING;
    }
    return k;
}

#define TABLE(t, k)                                                                            \
    (t)->letter, (k)->lengths[0], (t)->low, (k)->lengths[1], (t)->high, (k)->lengths[2]
#define WORKING(k)                                                                             \
    working[0], (k)->work_lengths[0], working[1], (k)->work_lengths[1], working[2],            \
        (k)->work_lengths[2]

/* A step on the record in a struct: the numbers of the record in their order. */
static uint32_t do_advance(const struct task *k, struct run *r)
{
    struct table *t = &r->table;
    struct sts_moment moment;
    uint32_t number;

    memcpy(&moment, r->record, sizeof moment);
    number = sts_advance(k->file, k->file_length, TABLE(t, k), &moment, WORKING(k));
    memset(r->record, SOILED, STS_RECORD_LENGTH * sizeof *r->record);
    r->record[STS_RUN_TIME] = moment.time;
    r->record[STS_RUN_USED] = moment.used;
    memcpy(r->record + STS_RUN_VALUES, moment.values, sizeof moment.values);
    memcpy(r->record + STS_RUN_CHANGES, moment.changes, sizeof moment.changes);
    return number;
}

static uint32_t do_task(const struct task *k, struct run *r)
{
    struct table *t = &r->table;

    soil_working();
    switch (k->call) {
    case START:
        return sts_start(k->file, k->file_length, TABLE(t, k), k->number, r->record,
                         k->record_length, WORKING(k));
    case STEP:
        return sts_step(k->file, k->file_length, TABLE(t, k), r->record, k->record_length,
                        WORKING(k));
    case ADVANCE:
        return do_advance(k, r);
    default:
        return sts_run(k->file, k->file_length, k->number, TABLE(t, k), r->record,
                       k->record_length, WORKING(k));
    }
}

/* A fresh table of this length, and a record of other numbers. */
static void make_run(struct run *r, size_t length)
{
    memset(r, SOILED, sizeof *r);
    check(sts_fresh(COLUMNS(&r->table, length)) == STS_OK, "sts_fresh makes a run's table");
}

/* The record is that of a moment, with zeros past the inverter's nodes and nothing written
   past it. */
static int record_is(const struct run *r, int moment)
{
    uint32_t expected[STS_RECORD_LENGTH + MARGIN];

    memset(expected, 0, sizeof expected);
    memset(expected + STS_RECORD_LENGTH, SOILED, MARGIN * sizeof *expected);
    expected[STS_RUN_TIME] = moments[moment][0];
    expected[STS_RUN_USED] = moments[moment][1];
    memcpy(expected + STS_RUN_VALUES, moments[moment] + 2, 2 * sizeof *expected);
    memcpy(expected + STS_RUN_CHANGES, moments[moment] + 4, 2 * sizeof *expected);
    return memcmp(r->record, expected, sizeof expected) == 0;
}

static int answer_is(const struct run *r, size_t length, uint32_t node, uint32_t pattern,
                     const uint32_t *expected)
{
    uint32_t answer[STS_ANSWER_LENGTH] = { 0xfeedu, 0xfeedu };

    return sts_ask(inverter, sizeof inverter, COLUMNS(&r->table, length), r->record,
                   STS_RECORD_LENGTH, node, pattern, answer, STS_ANSWER_LENGTH) == STS_OK &&
           memcmp(answer, expected, sizeof answer) == 0;
}

/* Questions give the values and next changes of a moment, at every node and pattern. */
static void check_wires(const struct run *r, size_t length, int moment)
{
    static const uint32_t rails[2][STS_ANSWER_LENGTH] = { { 0, STS_NEVER }, { 1, STS_NEVER } };
    const struct run before = *r;
    uint32_t node, pattern;

    for (pattern = 0; pattern < 4; pattern++)
        for (node = 0; node < 4; node++)
            check(answer_is(r, length, node, pattern,
                            node < 2 ? rails[node] : wires[moment][node - 2][pattern]),
                  "sts_ask gives a node's value and next change at a pattern");
    check(memcmp(r, &before, sizeof *r) == 0, "sts_ask changes neither table nor record");
}

/* The call is answered and leaves the run at a moment. */
static void check_task(const struct task *k, struct run *r, int moment, const char *what)
{
    check(do_task(k, r) == STS_OK, what);
    check(record_is(r, moment), "the record holds the moment and nothing else is written");
    check(working_is(0), "working is 0 after an answer");
    check_wires(r, k->lengths[0], moment);
}

/* The call is refused so, and neither table nor record changes. */
static void check_task_refused(const struct task *k, const struct run *r, uint32_t number,
                               const char *what)
{
    struct run after = *r;

    check(do_task(k, &after) == number, what);
    check(memcmp(&after, r, sizeof after) == 0, "a refused call leaves the run as it was");
    check(working_is(number == STS_BUFFER ? SOILED : 0),
          "working is 0 after a refusal, and untouched after 8");
}

/* The run after so many steps, in a table of this length. */
static void make_moment(struct run *r, size_t length, int moment)
{
    const struct task start = task_of(START, STS_FRESH_USED, length);
    const struct task step = task_of(STEP, 0, length);
    int i;

    make_run(r, length);
    check_task(&start, r, 0, "sts_start starts the inverter");
    for (i = 1; i <= moment; i++)
        check_task(&step, r, i, "sts_step steps the inverter");
}

static void check_steps(void)
{
    const struct task step = task_of(STEP, 0, JUST_ENOUGH);
    struct run r;

    make_moment(&r, JUST_ENOUGH, 3);
    check(r.table.letter[JUST_ENOUGH] == 0xababababu && r.table.low[JUST_ENOUGH] == 0xababababu &&
              r.table.high[JUST_ENOUGH] == 0xababababu,
          "a run writes nothing past its table");
    check_task_refused(&step, &r, STS_FINISHED, "sts_step refuses a finished run with 10");
}

static void check_advances(void)
{
    const struct task advance = task_of(ADVANCE, 0, JUST_ENOUGH);
    struct task k;
    struct run r;
    int i;

    check(sizeof(struct sts_moment) == STS_RECORD_LENGTH * sizeof(uint32_t),
          "the struct of a record has its numbers and nothing else");
    make_moment(&r, JUST_ENOUGH, 0);
    for (i = 1; i <= 3; i++) {
        k = advance;
        k.lengths[1]--;
        check_task_refused(&k, &r, STS_BUFFER, "sts_advance refuses unequal columns with 8");
        k = advance;
        k.file_length--;
        check_task_refused(&k, &r, STS_LENGTH, "sts_advance refuses a file that is cut with 1");
        check_task(&advance, &r, i, "sts_advance steps the inverter");
    }
    check_task_refused(&advance, &r, STS_FINISHED, "sts_advance refuses a finished run with 10");
    r.record[STS_RUN_TIME] = STS_NEVER;
    check_task_refused(&advance, &r, STS_UNSOUND, "sts_advance refuses an unsound record with 7");
}

/* A column to a struct and back, with numbers around both: each number goes to its own
   place, in the order of the column, and none beside. */
static void check_conversions(void)
{
    struct {
        uint32_t before[MARGIN];
        struct sts_moment moment;
        uint32_t after[MARGIN];
    } held;
    uint32_t column[STS_RECORD_LENGTH + MARGIN], back[STS_RECORD_LENGTH + MARGIN];
    uint32_t soiled[MARGIN];
    uint32_t i;

    for (i = 0; i < STS_RECORD_LENGTH + MARGIN; i++)
        column[i] = 0xfeed0000u + i;
    memset(soiled, SOILED, sizeof soiled);
    memset(&held, SOILED, sizeof held);
    memset(back, SOILED, sizeof back);
    sts_from_column(&held.moment, column);
    check(held.moment.time == column[STS_RUN_TIME] && held.moment.used == column[STS_RUN_USED],
          "sts_from_column gives the time and the used count");
    for (i = 0; i < STS_MOST_NODES; i++)
        check(held.moment.values[i] == column[STS_RUN_VALUES + i] &&
                  held.moment.changes[i] == column[STS_RUN_CHANGES + i],
              "sts_from_column gives the entries of a node");
    check(memcmp(&held.moment, column, sizeof held.moment) == 0,
          "a struct has the numbers of its column in their order");
    check(memcmp(held.before, soiled, sizeof soiled) == 0 &&
              memcmp(held.after, soiled, sizeof soiled) == 0,
          "sts_from_column writes nothing beside the struct");
    sts_to_column(&held.moment, back);
    check(memcmp(back, column, STS_RECORD_LENGTH * sizeof *back) == 0,
          "sts_to_column gives the column back");
    check(memcmp(back + STS_RECORD_LENGTH, soiled, sizeof soiled) == 0,
          "sts_to_column writes nothing past the column");
}

/* Started in a column, advanced in a struct, asked about and run on in a column again:
   at each moment the same as by steps on the column. */
static void check_in_place(void)
{
    const struct task step = task_of(STEP, 0, JUST_ENOUGH);
    const struct task run = task_of(RUN, STS_NEVER, JUST_ENOUGH);
    struct run stepped, held, last;
    struct sts_moment moment;
    int i;

    make_moment(&stepped, JUST_ENOUGH, 0);
    held = stepped;
    sts_from_column(&moment, held.record);
    for (i = 1; i <= 3; i++) {
        check_task(&step, &stepped, i, "sts_step steps beside sts_advance");
        soil_working();
        check(sts_advance(inverter, sizeof inverter, TABLE(&held.table, &step), &moment,
                          WORKING(&step)) == STS_OK,
              "sts_advance steps a struct that came from a column");
        sts_to_column(&moment, held.record);
        check(memcmp(&held, &stepped, sizeof held) == 0,
              "a step in place leaves the table and the numbers of a step on the column");
        check_wires(&held, JUST_ENOUGH, i);
        last = held;
        check_task(&run, &last, 3, "sts_run goes on from a struct's column");
    }
    check(sts_advance(inverter, sizeof inverter, TABLE(&held.table, &step), &moment,
                      WORKING(&step)) == STS_FINISHED,
          "sts_advance tells the end of the run");
}

static void check_runs(void)
{
    static const uint32_t until[6] = { 199, 200, 249, 250, 300, STS_NEVER };
    static const int reached[6] = { 0, 1, 1, 2, 3, 3 };
    struct task k;
    struct run r, first;
    int i;

    make_moment(&first, JUST_ENOUGH, 0);
    for (i = 0; i < 6; i++) {
        k = task_of(RUN, until[i], JUST_ENOUGH);
        r = first;
        check_task(&k, &r, reached[i], "sts_run takes every step not later");
        check_task(&k, &r, reached[i], "sts_run again takes no step, finished or not");
    }
    r.record[STS_RUN_VALUES + 2] = r.record[STS_RUN_CHANGES + 23] = 99;
    check_task(&k, &r, 3, "places past the node records are not looked at");
}

static void check_full_runs(void)
{
    const struct task start = task_of(START, STS_FRESH_USED, 4);
    const struct task step = task_of(STEP, 0, JUST_ENOUGH - 1);
    const struct task run = task_of(RUN, 1000, JUST_ENOUGH - 1);
    struct run r;

    make_run(&r, 4);
    check_task_refused(&start, &r, STS_FULL, "with 4 entries the start is refused 6");
    make_moment(&r, JUST_ENOUGH - 1, 0);
    check_task_refused(&run, &r, STS_FULL, "with 13 entries the run is refused 6 as a whole");
    make_moment(&r, JUST_ENOUGH - 1, 1);
    check_task_refused(&step, &r, STS_FULL, "with 13 entries the step to 250 is refused 6");
}

/*
 * Supply, 42,268 ohm, and ground, 1 ohm, pull at node 3, and 23,657 ohm lie between it
 * and node 4 while node 2 is high, which it becomes at 100 ps at pattern 1: one ohm above
 * the ceiling.
 */
static const uint8_t fight[128] = {
    3, 3, 1, 1, 0xe8, 3,  0, 0, 1,    0,    4, 0, 7, 0, 0, 0,
    1, 0, 2, 0, 1,    0,  0, 0, 0,    0,    0, 0, 0, 0, 0, 0,
    1, 0, 3, 0, 0,    0, 30, 0, 0,    0,    0, 0, 0, 0, 0, 0,
    1, 0, 0, 0, 0,    0, 20, 0, 0,    0,    0, 0, 0, 0, 0, 0,
    2, 0, 5, 0, 0,    1,  1, 3, 0x1c, 0xa5, 0, 0, 0, 0, 0, 0,
    2, 0, 6, 0, 0,    1,  0, 3, 1,    0,    0, 0, 0, 0, 0, 0,
    2, 0, 0, 0, 0,    2,  3, 4, 0x69, 0x5c, 0, 0, 0, 0, 0, 0,
    3, 0, 0, 0, 2,    2,  0, 0, 100,  0,    0, 0, 0, 0, 0, 0,
};

/* Where the file has the source of node 2, and two of its resistances. */
#define FIGHT_START (16 + 5)
#define FIGHT_SUPPLY (64 + 8)
#define FIGHT_WEAK (96 + 8)

/* A call on a file of the fight's length, in a table of some length. */
static struct task fight_task(int call, uint32_t number, const uint8_t *file, size_t length)
{
    struct task k = task_of(call, number, length);

    k.file = file;
    k.file_length = sizeof fight;
    return k;
}

/* A run of such a file after its start. Nothing is added: no node has to change. */
static void make_fight(struct run *r, const uint8_t *file, size_t length)
{
    const struct task start = fight_task(START, STS_FRESH_USED, file, length);

    make_run(r, length);
    check(do_task(&start, r) == STS_OK && r->record[STS_RUN_USED] == STS_FRESH_USED,
          "sts_start starts a fight behind a transistor that is off");
}

/* The step to 100 ps is refused, also where the table has no room for its values. */
static void check_ceiling_steps(size_t length)
{
    const struct task step = fight_task(STEP, 0, fight, length);
    const struct task advance = fight_task(ADVANCE, 0, fight, length);
    const struct task run = fight_task(RUN, 100, fight, length);
    const struct task before = fight_task(RUN, 99, fight, length);
    struct run r, first;

    make_fight(&first, fight, length);
    check_task_refused(&step, &first, STS_CEILING, "sts_step refuses the ceiling with 11");
    check_task_refused(&advance, &first, STS_CEILING, "sts_advance refuses the ceiling with 11");
    check_task_refused(&run, &first, STS_CEILING, "sts_run refuses the ceiling with 11");
    r = first;
    check(do_task(&before, &r) == STS_OK && r.record[STS_RUN_TIME] == 0,
          "sts_run up to the step before is answered");
    first.record[STS_RUN_USED] = 2;
    check_task_refused(&step, &first, STS_UNSOUND, "7 comes before 11");
}

/* A start is refused where the fight is there from the beginning. */
static void check_ceiling_starts(size_t length)
{
    struct task start;
    struct run r;
    uint8_t file[sizeof fight];

    memcpy(file, fight, sizeof file);
    file[FIGHT_START] = 1;
    start = fight_task(START, STS_FRESH_USED, file, length);
    make_run(&r, length);
    check_task_refused(&start, &r, STS_CEILING, "sts_start refuses the ceiling with 11");
    /* With 52,578 and 19,018 ohm it is exactly the ceiling. */
    file[FIGHT_SUPPLY] = 0x62;
    file[FIGHT_SUPPLY + 1] = 0xcd;
    file[FIGHT_WEAK] = file[FIGHT_WEAK + 1] = 0x4a;
    check(do_task(&start, &r) == STS_OK, "exactly the ceiling is answered");
}

/* Resistances end at 240,000 ohm. */
static void check_most_resistance(void)
{
    uint32_t most = STS_MOST_RESISTANCE;
    uint8_t file[sizeof fight];

    memcpy(file, fight, sizeof file);
    check(read_into(file, sizeof file, STS_HEADER_LENGTH) == STS_OK, "sts_read reads a fight");
    file[FIGHT_WEAK] = most & 0xff;
    file[FIGHT_WEAK + 1] = most >> 8 & 0xff;
    file[FIGHT_WEAK + 2] = most >> 16 & 0xff;
    check(read_into(file, sizeof file, STS_HEADER_LENGTH) == STS_OK,
          "sts_read reads the largest resistance");
    file[FIGHT_WEAK]++;
    check(read_into(file, sizeof file, STS_HEADER_LENGTH) == STS_RECORD,
          "sts_read refuses one ohm more with 4");
}

static void check_ceiling(void)
{
    check_most_resistance();
    check_ceiling_steps(STS_LEAST_TABLE);
    check_ceiling_steps(ROOM);
    check_ceiling_starts(STS_LEAST_TABLE);
    check_ceiling_starts(ROOM);
}

/* An earlier record is good again with the present used count, and with no other. */
static void check_earlier(void)
{
    const struct task step = task_of(STEP, 0, ROOM);
    struct run r;
    uint32_t record[STS_RECORD_LENGTH];

    make_moment(&r, ROOM, 0);
    memcpy(record, r.record, sizeof record);
    check_task(&step, &r, 1, "a step beside a copy of the record");
    memcpy(r.record, record, sizeof record);
    check_task_refused(&step, &r, STS_UNSOUND, "an earlier used count is refused 7");
    r.record[STS_RUN_USED] = moments[1][1];
    check_wires(&r, ROOM, 0);
    check_task(&step, &r, 1, "a step from an earlier record adds nothing twice");
}

/* Each length that may be wrong, one after the other. */
static void check_task_lengths(struct task k, const struct run *r)
{
    static const char wrong[] = "a lent length out of its range is refused 8";
    const struct task right_one = k;
    int i;

    k.record_length = STS_RECORD_LENGTH - 1;
    check_task_refused(&k, r, STS_BUFFER, wrong);
    k.record_length = STS_RECORD_LENGTH + 1;
    check_task_refused(&k, r, STS_BUFFER, wrong);
    k.record_length = 0;
    check_task_refused(&k, r, STS_BUFFER, wrong);
    for (i = 0; i < 3; i++) {
        k = right_one;
        k.lengths[i]--;
        check_task_refused(&k, r, STS_BUFFER, wrong);
        k = right_one;
        k.work_lengths[i]++;
        check_task_refused(&k, r, STS_BUFFER, wrong);
    }
    k = right_one;
    k.lengths[0] = k.lengths[1] = k.lengths[2] = 2;
    check_task_refused(&k, r, STS_BUFFER, wrong);
    k = right_one;
    k.work_lengths[0] = k.work_lengths[1] = k.work_lengths[2] = STS_LEAST_WORKING - 1;
    check_task_refused(&k, r, STS_BUFFER, wrong);
    k.file_length = 3;
    check_task_refused(&k, r, STS_BUFFER, "8 comes before the file's refusals");
}

/* A byte of the file changed, or the file cut, with a record that is not sound either. */
static void check_task_file(struct task k, const struct run *made, size_t at, uint8_t byte,
                            size_t length, uint32_t number)
{
    uint8_t file[sizeof inverter];
    struct run r = *made;

    memcpy(file, inverter, sizeof file);
    file[at] = byte;
    k.file = file;
    k.file_length = length;
    check_task_refused(&k, &r, number, "a wrong file is refused with its number");
    r.record[STS_RUN_USED] = 2;
    k.number = 2;
    check_task_refused(&k, &r, number, "the file's refusals come before 7");
}

static void check_task_files(const struct task *k, const struct run *r)
{
    const size_t all = sizeof inverter;

    check_task_file(*k, r, 0, 2, 15, STS_LENGTH);
    check_task_file(*k, r, 3, 13, all - 1, STS_HEADER);
    check_task_file(*k, r, 0, 2, all - 1, STS_LENGTH);
    check_task_file(*k, r, 10, 0, all, STS_CHAIN);
    check_task_file(*k, r, 32 + 6, 0, all, STS_RECORD);
}

/* A place of the record with another number. */
static void check_task_unsound(struct task k, const struct run *made, size_t place, uint32_t number)
{
    struct run r = *made;

    r.record[place] = number;
    k.number = place == STS_RUN_USED && k.call == START ? number : k.number;
    check_task_refused(&k, &r, STS_UNSOUND, "an unsound record is refused 7");
}

static void check_task_refusals(void)
{
    static const int calls[3] = { START, STEP, RUN };
    struct run r;
    struct task k;
    int i;

    make_moment(&r, JUST_ENOUGH, 1);
    for (i = 0; i < 3; i++) {
        k = task_of(calls[i], calls[i] == START ? moments[1][1] : 1000, JUST_ENOUGH);
        check_task_lengths(k, &r);
        check_task_files(&k, &r);
        check_task_unsound(k, &r, STS_RUN_USED, 2);
        check_task_unsound(k, &r, STS_RUN_USED, JUST_ENOUGH + 1);
        if (calls[i] == START)
            continue;
        check_task_unsound(k, &r, STS_RUN_TIME, 1001);
        check_task_unsound(k, &r, STS_RUN_TIME, 250);
        check_task_unsound(k, &r, STS_RUN_VALUES, moments[1][1]);
        check_task_unsound(k, &r, STS_RUN_VALUES, STS_ENTRY_NEVER);
        check_task_unsound(k, &r, STS_RUN_CHANGES, STS_ENTRY_1);
        check_task_unsound(k, &r, STS_RUN_CHANGES, 10);
    }
}

/* What a question is given. */
struct question {
    size_t file_length;
    size_t lengths[3];
    size_t record_length;
    uint32_t node;
    uint32_t pattern;
    size_t answer_length;
};

static const struct question asked = {
    sizeof inverter, { JUST_ENOUGH, JUST_ENOUGH, JUST_ENOUGH }, STS_RECORD_LENGTH, 3, 2,
    STS_ANSWER_LENGTH
};

/* The question is refused so, and nothing changes. */
static void check_question(const struct run *r, const struct question *q, uint32_t number,
                           const char *what)
{
    const struct run before = *r;
    uint32_t answer[STS_ANSWER_LENGTH + 1] = { 0xfeed0000u, 0xfeed0001u, 0xfeed0002u };

    check(sts_ask(inverter, q->file_length, TABLE(&r->table, q), r->record, q->record_length,
                  q->node, q->pattern, answer, q->answer_length) == number,
          what);
    check(memcmp(r, &before, sizeof before) == 0 && answer[0] == 0xfeed0000u &&
              answer[1] == 0xfeed0001u && answer[2] == 0xfeed0002u,
          "a refused sts_ask changes nothing");
}

static void check_question_lengths(const struct run *r)
{
    static const char wrong[] = "sts_ask refuses a wrong length with 8";
    struct question q = asked;
    int i;

    for (i = 0; i < 3; i++) {
        q = asked;
        q.lengths[i]--;
        check_question(r, &q, STS_BUFFER, wrong);
    }
    q = asked;
    q.record_length = STS_RECORD_LENGTH + 1;
    check_question(r, &q, STS_BUFFER, wrong);
    q = asked;
    q.answer_length = STS_ANSWER_LENGTH + 1;
    check_question(r, &q, STS_BUFFER, wrong);
    q.answer_length = STS_ANSWER_LENGTH - 1;
    q.file_length = 3;
    check_question(r, &q, STS_BUFFER, "sts_ask refuses lengths before the file");
}

static void check_questions(void)
{
    struct run r;
    struct question q = asked;

    make_moment(&r, JUST_ENOUGH, 1);
    check_question_lengths(&r);
    q.node = 4;
    check_question(&r, &q, STS_QUESTION, "sts_ask refuses node 4 with 9");
    q = asked;
    q.pattern = 4;
    check_question(&r, &q, STS_QUESTION, "sts_ask refuses pattern 4 with 9");
    q.file_length = sizeof inverter - 1;
    check_question(&r, &q, STS_LENGTH, "sts_ask refuses a byte less with 1");
    q.file_length = sizeof inverter;
    r.record[STS_RUN_TIME] = 1001;
    check_question(&r, &q, STS_UNSOUND, "sts_ask refuses an unsound record with 7 before 9");
}

/* The longest table and the longest working columns. */
static void check_longest_run(void)
{
    static uint32_t work[3][STS_MOST_WORKING + 1];
    uint32_t *letter = long_columns[0], *low = long_columns[1], *high = long_columns[2];
    const size_t n = STS_LONGEST_TABLE, m = STS_MOST_WORKING;
    struct run r;

    memset(&r, SOILED, sizeof r);
    check(sts_fresh(letter, n, low, n, high, n) == STS_OK, "sts_fresh makes the longest table");
    check(sts_start(inverter, sizeof inverter, letter, n, low, n, high, n, STS_FRESH_USED,
                    r.record, STS_RECORD_LENGTH, work[0], m + 1, work[1], m + 1, work[2],
                    m + 1) == STS_BUFFER,
          "sts_start refuses more than the longest working columns");
    check(sts_start(inverter, sizeof inverter, letter, n, low, n, high, n, STS_FRESH_USED,
                    r.record, STS_RECORD_LENGTH, work[0], m, work[1], m, work[2], m) == STS_OK &&
              record_is(&r, 0),
          "sts_start starts in the longest table");
    check(sts_run(inverter, sizeof inverter, 1000, letter, n, low, n, high, n, r.record,
                  STS_RECORD_LENGTH, work[0], m, work[1], m, work[2], m) == STS_OK &&
              record_is(&r, 3),
          "sts_run runs in the longest table");
}

int main(void)
{
    check_read();
    check_refusals();
    check_order();
    check_header_lengths();
    check_longest_file();
    check_save();
    check_save_without_entries();
    check_save_longest();
    check_save_refusals();
    check_small();
    check_fresh();
    check_choose();
    check_count();
    check_smaller();
    check_sum();
    check_fix();
    check_table_refusals();
    check_full_tables();
    check_longest();
    check_steps();
    check_advances();
    check_conversions();
    check_in_place();
    check_runs();
    check_full_runs();
    check_ceiling();
    check_earlier();
    check_task_refusals();
    check_questions();
    check_longest_run();
    if (failures > 0) {
        printf("%d of %d checks of the C calls failed\n", failures, checks);
        return 1;
    }
    printf("%d checks of the C calls passed\n", checks);
    return 0;
}
