/*
 * The layout editor in small: runs a cell for all patterns of its letters at once and
 * shows what its nodes do.
 *
 *   editor CELL [PATTERN]
 *   editor CELL NODE CAPACITANCE SAVED [PATTERN]
 *
 * In the second form it first gives the node, 2 to N + 1, another capacitance in fF,
 * saves the changed cell in the file SAVED, and goes on with what it reads from there. If
 * the changed cell is refused, or cannot be written, SAVED is left as it was. The file is
 * written as SAVED.new first, and what stood there is lost. SAVED may be CELL.
 *
 * It prints how many patterns hold each node high after the start and after each
 * step, and then the wave of one pattern, 0 unless another is named: the nodes' values
 * whenever one of them has changed, and the next change that pends. Columns are headed
 * by the numbers of the nodes. A refusal is printed with its number and its word.
 *
 * From the repository's root, after `tools/staticlib`:
 *
 *   gcc -std=c99 -O2 -Iinclude -o editor examples/editor.c target/staticlib/libeditor.a
 *   ./editor cells/inverter.cell 1
 *   ./editor cells/inverter.cell 3 100 slower.cell 1
 *
 * Exit status: 0; 1 if something was refused; 2 if there is no such file or node, a file
 * cannot be written, the memory is too small or the arguments are wrong.
 */
#include "sts.h"

#include <inttypes.h>
#include <stdio.h>
#include <stdlib.h>
#include <string.h>

/* How many entries the table and the working columns have. */
#define TABLE_LENGTH ((size_t)STS_LONGEST_TABLE)
#define WORKING_LENGTH ((size_t)STS_MOST_WORKING)

/* The number of the first node record: 0 is ground, 1 is supply. */
#define FIRST_NODE 2

/* A byte more than any cell has: of a longer file these bytes are refused with the same
   number. */
#define FILE_ROOM (STS_MOST_BYTES + 1)

/* Where docs/CELL-FILE.md has the first record of the node chain in the header, and in a
   node record the next record and the capacitance: two bytes each. */
#define FIRST_AT 8
#define NEXT_AT 2
#define CAPACITANCE_AT 6

/* The largest number of two bytes. */
#define MOST_CAPACITANCE 0xffff

/* What the arguments ask for. */
struct task {
    const char *cell;
    uint32_t pattern;
    /* Where the changed cell is saved; NULL if nothing is to be changed. */
    const char *saved;
    uint32_t node;
    uint32_t capacitance;
};

/* Three columns of one length. */
struct columns {
    uint32_t *letter;
    uint32_t *low;
    uint32_t *high;
    size_t length;
};

/* A cell and its run: what the editor keeps of it. */
struct work {
    uint8_t file[FILE_ROOM];
    size_t file_length;
    uint32_t header[STS_HEADER_LENGTH];
    struct columns table;
    struct columns working;
    /* The run's record after the start and after each step. */
    struct sts_moment *moments;
    size_t moments_count;
    size_t moments_room;
};

static void no_memory(void)
{
    fputs("editor: not enough memory\n", stderr);
    exit(2);
}

/* Prints the number of a refusal and the trade's word for it. */
static void print_refusal(uint32_t answer)
{
    static const char *const words[] = {
        "answered", "length", "header",  "chain",  "record",   "order",
        "full",     "unsound", "buffer", "question", "finished", "ceiling",
    };
    const char *word = answer < sizeof words / sizeof words[0] ? words[answer] : "unknown";

    printf("refused %" PRIu32 ": %s\n", answer, word);
}

static uint32_t *make_column(size_t length)
{
    uint32_t *column = calloc(length, sizeof *column);

    if (column == NULL)
        no_memory();
    return column;
}

static void make_columns(struct columns *columns, size_t length)
{
    columns->letter = make_column(length);
    columns->low = make_column(length);
    columns->high = make_column(length);
    columns->length = length;
}

static void free_columns(struct columns *columns)
{
    free(columns->letter);
    free(columns->low);
    free(columns->high);
}

/* Reads a file, or its first bytes. Gives 0 if it could be read. */
static int read_file(struct work *work, const char *name)
{
    FILE *stream = fopen(name, "rb");
    int failed;

    if (stream == NULL) {
        perror(name);
        return 1;
    }
    work->file_length = fread(work->file, 1, FILE_ROOM, stream);
    failed = ferror(stream);
    if (failed)
        perror(name);
    fclose(stream);
    return failed;
}

/* Writes a file. It is written beside the named one first, and takes its place only when
   it is whole: what stood there is not lost before. That rename replaces a file is so on
   POSIX systems. Gives 0 if all went well. */
static int write_file(const char *name, const uint8_t *bytes, size_t length)
{
    static const char ending[] = ".new";
    char *beside = malloc(strlen(name) + sizeof ending);
    FILE *stream;
    int failed;

    if (beside == NULL)
        no_memory();
    strcpy(beside, name);
    strcat(beside, ending);
    stream = fopen(beside, "wb");
    failed = stream == NULL;
    if (stream != NULL) {
        failed = fwrite(bytes, 1, length, stream) != length;
        /* What is still in the stream's buffer is written here. */
        failed |= fclose(stream) != 0;
        failed = failed || rename(beside, name) != 0;
    }
    if (failed) {
        perror(beside);
        if (stream != NULL)
            remove(beside);
    }
    free(beside);
    return failed;
}

/* A number of two bytes, the lower one first. */
static uint32_t get_16(const uint8_t *at)
{
    return at[0] | (uint32_t)at[1] << 8;
}

static void put_16(uint8_t *at, uint32_t number)
{
    at[0] = number & 0xff;
    at[1] = number >> 8 & 0xff;
}

/* The record of a node, 2 to N + 1. The chain is walked in a file that sts_read has
   answered with 0: only then has it a record for each node. */
static uint8_t *node_record(struct work *work, uint32_t node)
{
    uint32_t record = get_16(work->file + FIRST_AT);

    for (; node > FIRST_NODE; node--)
        record = get_16(work->file + STS_RECORD_BYTES * record + NEXT_AT);
    return work->file + STS_RECORD_BYTES * record;
}

/* Gives a node another capacitance in the copy of the file that is in memory, and saves
   that. Gives the exit status: 0 if the cell is saved. */
static int change(struct work *work, const struct task *task)
{
    uint8_t saved[STS_MOST_BYTES];
    uint32_t length;
    uint32_t answer;

    answer = sts_read(work->file, work->file_length,
                      work->header, STS_HEADER_LENGTH);
    if (answer != STS_OK) {
        print_refusal(answer);
        return 1;
    }
    if (task->node < FIRST_NODE || task->node - FIRST_NODE >= work->header[STS_NODES]) {
        fprintf(stderr, "editor: the cell has no node record %" PRIu32 "\n", task->node);
        return 2;
    }
    put_16(node_record(work, task->node) + CAPACITANCE_AT, task->capacitance);
    answer = sts_save(work->file, work->file_length,
                      saved, sizeof saved,
                      &length);
    if (answer != STS_OK) {
        print_refusal(answer);
        return 1;
    }
    if (write_file(task->saved, saved, length) != 0)
        return 2;
    printf("node %" PRIu32 " has %" PRIu32 " fF, saved in %" PRIu32 " bytes\n",
           task->node, task->capacitance, length);
    return 0;
}

/* Makes room for one more moment. */
static struct sts_moment *new_moment(struct work *work)
{
    size_t count = work->moments_count;

    if (count == work->moments_room) {
        size_t room = count == 0 ? 64 : 2 * count;
        struct sts_moment *moments = NULL;

        if (room <= SIZE_MAX / sizeof *moments)
            moments = realloc(work->moments, room * sizeof *moments);
        if (moments == NULL)
            no_memory();
        work->moments = moments;
        work->moments_room = room;
    }
    return &work->moments[count];
}

/* Starts a run of the cell in a fresh table. Gives the call's answer. */
static uint32_t start(struct work *work)
{
    struct columns *table = &work->table;
    struct columns *working = &work->working;
    struct sts_moment *moment = new_moment(work);
    uint32_t record[STS_RECORD_LENGTH];
    uint32_t answer;

    answer = sts_fresh(table->letter, table->length,
                       table->low, table->length,
                       table->high, table->length);
    if (answer != STS_OK)
        return answer;
    answer = sts_start(work->file, work->file_length,
                       table->letter, table->length,
                       table->low, table->length,
                       table->high, table->length,
                       STS_FRESH_USED,
                       record, STS_RECORD_LENGTH,
                       working->letter, working->length,
                       working->low, working->length,
                       working->high, working->length);
    if (answer != STS_OK)
        return answer;
    sts_from_column(moment, record);
    work->moments_count++;
    return STS_OK;
}

/* Takes one step: a copy of the last moment is advanced in place. Gives the call's
   answer. */
static uint32_t step(struct work *work)
{
    struct columns *table = &work->table;
    struct columns *working = &work->working;
    struct sts_moment *moment = new_moment(work);
    uint32_t answer;

    *moment = work->moments[work->moments_count - 1];
    answer = sts_advance(work->file, work->file_length,
                         table->letter, table->length,
                         table->low, table->length,
                         table->high, table->length,
                         moment,
                         working->letter, working->length,
                         working->low, working->length,
                         working->high, working->length);
    if (answer == STS_OK)
        work->moments_count++;
    return answer;
}

/* Nothing is ever removed from the table: with the table's present used count all
   earlier records of the run can be read. */
static void renew_moments(struct work *work)
{
    size_t last = work->moments_count - 1;
    size_t i;

    for (i = 0; i < last; i++)
        work->moments[i].used = work->moments[last].used;
}

/* Prints the head of a table: the first columns' names, then the nodes' numbers. */
static void print_head(const struct work *work, const char *names)
{
    uint32_t node;

    printf("%s", names);
    for (node = 0; node < work->header[STS_NODES]; node++)
        printf(" %6" PRIu32, FIRST_NODE + node);
    printf("\n");
}

/* Prints how many patterns hold each node high at each moment. */
static uint32_t print_counts(const struct work *work)
{
    const struct columns *table = &work->table;
    uint32_t letters = work->header[STS_LETTERS];
    uint32_t counts[STS_MOST_NODES] = {0};
    size_t i;

    printf("patterns that are high, of %" PRIu32 "\n", UINT32_C(1) << letters);
    print_head(work, "     ps");
    for (i = 0; i < work->moments_count; i++) {
        const struct sts_moment *moment = &work->moments[i];
        uint32_t node;

        for (node = 0; node < work->header[STS_NODES]; node++) {
            uint32_t entry = moment->values[node];
            uint32_t answer;

            /* Two functions are equal exactly if their entries are. */
            if (i > 0 && entry == work->moments[i - 1].values[node])
                continue;
            answer = sts_count(letters,
                               table->letter, table->length,
                               table->low, table->length,
                               table->high, table->length,
                               moment->used, entry, &counts[node]);
            if (answer != STS_OK)
                return answer;
        }
        printf("%7" PRIu32, moment->time);
        for (node = 0; node < work->header[STS_NODES]; node++)
            printf(" %6" PRIu32, counts[node]);
        printf("\n");
    }
    return STS_OK;
}

/* Asks for the values of all nodes at a pattern, and for the earliest next change. */
static uint32_t ask(const struct work *work, const struct sts_moment *moment,
                    uint32_t pattern, uint32_t *values, uint32_t *change)
{
    const struct columns *table = &work->table;
    uint32_t record[STS_RECORD_LENGTH];
    uint32_t node;

    sts_to_column(moment, record);
    *change = STS_NEVER;
    for (node = 0; node < work->header[STS_NODES]; node++) {
        uint32_t told[STS_ANSWER_LENGTH];
        uint32_t answer;

        answer = sts_ask(work->file, work->file_length,
                         table->letter, table->length,
                         table->low, table->length,
                         table->high, table->length,
                         record, STS_RECORD_LENGTH,
                         FIRST_NODE + node, pattern,
                         told, STS_ANSWER_LENGTH);
        if (answer != STS_OK)
            return answer;
        values[node] = told[STS_VALUE];
        if (told[STS_CHANGE] < *change)
            *change = told[STS_CHANGE];
    }
    return STS_OK;
}

/* Prints the wave of one pattern: the moments at which something changes there. */
static uint32_t print_wave(const struct work *work, uint32_t pattern)
{
    uint32_t values[STS_MOST_NODES] = {0};
    uint32_t before[STS_MOST_NODES];
    size_t i;

    for (i = 0; i < work->moments_count; i++) {
        const struct sts_moment *moment = &work->moments[i];
        uint32_t change;
        uint32_t node;
        uint32_t answer;

        memcpy(before, values, sizeof before);
        answer = ask(work, moment, pattern, values, &change);
        if (answer != STS_OK)
            return answer;
        if (i == 0) {
            printf("wave of pattern %" PRIu32 "\n", pattern);
            print_head(work, "     ps    next");
        } else if (memcmp(before, values, sizeof before) == 0) {
            continue;
        }
        printf("%7" PRIu32, moment->time);
        if (change == STS_NEVER)
            printf("   never");
        else
            printf(" %7" PRIu32, change);
        for (node = 0; node < work->header[STS_NODES]; node++)
            printf(" %6" PRIu32, values[node]);
        printf("\n");
    }
    return STS_OK;
}

/* Reads the cell, runs it to its end and prints what it does. Gives the first refusal
   that is not the end of the run, or 0. */
static uint32_t show(struct work *work, uint32_t pattern)
{
    uint32_t end;
    uint32_t answer;

    answer = sts_read(work->file, work->file_length,
                      work->header, STS_HEADER_LENGTH);
    if (answer != STS_OK)
        return answer;
    printf("cell of %" PRIu32 " nodes, %" PRIu32 " transistors, %" PRIu32 " schedule entries and %"
           PRIu32 " letters, up to %" PRIu32 " ps\n",
           work->header[STS_NODES], work->header[STS_TRANSISTORS],
           work->header[STS_ENTRIES], work->header[STS_LETTERS],
           work->header[STS_HORIZON]);
    answer = start(work);
    if (answer != STS_OK)
        return answer;
    do
        end = step(work);
    while (end == STS_OK);
    renew_moments(work);
    answer = print_counts(work);
    if (answer == STS_OK)
        answer = print_wave(work, pattern);
    if (answer == STS_OK && end != STS_FINISHED)
        answer = end;
    return answer;
}

/* Shows a cell in a table and with working columns of its own. Gives the exit status. */
static int show_cell(struct work *work, uint32_t pattern)
{
    uint32_t answer;

    make_columns(&work->table, TABLE_LENGTH);
    make_columns(&work->working, WORKING_LENGTH);
    answer = show(work, pattern);
    if (answer != STS_OK)
        print_refusal(answer);
    free(work->moments);
    free_columns(&work->working);
    free_columns(&work->table);
    return answer == STS_OK ? 0 : 1;
}

/* A number in decimal, or the largest if it is larger than that. Gives 0 if it is one. */
static int read_number(const char *text, uint32_t *number)
{
    char *end;
    unsigned long value;

    if (*text < '0' || *text > '9')
        return 1;
    value = strtoul(text, &end, 10);
    *number = value > UINT32_MAX ? UINT32_MAX : (uint32_t)value;
    return *end != '\0';
}

/* Reads the arguments: the second form has three more. Gives 0 if they are right. */
static int read_arguments(struct task *task, int count, char **arguments)
{
    int changes = count >= 5;
    int pattern = changes ? 5 : 2;

    if (count < 2 || count > pattern + 1)
        return 1;
    task->cell = arguments[1];
    if (changes) {
        task->saved = arguments[4];
        if (read_number(arguments[2], &task->node) != 0 ||
            read_number(arguments[3], &task->capacitance) != 0 ||
            task->capacitance > MOST_CAPACITANCE)
            return 1;
    }
    return count > pattern ? read_number(arguments[pattern], &task->pattern) : 0;
}

int main(int count, char **arguments)
{
    static struct work work;
    struct task task = {0};
    int status;

    if (read_arguments(&task, count, arguments) != 0) {
        fputs("usage: editor CELL [PATTERN]\n"
              "       editor CELL NODE CAPACITANCE SAVED [PATTERN]\n", stderr);
        return 2;
    }
    if (read_file(&work, task.cell) != 0)
        return 2;
    if (task.saved != NULL) {
        status = change(&work, &task);
        if (status != 0)
            return status;
        /* From here on the cell is the one on the disk. */
        if (read_file(&work, task.saved) != 0)
            return 2;
    }
    return show_cell(&work, task.pattern);
}
