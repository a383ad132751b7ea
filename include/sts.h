/*
 * The calls of the symbolic switch-level timing tool.
 *
 * Link with target/staticlib/libeditor.a, which `tools/staticlib` writes. The
 * header is C99 and C++11. docs/CELL-FILE.md tells how the bytes of a cell file are
 * laid out, docs/REFUSALS.md what to do about a refusal, and examples/editor.c is a
 * program that makes the calls.
 *
 * Lent memory. Every array is lent as two parameters: a pointer to its first
 * element, then its length in elements (not in bytes). The pointer is not null,
 * also where the length is 0, and is aligned for its elements; it stays the
 * caller's, and no call keeps it. Arrays behind pointers to const are only read.
 * The arrays of one call do not overlap: what a call does with arrays that do is
 * outside all its promises.
 *
 * Stack. A caller has at least 2 MiB of stack free. The calls keep an index of
 * the table there, half a MiB long. A call that starts or advances a run keeps a
 * short one for the working table too, an eighth of a MiB, and a long one, half a
 * MiB, while a step needs more than the first 4,096 entries of it; one that
 * advances a run has a column of a quarter of a MiB beside them.
 *
 * Answers. Every call returns 0 if it was answered and else the number of a
 * refusal. A call may have several reasons to refuse; which of them it gives is
 * told with each call. A refused call leaves all lent arrays as they were, unless
 * the call says otherwise. Any content of any array is answered or refused:
 * the caller has nothing to check first.
 *
 * Threads. The library keeps no state: a call reads and writes the memory lent to
 * it and its own stack, and nothing stays behind. So calls on different memory may
 * run at once, and so may calls that only read what they share: the file in all
 * calls, in questions the table and the record too. While a call runs, nobody else
 * writes to what it was lent, or reads what it may write to: two runs in one table
 * are advanced one after the other, and calls that run at once have working columns
 * of their own. Every thread that calls has the stack told above.
 *
 * Cost. Nothing is remembered from one call to the next, so each call first does
 * what makes it safe, and that grows with the columns' length and the used count. A
 * call on a table clears its index and checks all of the table: about 0.01 ms for a
 * table of a few entries, 0.1 ms for the longest with few entries used, 1 ms for the
 * longest when it is full. The operation itself takes at most some 0.2 ms. A call on
 * a run also reads the cell, checks the record and clears the working columns: with
 * the longest columns 0.2 to 0.3 ms before its first step, and more as the table
 * fills. A step then takes some hundredths of a ms where its functions have few
 * entries and some ms where they have thousands; a dense cell of 12 letters fills
 * the longest table within two seconds. So shorter columns are quicker as long as
 * they suffice, and where the moments in between are not needed one sts_run is
 * quicker than as many steps, since it reads and checks once: for a carry chain of
 * 129 steps about ten times. To read or to save a cell takes about 0.01 ms at most, to
 * get a small one less. docs/BENCHMARKS.md has figures.
 */
#ifndef STS_H
#define STS_H

#include <stddef.h>
#include <stdint.h>

#ifdef __cplusplus
extern "C" {
#endif

/* What a call returns. */
enum sts_answer {
    /* Answered. */
    STS_OK = 0,
    /* The file has fewer than 16 bytes, or not the length its header states. */
    STS_LENGTH = 1,
    /* A count, the horizon or a zero byte of the file's header is wrong. */
    STS_HEADER = 2,
    /* A chain names no record or one of another kind, or ends early or late. */
    STS_CHAIN = 3,
    /* Another field of a record is wrong. */
    STS_RECORD = 4,
    /* The schedule does not rise by time, then node. */
    STS_ORDER = 5,
    /* The table has no room for the entries that are to be added. */
    STS_FULL = 6,
    /* The run or the table is not sound. */
    STS_UNSOUND = 7,
    /* A lent length is out of its range or too short for what is written, or columns
       differ in length. */
    STS_BUFFER = 8,
    /* There is no such node, letter, pattern, entry or place, there are too many
       letters, or a function takes other numbers than 0 and 1 where it may not. */
    STS_QUESTION = 9,
    /* The run is finished: nothing pends and nothing is scheduled. */
    STS_FINISHED = 10,
    /* A resistance would be above the ceiling, 1,000,000,000 ohm: the cell is drawn
       with an error. */
    STS_CEILING = 11
};

/*
 * The limits of a cell: the most node records, transistors, schedule entries and
 * letters, the latest horizon in ps, and the largest resistance of a transistor in
 * ohm. A call on a function table may have that many letters too.
 */
#define STS_MOST_NODES 24
#define STS_MOST_TRANSISTORS 64
#define STS_MOST_ENTRIES 64
#define STS_MOST_LETTERS 12
#define STS_MOST_HORIZON 1000000
#define STS_MOST_RESISTANCE 240000

/* The bytes of a cell file's header and of each of its records. */
#define STS_RECORD_BYTES 16

/* The most bytes of a cell file, 2448. A longer one is refused for its header or its
   length, and its first STS_MOST_BYTES + 1 bytes are so with the same number. */
#define STS_MOST_BYTES \
    (STS_RECORD_BYTES * (1 + STS_MOST_NODES + STS_MOST_TRANSISTORS + STS_MOST_ENTRIES))

/* How many numbers the header of a cell has. */
#define STS_HEADER_LENGTH 5

/* Where each of them stands. */
enum sts_header {
    /* Node records, 1 to STS_MOST_NODES. */
    STS_NODES = 0,
    /* Transistors, 1 to STS_MOST_TRANSISTORS. */
    STS_TRANSISTORS = 1,
    /* Schedule entries, 0 to STS_MOST_ENTRIES. */
    STS_ENTRIES = 2,
    /* Letters, 0 to STS_MOST_LETTERS. */
    STS_LETTERS = 3,
    /* The horizon in ps, 1 to STS_MOST_HORIZON. */
    STS_HORIZON = 4
};

/*
 * Reads a cell file, checks all of it and gives the numbers of its header.
 * docs/CELL-FILE.md has the layout of the file, with one that is told byte by byte.
 *
 *   file, file_length      the file's bytes; any length
 *   header, header_length  receives the five numbers that enum sts_header names;
 *                          header_length is STS_HEADER_LENGTH
 *
 * Returns STS_OK if the file is a legal cell, and header then holds its numbers.
 * Else it returns the first of these that applies, and header is unchanged:
 *
 *   STS_BUFFER   header_length is not STS_HEADER_LENGTH
 *   STS_LENGTH   the file has fewer than 16 bytes
 *   STS_HEADER   the header is wrong
 *   STS_LENGTH   the file has not the length that its header states
 *   STS_CHAIN    the chain of the nodes, transistors or entries is wrong
 *   STS_RECORD   a field of a node, transistor or entry is wrong
 *   STS_ORDER    the schedule does not rise
 */
uint32_t sts_read(const uint8_t *file, size_t file_length,
                  uint32_t *header, size_t header_length);

/*
 * Saves a cell: reads a cell file, checks all of it and writes the cell in its saved
 * form, for the disk. There the node records come first, then the transistors, then
 * the schedule, each chain in its order and each record with the number of the one
 * behind it, the last of a chain with 0. Reading the saved file gives the same cell,
 * and two files of the same cell are saved as the same bytes; so saving a saved file
 * changes nothing.
 *
 *   file, file_length  the file's bytes; any length. They are only read
 *   out, out_length    receives the saved file at its front; any length. The saved
 *                      file is as long as file, so STS_MOST_BYTES bytes are always
 *                      enough. A longer buffer is fine: its bytes past the saved file
 *                      keep their content
 *   length             receives the length of the saved file in bytes: not null
 *                      and aligned
 *
 * File, out and length do not overlap: a cell cannot be saved into the bytes that it
 * is read from.
 *
 * Returns STS_OK if the file is a legal cell that fits into out. Else it returns the
 * first of these that applies, and out and length are unchanged. Note that STS_BUFFER
 * comes last here and in sts_small, unlike in the other calls:
 *
 *   STS_LENGTH   the file has fewer than 16 bytes
 *   STS_HEADER   the header is wrong
 *   STS_LENGTH   the file has not the length that its header states
 *   STS_CHAIN    the chain of the nodes, transistors or entries is wrong
 *   STS_RECORD   a field of a node, transistor or entry is wrong
 *   STS_ORDER    the schedule does not rise
 *   STS_BUFFER   out_length is less than the length of the saved file
 */
uint32_t sts_save(const uint8_t *file, size_t file_length,
                  uint8_t *out, size_t out_length,
                  uint32_t *length);

/* How many small cells there are. */
#define STS_SMALL_CELLS 9312

/* The most bytes of a small cell's file, 80. */
#define STS_SMALL_BYTES (STS_RECORD_BYTES * (1 + 2 + 2))

/*
 * Gives one of the small cells, in its saved form. These are all legal cells that have
 * an input, an inner node of 1 fF, and one transistor or two, each of 1 ohm. Node 2 is
 * the input and starts as letter 0, the only letter; node 3 is the inner node and
 * starts low. The horizon is 10 ps, and nothing is scheduled.
 *
 * They stand in a list, each of them once. The 96 cells of one transistor come first,
 * then those of two, by their first transistor and then by their second. Transistors
 * are compared by type, n before p, then by gate, first end and second end, each a
 * node number from 0 to 3. The two ends of a transistor differ, and the other way
 * round they make another cell; the two transistors of a cell may be equal.
 *
 *   place            the cell's place in the list, from 0; any number
 *   out, out_length  receives the file at its front; any length. It has 64 bytes with
 *                    one transistor and 80 with two, so STS_SMALL_BYTES bytes are
 *                    always enough. A longer buffer is fine: its bytes past the file
 *                    keep their content
 *   length           receives the length of the file in bytes: not null and aligned
 *
 * Out and length do not overlap.
 *
 * Returns STS_OK if there is such a place and its file fits into out. Else it returns
 * the first of these that applies, and out and length are unchanged:
 *
 *   STS_QUESTION  place is STS_SMALL_CELLS or more
 *   STS_BUFFER    out_length is less than the length of the file
 */
uint32_t sts_small(uint32_t place,
                   uint8_t *out, size_t out_length,
                   uint32_t *length);

/*
 * Function tables.
 *
 * A function gives a number for each pattern of the letters. There are K letters,
 * 0 to STS_MOST_LETTERS; a pattern is a number below 2 to the power K, in which
 * bit k is letter k. The largest number, STS_NEVER, stands for never.
 *
 * Functions are kept in a table: three columns, letter, low and high, of one
 * length from STS_LEAST_TABLE to STS_LONGEST_TABLE. A used count, which the caller
 * keeps beside the columns, tells how many entries they hold. A function is named
 * by the number of its entry. An entry e is
 *
 *   a terminal  letter[e] is STS_TERMINAL, low[e] the function's number at every
 *               pattern, high[e] 0;
 *   a branch    letter[e] is a letter; the function is that of entry low[e] where
 *               the letter is 0, and that of entry high[e] where it is 1.
 *
 * A table is sound for K letters if
 *
 *   - the used count is from 3 to the length of the columns;
 *   - entries 0, 1 and 2 are the terminals 0, 1 and never;
 *   - every branch has a letter below K and two different parts, both of them
 *     earlier entries and each a terminal or a branch at a larger letter;
 *   - no two entries are equal in all three columns;
 *   - all three columns are 0 from the used count on.
 *
 * Two functions in a sound table have the same entry exactly if they agree at
 * every pattern. So they are compared by comparing their entries.
 *
 * sts_fresh makes a table; the calls below it add to one or ask about one. A table
 * that was used with K letters may be used with more of them later, up to
 * STS_MOST_LETTERS; its functions do not depend on the letters that are new.
 * Nothing is ever removed: entries keep their numbers and their meaning. A call
 * that adds entries adds those of its result that are missing and no others. An
 * earlier used count is of no more use then: the table is sound only with the
 * present one.
 *
 * Every call first checks all of the table, so a caller may keep tables anywhere,
 * copy them, read their columns and write to them: a table that is no longer sound
 * is refused. A copy may have another length, so long as it is 0 from the used
 * count on.
 *
 * The columns of one call, its used count and its result do not overlap: what a
 * call does where they do is outside all its promises. The pointers to single
 * numbers are not null and are aligned.
 *
 * A refused call changes nothing: not the columns, not the used count, and not the
 * number that its last pointer points to. Of several reasons to refuse, the first
 * in this order is given, as far as a call has it:
 *
 *   STS_BUFFER    the columns differ in length, or have fewer than STS_LEAST_TABLE
 *                 or more than STS_LONGEST_TABLE entries
 *   STS_UNSOUND   the table is not sound for the K that is given
 *   STS_QUESTION  K is above STS_MOST_LETTERS; or what the call says
 *   STS_FULL      the entries used and those to be added are more than the length,
 *                 and only then: where the result just fits, it is answered
 */

/* The letter of a terminal. */
#define STS_TERMINAL UINT32_MAX

/* The number that stands for never. */
#define STS_NEVER UINT32_MAX

/* The lengths that a table may have. */
#define STS_LEAST_TABLE 3
#define STS_LONGEST_TABLE 65536

/* The used count of a fresh table. */
#define STS_FRESH_USED 3

/* The entries that every table has. */
enum sts_entry {
    /* The number 0 at every pattern. */
    STS_ENTRY_0 = 0,
    /* The number 1 at every pattern. */
    STS_ENTRY_1 = 1,
    /* Never at every pattern. */
    STS_ENTRY_NEVER = 2
};

/*
 * Makes the columns a fresh table: the terminals 0, 1 and never, and zeros after
 * them. What stood in the columns does not matter and is lost. The used count of
 * the table is STS_FRESH_USED; the caller sets it.
 *
 * Returns STS_OK or STS_BUFFER.
 */
uint32_t sts_fresh(uint32_t *letter, size_t letter_length,
                   uint32_t *low, size_t low_length,
                   uint32_t *high, size_t high_length);

/*
 * Chooses between two functions: the result is that of entry first where that of
 * entry selector is 1, and that of entry second where it is 0. With entries 0 and
 * 1 this gives the Boolean operations: choose (f, g, 0) is "f and g",
 * choose (f, 1, g) is "f or g", choose (f, 0, 1) is "not f".
 *
 *   letters                  K
 *   letter, low, high        the table's columns, which may be added to
 *   used                     its used count, before and after
 *   selector, first, second  entries of the table
 *   entry                    receives the result's entry
 *
 * Returns STS_OK, STS_BUFFER, STS_UNSOUND, STS_QUESTION or STS_FULL.
 *
 *   STS_QUESTION  also if selector, first or second is no entry below the used
 *                 count, or the selector is another number than 0 and 1 at some
 *                 pattern
 */
uint32_t sts_choose(uint32_t letters,
                    uint32_t *letter, size_t letter_length,
                    uint32_t *low, size_t low_length,
                    uint32_t *high, size_t high_length,
                    uint32_t *used,
                    uint32_t selector, uint32_t first, uint32_t second,
                    uint32_t *entry);

/*
 * Gives the smaller of two functions, pattern by pattern. Never is larger than all
 * other numbers.
 *
 *   letters            K
 *   letter, low, high  the table's columns, which may be added to
 *   used               its used count, before and after
 *   first, second      entries of the table
 *   entry              receives the result's entry
 *
 * Returns STS_OK, STS_BUFFER, STS_UNSOUND, STS_QUESTION or STS_FULL.
 *
 *   STS_QUESTION  also if first or second is no entry below the used count
 */
uint32_t sts_smaller(uint32_t letters,
                     uint32_t *letter, size_t letter_length,
                     uint32_t *low, size_t low_length,
                     uint32_t *high, size_t high_length,
                     uint32_t *used,
                     uint32_t first, uint32_t second,
                     uint32_t *entry);

/*
 * Adds two functions, pattern by pattern: never where either is never, and else
 * the sum, or STS_NEVER - 1 where the sum is larger than that.
 *
 * Parameters and refusals are those of sts_smaller.
 */
uint32_t sts_sum(uint32_t letters,
                 uint32_t *letter, size_t letter_length,
                 uint32_t *low, size_t low_length,
                 uint32_t *high, size_t high_length,
                 uint32_t *used,
                 uint32_t first, uint32_t second,
                 uint32_t *entry);

/*
 * Fixes a letter: the result is, at every pattern, what the function is at that
 * pattern with the letter's bit set to the one given.
 *
 *   letters            K
 *   letter, low, high  the table's columns, which may be added to
 *   used               its used count, before and after
 *   function           an entry of the table
 *   letter_number      the letter to be fixed, below K
 *   bit                0 or 1
 *   entry              receives the result's entry
 *
 * Returns STS_OK, STS_BUFFER, STS_UNSOUND, STS_QUESTION or STS_FULL.
 *
 *   STS_QUESTION  also if function is no entry below the used count, letter_number
 *                 is not below K, or bit is neither 0 nor 1
 */
uint32_t sts_fix(uint32_t letters,
                 uint32_t *letter, size_t letter_length,
                 uint32_t *low, size_t low_length,
                 uint32_t *high, size_t high_length,
                 uint32_t *used,
                 uint32_t function, uint32_t letter_number, uint32_t bit,
                 uint32_t *entry);

/*
 * Gives a function's number at a pattern. The table is only read.
 *
 *   letters            K
 *   letter, low, high  the table's columns
 *   used               its used count
 *   function           an entry of the table
 *   pattern            a number below 2 to the power K
 *   number             receives the number; STS_NEVER is one
 *
 * Returns STS_OK, STS_BUFFER, STS_UNSOUND or STS_QUESTION.
 *
 *   STS_QUESTION  also if function is no entry below the used count, or pattern is
 *                 not below 2 to the power K
 */
uint32_t sts_number(uint32_t letters,
                    const uint32_t *letter, size_t letter_length,
                    const uint32_t *low, size_t low_length,
                    const uint32_t *high, size_t high_length,
                    uint32_t used,
                    uint32_t function, uint32_t pattern,
                    uint32_t *number);

/*
 * Counts the patterns, of all 2 to the power K, at which a function is 1. A
 * letter on which the function does not depend counts too: it doubles the count.
 * The table is only read.
 *
 *   letters            K
 *   letter, low, high  the table's columns
 *   used               its used count
 *   function           an entry of the table
 *   count              receives the count, 0 to 4096
 *
 * Returns STS_OK, STS_BUFFER, STS_UNSOUND or STS_QUESTION.
 *
 *   STS_QUESTION  also if function is no entry below the used count, or is another
 *                 number than 0 and 1 at some pattern
 */
uint32_t sts_count(uint32_t letters,
                   const uint32_t *letter, size_t letter_length,
                   const uint32_t *low, size_t low_length,
                   const uint32_t *high, size_t high_length,
                   uint32_t used,
                   uint32_t function,
                   uint32_t *count);

/*
 * Runs.
 *
 * A run is what a cell does, for all patterns of its letters at once: it starts at
 * 0 ps and goes from each moment at which something happens to the next. Nodes are
 * numbered as in the file: 0 is ground, 1 is supply, and 2 to N + 1 are the node
 * records. At a pattern each of them has a value, 0 or 1, and a next change: the
 * time in ps at which it will flip, or never.
 *
 * How long a flip takes follows from the resistances and capacitances on its way
 * from the rails and inputs. Where none of these drives a node and the larger
 * charge turns it, the way begins at the nodes that already hold the new value. No
 * flip takes less than 1 ps.
 *
 * A step works out anew the next changes of those nodes alone that it can reach:
 * over channels that are on before or after it, and past no rail and no input,
 * there is a way from the node to an end of a transistor whose gate changed value,
 * or at whose other end an input did. That transistor may be off, and the node may
 * be that end itself. All other nodes keep their next change. A start works out
 * those of every inner node.
 *
 * What a start or step works out anew has a ceiling. Supply and ground may pull at
 * one node. Seen from behind one more transistor, of r ohm, a pull of R ohm against
 * one of S ohm has R + r + r * R / S ohm, rounded up. Where this would be above
 * 1,000,000,000, for either of the two, on the way to a node that is worked out anew
 * and at any pattern, the start or step is refused, STS_CEILING. It then does not
 * matter whether the table is long enough. In a cell this is a drawing error: a very
 * weak transistor before a node at which a strong pull and a weak one fight.
 * docs/REFUSALS.md tells how to find it. No run that was started holds such a node; in
 * a record that was written otherwise one may stand, and is not looked at as long as
 * no step works it out anew.
 *
 * Values and next changes are functions of the letters and stand in a function
 * table. The caller keeps them beside it in a record, STS_RECORD_LENGTH numbers
 * that enum sts_record names:
 *
 *   record[STS_RUN_TIME]             the time of the run, in ps
 *   record[STS_RUN_USED]             the used count of the table
 *   record[STS_RUN_VALUES + n - 2]   the entry of the value of node n
 *   record[STS_RUN_CHANGES + n - 2]  the entry of the next change of node n
 *
 * Every call is given the cell's file and reads it anew; all calls of one run are
 * given the same. The letters of the table are those of the cell: K is the number
 * that its header states. Places of the record for nodes that the cell does not
 * have are not looked at; a call that starts or advances a run leaves them 0.
 *
 * A record is sound with its table if
 *
 *   - the table is sound for K letters with the record's used count;
 *   - the time is at most the horizon;
 *   - all entries are below the used count;
 *   - a value is 0 or 1 at every pattern;
 *   - a next change is at every pattern a time after the record's and at most the
 *     horizon, or never;
 *   - the next change of an input is entry STS_ENTRY_NEVER.
 *
 * The calls check this, so records too may be kept, copied and written anywhere.
 * Nothing is ever removed from the table: a copy of an earlier record is sound
 * again, and may be asked about or gone on from, when its used count is set to the
 * table's present one. One table may hold several runs so.
 *
 * The calls that start or advance a run are also lent working memory: three
 * columns of one length, from STS_LEAST_WORKING to STS_MOST_WORKING. What they
 * hold does not matter. Their length never changes an answer; large steps may be
 * faster with longer ones.
 *
 * After an answer the record is the new one, and the table's columns hold what it
 * names: the entries that were missing are added behind those that were used, no
 * others are, and the columns are 0 from record[STS_RUN_USED] on. A refused call
 * changes neither the record nor the table. The working columns are 0 afterwards,
 * after an answer and after a refusal, but for one: after STS_BUFFER nothing is
 * touched.
 *
 * Of several reasons to refuse, the first in this order is given, as far as a call
 * has it:
 *
 *   STS_BUFFER    the record has not STS_RECORD_LENGTH numbers, or the answer of a
 *                 question not STS_ANSWER_LENGTH; the table's columns differ in
 *                 length, or have fewer than STS_LEAST_TABLE or more than
 *                 STS_LONGEST_TABLE entries; the working columns differ in length,
 *                 or have fewer than STS_LEAST_WORKING or more than
 *                 STS_MOST_WORKING entries
 *   STS_LENGTH    the file has fewer than 16 bytes
 *   STS_HEADER    the file's header is wrong
 *   STS_LENGTH    the file has not the length that its header states
 *   STS_CHAIN     the chain of the nodes, transistors or entries is wrong
 *   STS_RECORD    a field of a node, transistor or entry of the file is wrong
 *   STS_ORDER     the schedule does not rise
 *   STS_UNSOUND   the record is not sound with its table
 *   STS_FINISHED  at no pattern does anything pend, and nothing is scheduled after
 *                 the record's time
 *   STS_CEILING   a resistance would be above the ceiling, at some pattern, on the way
 *                 to a node whose next change is worked out
 *   STS_QUESTION  there is no such node or pattern
 *   STS_FULL      the entries used and those to be added are more than the table's
 *                 length, and only then: where they just fit, it is answered
 */

/* How many numbers the record of a run has. */
#define STS_RECORD_LENGTH 50

/* Where they stand. */
enum sts_record {
    /* The time, in ps. */
    STS_RUN_TIME = 0,
    /* The used count of the table. */
    STS_RUN_USED = 1,
    /* From here on, to 25: the values' entries of nodes 2, 3 and so on. */
    STS_RUN_VALUES = 2,
    /* From here on, to 49: the next changes' entries of nodes 2, 3 and so on. */
    STS_RUN_CHANGES = STS_RUN_VALUES + STS_MOST_NODES
};

/* How many numbers the answer of a question about a run has. */
#define STS_ANSWER_LENGTH 2

/* Where each of them stands. */
enum sts_told {
    /* The node's value, 0 or 1. */
    STS_VALUE = 0,
    /* Its next change: a time in ps, or STS_NEVER. */
    STS_CHANGE = 1
};

/* The lengths that working columns may have. */
#define STS_LEAST_WORKING 4096
#define STS_MOST_WORKING 65536

/*
 * Starts a run: every node takes its source at 0 ps, and what will change next is
 * worked out. What the record held does not matter.
 *
 *   file, file_length                 the file's bytes; any length
 *   letter, low, high                 the table's columns, which may be added to;
 *                                     the table is fresh or holds functions
 *   used                              its used count; afterwards it is
 *                                     record[STS_RUN_USED]
 *   record, record_length             receives the record of the run;
 *                                     record_length is STS_RECORD_LENGTH
 *   work_letter, work_low, work_high  the working columns
 *
 * Returns STS_OK, STS_BUFFER, STS_LENGTH, STS_HEADER, STS_CHAIN, STS_RECORD,
 * STS_ORDER, STS_UNSOUND, STS_CEILING or STS_FULL.
 *
 *   STS_UNSOUND  here if the table is not sound for K letters with used
 */
uint32_t sts_start(const uint8_t *file, size_t file_length,
                   uint32_t *letter, size_t letter_length,
                   uint32_t *low, size_t low_length,
                   uint32_t *high, size_t high_length,
                   uint32_t used,
                   uint32_t *record, size_t record_length,
                   uint32_t *work_letter, size_t work_letter_length,
                   uint32_t *work_low, size_t work_low_length,
                   uint32_t *work_high, size_t work_high_length);

/*
 * Takes one step: to the earliest time, over all patterns, at which a change pends
 * or an input is scheduled.
 *
 *   file, file_length                 the file's bytes; any length
 *   letter, low, high                 the table's columns, which may be added to
 *   record, record_length             the record of the run, before and after;
 *                                     record_length is STS_RECORD_LENGTH
 *   work_letter, work_low, work_high  the working columns
 *
 * Returns STS_OK, STS_BUFFER, STS_LENGTH, STS_HEADER, STS_CHAIN, STS_RECORD,
 * STS_ORDER, STS_UNSOUND, STS_FINISHED, STS_CEILING or STS_FULL.
 */
uint32_t sts_step(const uint8_t *file, size_t file_length,
                  uint32_t *letter, size_t letter_length,
                  uint32_t *low, size_t low_length,
                  uint32_t *high, size_t high_length,
                  uint32_t *record, size_t record_length,
                  uint32_t *work_letter, size_t work_letter_length,
                  uint32_t *work_low, size_t work_low_length,
                  uint32_t *work_high, size_t work_high_length);

/*
 * The record of a run as a struct, for a caller that holds it so: the same
 * STS_RECORD_LENGTH numbers in the same order. values[n - 2] and changes[n - 2] are
 * the entries of node n.
 *
 * sts_advance takes the struct; sts_start, sts_step, sts_run and sts_ask take a
 * column of numbers. sts_from_column and sts_to_column go from one to the other and
 * back: a run that was started in a column goes on in a struct, and a struct's
 * column is asked about or run on.
 */
struct sts_moment {
    /* column[STS_RUN_TIME] */
    uint32_t time;
    /* column[STS_RUN_USED] */
    uint32_t used;
    /* from column[STS_RUN_VALUES] on */
    uint32_t values[STS_MOST_NODES];
    /* from column[STS_RUN_CHANGES] on */
    uint32_t changes[STS_MOST_NODES];
};

/* Writes the numbers of a struct to a column, all of them and nothing else. The two
   do not overlap. */
static inline void sts_to_column(const struct sts_moment *moment,
                                 uint32_t column[STS_RECORD_LENGTH])
{
    size_t i;

    column[STS_RUN_TIME] = moment->time;
    column[STS_RUN_USED] = moment->used;
    for (i = 0; i < STS_MOST_NODES; i++) {
        column[STS_RUN_VALUES + i] = moment->values[i];
        column[STS_RUN_CHANGES + i] = moment->changes[i];
    }
}

/* Writes the numbers of a column to a struct, likewise. */
static inline void sts_from_column(struct sts_moment *moment,
                                   const uint32_t column[STS_RECORD_LENGTH])
{
    size_t i;

    moment->time = column[STS_RUN_TIME];
    moment->used = column[STS_RUN_USED];
    for (i = 0; i < STS_MOST_NODES; i++) {
        moment->values[i] = column[STS_RUN_VALUES + i];
        moment->changes[i] = column[STS_RUN_CHANGES + i];
    }
}

/*
 * Takes one step on a record in a struct, in place: what sts_step does on the same
 * numbers in a column, with the same answer, table and working columns.
 *
 *   file, file_length                 the file's bytes; any length
 *   letter, low, high                 the table's columns, which may be added to
 *   moment                            the record of the run, before and after: not
 *                                     null, and apart from the arrays. Places for
 *                                     nodes that the cell does not have are not
 *                                     looked at, and are 0 after an answer; after a
 *                                     refusal the struct is as it was
 *   work_letter, work_low, work_high  the working columns
 *
 * Returns what sts_step returns.
 */
uint32_t sts_advance(const uint8_t *file, size_t file_length,
                     uint32_t *letter, size_t letter_length,
                     uint32_t *low, size_t low_length,
                     uint32_t *high, size_t high_length,
                     struct sts_moment *moment,
                     uint32_t *work_letter, size_t work_letter_length,
                     uint32_t *work_low, size_t work_low_length,
                     uint32_t *work_high, size_t work_high_length);

/*
 * Takes every step that is not later than a time, and no other. Afterwards the
 * record has the time of the last step taken, or its own where there was none: it
 * is not moved to until. A run that is finished is answered without a step. Where
 * one of the steps is refused, for the ceiling or since it does not fit into the
 * table, the whole call is, with the number of the first such step, and none is kept.
 *
 *   file, file_length                 the file's bytes; any length
 *   until                             a time in ps; any number
 *   letter, low, high                 the table's columns, which may be added to
 *   record, record_length             the record of the run, before and after;
 *                                     record_length is STS_RECORD_LENGTH
 *   work_letter, work_low, work_high  the working columns
 *
 * Returns STS_OK, STS_BUFFER, STS_LENGTH, STS_HEADER, STS_CHAIN, STS_RECORD,
 * STS_ORDER, STS_UNSOUND, STS_CEILING or STS_FULL.
 */
uint32_t sts_run(const uint8_t *file, size_t file_length,
                 uint32_t until,
                 uint32_t *letter, size_t letter_length,
                 uint32_t *low, size_t low_length,
                 uint32_t *high, size_t high_length,
                 uint32_t *record, size_t record_length,
                 uint32_t *work_letter, size_t work_letter_length,
                 uint32_t *work_low, size_t work_low_length,
                 uint32_t *work_high, size_t work_high_length);

/*
 * Gives the value and the next change of a node at a pattern. Table and record are
 * only read. Ground is always 0 and supply always 1, and both never change.
 *
 *   file, file_length      the file's bytes; any length
 *   letter, low, high      the table's columns
 *   record, record_length  the record of the run; record_length is
 *                          STS_RECORD_LENGTH
 *   node                   a node, 0 to N + 1
 *   pattern                a number below 2 to the power K
 *   answer, answer_length  receives the two numbers that enum sts_told names;
 *                          answer_length is STS_ANSWER_LENGTH
 *
 * Returns STS_OK, STS_BUFFER, STS_LENGTH, STS_HEADER, STS_CHAIN, STS_RECORD,
 * STS_ORDER, STS_UNSOUND or STS_QUESTION. A refused question leaves answer as it
 * was.
 */
uint32_t sts_ask(const uint8_t *file, size_t file_length,
                 const uint32_t *letter, size_t letter_length,
                 const uint32_t *low, size_t low_length,
                 const uint32_t *high, size_t high_length,
                 const uint32_t *record, size_t record_length,
                 uint32_t node, uint32_t pattern,
                 uint32_t *answer, size_t answer_length);

#ifdef __cplusplus
}
#endif

#endif
