/*
 * Includes the header, as C99 and as C++, and uses what only a header has: its
 * constants, its struct and its two conversions. Compiled and not linked.
 */
#include "../../include/sts.h"
#include "../../include/sts.h"

#ifdef __cplusplus
/* In C++ a struct has its bare name as long as no function hides it. */
static sts_moment moment;
#else
static struct sts_moment moment;
#endif

/* An array of this type has a length only where the condition holds. */
#define HOLDS(name, condition) typedef char name[(condition) ? 1 : -1]

HOLDS(the_struct_has_the_numbers_of_a_record,
      sizeof moment == STS_RECORD_LENGTH * sizeof(uint32_t));
HOLDS(the_changes_end_the_record, STS_RUN_CHANGES + STS_MOST_NODES == STS_RECORD_LENGTH);
HOLDS(the_longest_file_has_153_times_16_bytes, STS_MOST_BYTES == 153 * 16);
HOLDS(small_cells_have_one_or_two_of_96_transistors, STS_SMALL_CELLS == 96 + 96 * 96);
HOLDS(the_longest_small_file_has_80_bytes, STS_SMALL_BYTES == 80);
HOLDS(the_ceiling_is_refused_with_11, STS_CEILING == 11);
HOLDS(the_weakest_transistor_has_240000_ohm, STS_MOST_RESISTANCE == 240000);

void convert(uint32_t column[STS_RECORD_LENGTH]);

void convert(uint32_t column[STS_RECORD_LENGTH])
{
    sts_from_column(&moment, column);
    sts_to_column(&moment, column);
}
