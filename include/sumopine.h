/* Sumopine: converts a song's job record into a mania chart, and reads charts.
 *
 * A buffer is a pointer and a length in bytes. Pointers are never null, also where a length is 0, and what is written through one pointer
 * is reached through no other pointer of the same call. Nothing is kept, allocated or freed: all memory stays the caller's.
 * There is no global state, so that calls on different memory may run at the same time on any number of threads.
 * Every output is set in every case, as said at each function, and its memory need not be initialised.
 *
 * What the host owes beside that:
 * - SUMOPINE_STACK_BYTES of stack for a call. host/run.sh measures what calls take: some 35 KiB.
 * - The floating-point environment that C starts with: rounding to nearest, and no flushing of subnormal numbers to zero (on x86-64 the
 *   rounding bits and the bits FTZ and DAZ of MXCSR are 0). In another one charts may differ. */
#ifndef SUMOPINE_H
#define SUMOPINE_H

#include <stddef.h>
#include <stdint.h>

#ifdef __cplusplus
extern "C" {
#endif

/* A chart is a header and its notes. Fields follow each other without gaps, the highest bit first; times are f64 patterns, in ms.
 *
 * header             version 4 bits, columns 4, number of notes 24, draws 32
 * note of version 2  column 4 bits, hold 1, object 12, zero 7, start 64, duration 64
 * note of version 1  column 4 bits, hold 1, zero 3, start 64, duration 64
 *
 * `sumopine_convert` writes version 2. Whatever reads a chart takes both versions. An object is its index in the record, counted from 0; a note
 * of version 1 has none. */
#define SUMOPINE_HEADER_BYTES 8
#define SUMOPINE_NOTE_BYTES 19
#define SUMOPINE_OLD_NOTE_BYTES 17

/* The most objects of a song, and the most notes of one object: a slider of 299 repeats, two notes in each of its 301 rows. With a chart buffer
 * of SUMOPINE_LARGEST_CHART bytes, which is 2,465,190 notes, or a notes buffer of SUMOPINE_LARGEST_OBJECT bytes 11 is never returned. */
#define SUMOPINE_MOST_OBJECTS 4095
#define SUMOPINE_MOST_NOTES_OF_AN_OBJECT 602
#define SUMOPINE_LARGEST_OBJECT (SUMOPINE_NOTE_BYTES * SUMOPINE_MOST_NOTES_OF_AN_OBJECT)
#define SUMOPINE_LARGEST_CHART (SUMOPINE_HEADER_BYTES + SUMOPINE_LARGEST_OBJECT * SUMOPINE_MOST_OBJECTS)

/* Stack that a call takes at most. */
#define SUMOPINE_STACK_BYTES 65536

/* Bytes of a page of a chart's sheet, and the notes that it shows. */
#define SUMOPINE_PAGE_BYTES 2624
#define SUMOPINE_PAGE_NOTES 63

/* The refusals. */
enum {
    SUMOPINE_FIELD_NOT_WHOLE = 1,
    SUMOPINE_VERSION = 2,
    SUMOPINE_KEY_CHOICE = 3,
    SUMOPINE_SETTING = 4,
    SUMOPINE_BREAK_OR_POINT = 5,
    SUMOPINE_OBJECT = 6,
    SUMOPINE_FILLING = 7,
    SUMOPINE_SLIDER_END = 8,
    SUMOPINE_NO_COLUMN = 9,
    SUMOPINE_OFF_DECK = 10,
    SUMOPINE_CHART_TOO_SHORT = 11,
    SUMOPINE_NO_DRAW_LEFT = 12,
    SUMOPINE_COLUMNS_OR_PREVIOUS = 13,
    SUMOPINE_BROKEN_CHART = 14,
    SUMOPINE_SHEET_TOO_SHORT = 15,
    SUMOPINE_LONG_SEARCH = 16,
    SUMOPINE_TIMES = 17,
    SUMOPINE_COLUMN_OFF_DECK = 18,
    SUMOPINE_LIST_TOO_SHORT = 19,
    SUMOPINE_RANGE = 20,
    SUMOPINE_COUNTS = 21,
    SUMOPINE_NOT_WHOLE = 24,
    SUMOPINE_TEXT_TOO_SHORT = 25,
    SUMOPINE_HIT_OBJECTS = 26
};

/* Converts a job record, with at most `allowance` draws, into a chart at the start of the chart buffer.
 *
 * Returns      *length            *object             *draws               *longest_search               the chart buffer
 * 0            the chart's bytes  0                   the draws made       the most draws of one search  the chart; later bytes keep their values
 * 1 to 12, 16  0                  the object's index  the draws made       0                             all zero
 *
 * The chart's notes stand in the order of their starts, of equal starts the lowest column first; notes of equal start and column stand in the
 * order in which the objects make them.
 *
 * The object's index counts from 0, and is 0 where the record is refused (1 to 7) or the buffer is under 8 bytes (11). 9 and 10 are never
 * returned: no song comes to them, only `sumopine_object` with a previous pattern of the caller's making. The record is only read.
 *
 * A column search may make 4,096 draws. Where it needs one more, 16 is returned, also where the allowance ends at that draw. Its draws are
 * those made inside it: none where it takes its first column or steps, and not the draw that gave it its first column. */
uint32_t sumopine_convert(const uint8_t *record, size_t record_len, uint8_t *chart, size_t chart_len, uint32_t allowance,
                          uint64_t *length, uint32_t *object, uint32_t *draws, uint32_t *longest_search);

/* Reads a chart of exactly `chart_len` bytes and checks all of it.
 *
 * Returns   *version  *columns  *notes               *draws
 * 0         1 or 2    1 to 9    the number of notes  the draws of its job
 * 14        0         0         0                    0
 *
 * Starts do not fall, and of neighbours with equal starts the later column is not lower; else 14. The objects of the notes may be any, from 0
 * to 4,095: they are not checked, nor is whether two notes of one object meet in a column. The chart is only read. */
uint32_t sumopine_read_chart(const uint8_t *chart, size_t chart_len, uint32_t *version, uint32_t *columns, uint32_t *notes, uint32_t *draws);

/* The fields of the note with this index, counted from 0. It checks only that the bytes go on to the note's end.
 *
 * Returns   *column     *hold                 *start             *duration                          *has_object  *object
 * 1         its column  1 a hold, 0 a circle  an f64's bits, ms  an f64's bits, ms; 0 for a circle  1            its object's index
 * 1         the same of a note of version 1                                                         0            0
 * 0         0           0                     0                  0                                  0            0
 *
 * In a chart that `sumopine_read_chart` takes, exactly the indices below *notes give 1. In other bytes the fields are what stands there, a
 * column up to 15 and any bits; a version other than 1 is taken for 2. The chart is only read. */
uint32_t sumopine_note(const uint8_t *chart, size_t chart_len, uint32_t index, uint32_t *column, uint32_t *hold, uint64_t *start,
                       uint64_t *duration, uint32_t *has_object, uint32_t *object);

/* Lists the notes that start within two times, in ms, ends included, by their places in the chart: counted from 0, rising, from the start of
 * the list of `places_len` numbers.
 *
 * Returns   *count                   the list
 * 0         how many places, or 0    the places; later entries keep their values
 * 14        0                        as lent: the chart is broken
 * 17        0                        as lent: a time is not finite, or the first is above the second
 * 19        0                        as lent: it is too short
 *
 * A count of 0 says that nothing is found. Times may be anything, also a NaN. The chart is only read. */
uint32_t sumopine_notes_between(const uint8_t *chart, size_t chart_len, double first, double second, uint32_t *places, size_t places_len,
                                uint64_t *count);

/* Lists the holds that cover an instant, in ms, both ends included, by their places in the chart, as above. A hold's end is the exact sum of its
 * start and its duration.
 *
 * Returns   *count                   the list
 * 0         how many places, or 0    the places; later entries keep their values
 * 14        0                        as lent: the chart is broken
 * 17        0                        as lent: the time is not finite
 * 19        0                        as lent: it is too short
 *
 * A count of 0 says that nothing is found. The chart is only read. */
uint32_t sumopine_holds_at(const uint8_t *chart, size_t chart_len, double time, uint32_t *places, size_t places_len, uint64_t *count);

/* The place of the note of a column whose start is nearest to a time; of two equally near the earlier, and of equal starts the first in the
 * chart. Distances are exact.
 *
 * Returns   *found   *place
 * 0         1        the note's place
 * 0         0        0: the column has no note
 * 14        0        0: the chart is broken
 * 17        0        0: the time is not finite
 * 18        0        0: the column is not on the deck
 *
 * The chart is only read. */
uint32_t sumopine_nearest_note(const uint8_t *chart, size_t chart_len, uint32_t column, double time, uint32_t *found, uint32_t *place);

/* Writes a chart's sheet from the start of the sheet buffer: pages of 64 lines, each 40 characters and a line feed. A page's first line is
 * `PAGE` and its number, from 1; the other 63 show a note each, in chart order: its start in whole milliseconds, cut downward, in 9 places,
 * a space, and a place for each column, `o` for a circle, `#` for a hold, `.` for no note. Blank lines fill the last page.
 *
 * Returns   *length              the sheet buffer
 * 0         the sheet's bytes    the sheet; later bytes keep their values
 * 14        0                    as lent: the chart is broken
 * 15        0                    as lent: it is too short for the whole sheet
 *
 * n notes take (n + 62) / 63 pages, and one where n is 0. The chart is only read. */
uint32_t sumopine_sheet(const uint8_t *chart, size_t chart_len, uint8_t *sheet, size_t sheet_len, uint64_t *length);

/* Writes the notes of a chart of version 1 or 2 as hit object lines of the osu! file format, version 14, from the start of the text buffer: in
 * chart order a circle as `x,192,time,1,0,0:0:0:0:` and a hold as `x,192,time,128,0,end:0:0:0:0:`, each ended by a line feed. Times are in
 * milliseconds, and x is the least whole number not below column * 512 / columns. A line has 41 bytes at most. Objects and draws are not told.
 *
 * Returns   *length              the text buffer
 * 0         the text's length    the lines; later bytes keep their values
 * 14        0                    as lent: the chart is broken
 * 24        0                    as lent: a start or a hold's exact end is not a whole number of milliseconds
 * 25        0                    as lent: it is too short
 *
 * The checks are made in this order. The chart is only read. A chart without notes gives an empty text. */
uint32_t sumopine_write_hit_objects(const uint8_t *chart, size_t chart_len, uint8_t *text, size_t text_len, uint64_t *length);

/* Reads hit object lines of exactly these two shapes, and writes a chart of version 1 with so many columns and draws 0 from the start of the
 * chart buffer: 8 bytes, and 17 for each line. Numbers are decimal without leading zeros, and at most 33,554,431. The column of a line is
 * floor(x * columns / 512), at most the last. Every line ends with a line feed, the last too. An empty text is a chart without notes.
 *
 * Returns   *length               the chart buffer
 * 0         the chart's length    the chart; later bytes keep their values
 * 26        0                     as lent: the column count is not 1 to 9, a line has another shape, a number is above 33,554,431, an end is
 *                                 not above its start, the lines are not in chart order, or there are more than 16,777,215 of them
 * 11        0                     as lent: it is too short
 *
 * The checks are made in this order. The text is only read. sumopine_read_chart takes every chart that is made here. */
uint32_t sumopine_read_hit_objects(const uint8_t *text, size_t text_len, uint32_t columns, uint8_t *chart, size_t chart_len, uint64_t *length);

/* Kinds of an object. */
enum { SUMOPINE_CIRCLE = 0, SUMOPINE_SLIDER = 1, SUMOPINE_SPINNER = 2, SUMOPINE_HOLD = 3 };

/* Converts one object, with at most `allowance` draws, and writes its notes as it makes them, not sorted, as notes of version 2 with object 0,
 * from the start of the notes buffer.
 *
 * The facts:           difficulty, multiplier, beat length, velocity, kiai (a flag) and density.
 * The previous values: time, position, mask and last column of the previous pattern, and its stair, 0 or, for a reverse one, any other.
 * The object:          its position, start, sound and kind; of a slider repeats (at most 299), distance and first node sound, the last two
 *                      with a flag, 0 where there is none; of a spinner or hold its duration. What the kind has no use for may be anything.
 * The state:           four words, lent in *state_x to *state_w, which get the new state.
 *
 * A flag is set where it is not 0. A float may be anything, also a NaN, and so may a whole number: what is out of its range is refused, and
 * nothing is cut to a narrower width. A kind above 3 is refused by 6.
 *
 * Returns              *count           *mask     *last            *stair  *draws     the state      the notes buffer
 * 0                    number of notes  new mask  new last column  0 or 1  the draws  the new state  the notes; later bytes keep their values
 * 4 to 6, 8 to 13, 16  0                0         0                0       0          as lent        as lent
 *
 * The checks are made in this order: 13 for columns (1 to 9), mask and last column, 4 for difficulty and multiplier, 5 for beat length and
 * velocity, and 6 for the object (sounds up to 15, repeats up to 299), the previous position and time and the density. Then come 8, 10, 9, 16
 * and 12 as reached, and 11 for the notes buffer. */
uint32_t sumopine_object(double difficulty, double multiplier, double beat, double velocity, uint32_t kiai, double density,
                         double previous_time, float previous_x, float previous_y, uint32_t previous_mask, uint32_t previous_last,
                         uint32_t previous_stair, uint32_t columns, float x, float y, double start, uint32_t sound, uint32_t kind,
                         uint32_t repeats, uint32_t has_distance, double distance, uint32_t has_node, uint32_t node, double duration,
                         uint32_t allowance, uint32_t *state_x, uint32_t *state_y, uint32_t *state_z, uint32_t *state_w, uint8_t *notes,
                         size_t notes_len, uint32_t *count, uint32_t *mask, uint32_t *last, uint32_t *stair, uint32_t *draws);

/* Songs announced with rounded figures: a range is its two ends, both included. A float may be anything, also a NaN, and so may a whole
 * number: what is out of its bounds is refused.
 *
 * The column counts that some f32 values of od and cs in the ranges yield, with no key choice. `sliders_and_spinners` of the `objects` are
 * sliders or spinners; a hold is neither. Without objects cs plays no part.
 *
 * Returns   *counts
 * 0         bit c is 1 exactly where c columns can come, c from 1 to 9
 * 20, 21    0
 *
 * 20 comes where an end of either range is outside 0 to 10 (-0.0 is) or a lower end is above its upper, then 21 where there are more than
 * 4,095 objects, or more sliders and spinners than objects. */
uint32_t sumopine_column_counts(float od_low, float od_high, float cs_low, float cs_high, uint32_t objects, uint32_t sliders_and_spinners,
                                uint32_t *counts);

/* The earliest and the latest end, in milliseconds, of a slider whose distance lies in a range: every f64 in it ends between the two, and each
 * of the two is reached. `node` is the first node sound, and counts where `has_node` is not 0.
 *
 * Returns          *earliest  *latest
 * 0                an end     an end
 * 4, 5, 6, 20, 8   0          0
 *
 * The checks are made in this order: 4 for the multiplier, 5 for beat length and velocity, 6 for position, start, sound, repeats (at most
 * 299) and node sound, 20 where an end of the range is outside 0 to 131,072 (-0.0 is) or the lower is above the upper, 8 where the latest
 * end is above 33,554,431. */
uint32_t sumopine_slider_ends(double multiplier, double beat, double velocity, float x, float y, double start, uint32_t sound, uint32_t repeats,
                              uint32_t has_node, uint32_t node, double distance_low, double distance_high, uint64_t *earliest,
                              uint64_t *latest);

#ifdef __cplusplus
}
#endif

#endif
