/* A host: converts the record in a file, or else a small one of its own, and prints the chart.
 *     host [RECORD [ALLOWANCE]] */
#include <inttypes.h>
#include <stdio.h>
#include <stdlib.h>
#include <string.h>

#include "sumopine.h"

#define BYTES 65536

static uint8_t record[BYTES];
static uint8_t chart[BYTES];

/* Appends the low `width` bits of a value, most significant first, to a record of zero bytes. */
static size_t put(size_t at, unsigned width, uint64_t value) {
    while (width-- > 0) {
        record[at / 8] |= (uint8_t)((value >> width & 1) << (7 - at % 8));
        at++;
    }
    return at;
}

static uint64_t bits(double value) {
    uint64_t pattern;
    memcpy(&pattern, &value, sizeof pattern);
    return pattern;
}

static double number(uint64_t pattern) {
    double value;
    memcpy(&value, &pattern, sizeof value);
    return value;
}

/* Key choice 9, settings 0, multiplier 1 and one hold at 1000 for 300. */
static size_t small_record(void) {
    size_t at = put(0, 4, 1);
    at = put(at, 4, 9);
    at = put(at + 4 * 32, 64, bits(1.0));
    at = put(at, 8, 0);
    at = put(at + 3 * 12, 12, 1);
    at = put(at, 2, 3);
    at = put(at, 4, 0);
    at = put(at + 2 * 32, 64, bits(1000.0));
    at = put(at, 64, bits(300.0));
    return (at + 7) / 8;
}

static size_t read_record(const char *path) {
    FILE *file = fopen(path, "rb");
    if (file == NULL) {
        perror(path);
        exit(2);
    }
    size_t length = fread(record, 1, BYTES, file);
    if (length == BYTES) {
        fprintf(stderr, "%s: too long\n", path);
        exit(2);
    }
    fclose(file);
    return length;
}

static int print_chart(size_t length) {
    uint32_t version, columns, notes, draws;
    uint32_t refusal = sumopine_read_chart(chart, length, &version, &columns, &notes, &draws);
    if (refusal != 0) {
        printf("refused %" PRIu32 "\n", refusal);
        return 1;
    }
    printf("version %" PRIu32 ": %" PRIu32 " columns, %" PRIu32 " notes, %" PRIu32 " draws\n", version, columns, notes, draws);

    uint32_t column, hold, has_object, object;
    uint64_t start, duration;
    for (uint32_t i = 0; sumopine_note(chart, length, i, &column, &hold, &start, &duration, &has_object, &object) == 1; i++) {
        printf("column %" PRIu32 " at %.17g ms", column, number(start));
        if (hold) printf(" for %.17g ms", number(duration));
        if (has_object) printf(", object %" PRIu32, object);
        printf("\n");
    }
    return 0;
}

/* The small record's chart as version 1 has it, with 17 bytes for its note. The same bytes as version 2 are broken. */
static int print_old_chart(void) {
    memmove(chart + SUMOPINE_HEADER_BYTES + 1, chart + SUMOPINE_HEADER_BYTES + 3, SUMOPINE_OLD_NOTE_BYTES - 1);
    uint32_t version, columns, notes, draws;
    size_t length = SUMOPINE_HEADER_BYTES + SUMOPINE_OLD_NOTE_BYTES;
    if (sumopine_read_chart(chart, length, &version, &columns, &notes, &draws) != SUMOPINE_BROKEN_CHART) return 1;
    if (version != 0 || columns != 0 || notes != 0 || draws != 0) return 1;
    chart[0] ^= 0x30;
    return print_chart(length);
}

/* Notes around a moment: those that start in the first second and those held at 1300 ms, the end of the small record's hold. */
static int print_around(size_t length) {
    uint64_t starting, held;
    uint32_t places[4], found, place;
    if (sumopine_notes_between(chart, length, 0.0, 1000.0, places, 4, &starting) != 0) return 1;
    if (sumopine_holds_at(chart, length, 1300.0, places, 4, &held) != 0) return 1;
    if (sumopine_nearest_note(chart, length, 1, 0.0, &found, &place) != 0) return 1;
    printf("%" PRIu64 " notes start in the first second, %" PRIu64 " are held at 1300 ms\n", starting, held);
    if (found) printf("note %" PRIu32 " of column 1 is nearest to the beginning\n", place);
    return 0;
}

/* The chart's sheet: a page, in a buffer that is a byte too short, and then in one that just holds it. Its first two lines are printed. */
static int print_sheet(size_t length) {
    uint8_t *sheet = malloc(SUMOPINE_PAGE_BYTES);
    if (sheet == NULL) return 1;
    uint64_t bytes;
    if (sumopine_sheet(chart, length, sheet, SUMOPINE_PAGE_BYTES - 1, &bytes) != SUMOPINE_SHEET_TOO_SHORT || bytes != 0) return 1;
    if (sumopine_sheet(chart, length, sheet, SUMOPINE_PAGE_BYTES, &bytes) != 0) return 1;
    printf("a sheet of %" PRIu64 " bytes:\n%.82s", bytes, (const char *)sheet);
    free(sheet);
    return 0;
}

/* The small record's hold alone, after no other object, from the state of seed 0, or with some of its numbers others. It makes one note. */
static uint32_t object(uint32_t mask_before, uint32_t last_before, uint32_t columns, uint32_t sound, uint32_t kind, uint32_t repeats, uint32_t node,
                       uint8_t *note, uint32_t *notes, uint32_t *draws) {
    uint32_t x = 0, y = 842502087, z = 3579807591, w = 273326509, mask, last, stair;
    return sumopine_object(0.0, 1.0, 1000.0, 1.0, 0, 0.0, 0.0, 0.0f, 0.0f, mask_before, last_before, 0, columns, 0.0f, 0.0f, 1000.0, sound, kind,
                           repeats, 0, 0.0, 1, node, 300.0, 1, &x, &y, &z, &w, note, SUMOPINE_NOTE_BYTES, notes, &mask, &last, &stair, draws);
}

/* Whether numbers whose low 8 or 16 bits would pass are refused: columns, mask and last column by 13, sound, repeats and node sound by 6. */
static int wide_refused(uint8_t *note) {
    uint32_t notes, draws, small = SUMOPINE_COLUMNS_OR_PREVIOUS;
    if (object(0, 0, 256 + 9, 0, SUMOPINE_HOLD, 0, 0, note, &notes, &draws) != small) return 0;
    if (object(65536, 0, 9, 0, SUMOPINE_HOLD, 0, 0, note, &notes, &draws) != small) return 0;
    if (object(0, 256, 9, 0, SUMOPINE_HOLD, 0, 0, note, &notes, &draws) != small) return 0;
    if (object(0, 0, 9, 256 + 8, SUMOPINE_HOLD, 0, 0, note, &notes, &draws) != SUMOPINE_OBJECT) return 0;
    if (object(0, 0, 9, 0, SUMOPINE_SLIDER, 65536, 0, note, &notes, &draws) != SUMOPINE_OBJECT) return 0;
    if (object(0, 0, 9, 0, SUMOPINE_SLIDER, 0, 256, note, &notes, &draws) != SUMOPINE_OBJECT) return 0;
    return object(0, 0, 9, 0, 4, 0, 0, note, &notes, &draws) == SUMOPINE_OBJECT && notes == 0 && draws == 0;
}

/* The chart as hit object lines, and the chart of version 1 that is read from them: the same note without its object, and no draws. */
static int print_lines(size_t length) {
    uint8_t text[41], made[SUMOPINE_HEADER_BYTES + SUMOPINE_OLD_NOTE_BYTES];
    uint64_t text_length, made_length;
    if (sumopine_write_hit_objects(chart, length, text, sizeof text, &text_length) != 0) return 1;
    printf("%.*s", (int)text_length, (const char *)text);
    if (sumopine_read_hit_objects(text, (size_t)text_length, chart[0] % 16, made, sizeof made, &made_length) != 0) return 1;
    if (made_length != sizeof made || made[0] != 16 + chart[0] % 16 || memcmp(made + 1, chart + 1, 3) != 0) return 1;
    if (made[8] != chart[8] || memcmp(made + 9, chart + 11, SUMOPINE_OLD_NOTE_BYTES - 1) != 0) return 1;
    /* Refusals set the length to 0 and leave the buffer: a byte too few for the text and for the chart, and a line without its line feed. */
    if (sumopine_write_hit_objects(chart, length, text, (size_t)text_length - 1, &made_length) != SUMOPINE_TEXT_TOO_SHORT || made_length != 0) return 1;
    if (sumopine_read_hit_objects(text, (size_t)text_length, 9, made, sizeof made - 1, &made_length) != SUMOPINE_CHART_TOO_SHORT) return 1;
    return sumopine_read_hit_objects(text, (size_t)text_length - 1, 9, made, sizeof made, &made_length) != SUMOPINE_HIT_OBJECTS || made_length != 0;
}

static int print_object(void) {
    uint8_t *note = malloc(SUMOPINE_NOTE_BYTES);
    if (note == NULL) return 1;
    uint32_t notes, draws;
    uint32_t refusal = object(0, 0, 9, 0, SUMOPINE_HOLD, 0, 0, note, &notes, &draws);
    if (refusal != 0) {
        printf("refused %" PRIu32 "\n", refusal);
        return 1;
    }
    printf("one object: %" PRIu32 " notes, %" PRIu32 " draws, column %d\n", notes, draws, note[0] >> 4);
    if ((note[0] & 7) != 0 || note[1] != 0 || note[2] != 0) return 1;
    int refused = wide_refused(note);
    free(note);
    return !refused;
}

/* The slider that makes the most notes: 299 repeats of spans of 180 ms, on 4 columns, with a difficulty above 3. One repeat more is refused. */
static int print_longest(void) {
    static uint8_t notes[SUMOPINE_LARGEST_OBJECT];
    for (uint16_t repeats = 299; repeats <= 300; repeats++) {
        uint32_t x = 0, y = 842502087, z = 3579807591, w = 273326509;
        uint32_t count, mask, last, stair, draws;
        uint32_t refusal = sumopine_object(3.5, 1.0, 1000.0, 1.0, 0, 0.0, 0.0, 0.0f, 0.0f, 0, 0, 0, 4, 0.0f, 0.0f, 0.0, 0, SUMOPINE_SLIDER,
                                           repeats, 1, 18.0, 0, 0, 0.0, 1000, &x, &y, &z, &w, notes, sizeof notes, &count, &mask, &last,
                                           &stair, &draws);
        if (refusal != (repeats == 299 ? 0 : SUMOPINE_OBJECT)) return 1;
        if (count != (repeats == 299 ? SUMOPINE_MOST_NOTES_OF_AN_OBJECT : 0)) return 1;
    }
    printf("a slider makes at most %d notes, a chart has at most %d bytes\n", SUMOPINE_MOST_NOTES_OF_AN_OBJECT, SUMOPINE_LARGEST_CHART);
    return 0;
}

/* An announced song: od 5.5 and cs 4 to one decimal, 10 objects of which 2 are sliders or spinners; a slider of 100 pixels, to a whole one. */
static int print_announced(void) {
    uint32_t counts;
    uint64_t earliest, latest;
    if (sumopine_column_counts(5.45f, 5.55f, 3.95f, 4.05f, 10, 2, &counts) != 0) return 1;
    printf("announced:");
    for (unsigned columns = 1; columns <= 9; columns++) {
        if (counts >> columns & 1) printf(" %u", columns);
    }
    if (sumopine_slider_ends(1.0, 1000.0, 1.0, 0.0f, 0.0f, 1000.0, 0, 0, 0, 0, 99.5, 100.5, &earliest, &latest) != 0) return 1;
    printf(" columns, a slider ends at %" PRIu64 " to %" PRIu64 " ms\n", earliest, latest);
    /* Refusals set the outputs to 0: a sound that no byte holds, a range that falls, more sliders and spinners than objects. */
    if (sumopine_slider_ends(1.0, 1000.0, 1.0, 0.0f, 0.0f, 1000.0, 264, 0, 0, 0, 99.5, 100.5, &earliest, &latest) != SUMOPINE_OBJECT) return 1;
    if (earliest != 0 || latest != 0) return 1;
    if (sumopine_slider_ends(1.0, 1000.0, 1.0, 0.0f, 0.0f, 1000.0, 0, 0, 0, 0, 100.5, 99.5, &earliest, &latest) != SUMOPINE_RANGE) return 1;
    return sumopine_column_counts(5.45f, 5.55f, 3.95f, 4.05f, 10, 11, &counts) != SUMOPINE_COUNTS || counts != 0;
}

int main(int count, char **words) {
    size_t record_len = count > 1 ? read_record(words[1]) : small_record();
    uint32_t allowance = count > 2 ? (uint32_t)strtoul(words[2], NULL, 10) : 1000000;

    uint64_t length;
    uint32_t object, draws, longest_search;
    uint32_t refusal = sumopine_convert(record, record_len, chart, BYTES, allowance, &length, &object, &draws, &longest_search);
    if (refusal != 0) {
        printf("refused %" PRIu32 ", object %" PRIu32 ", draws %" PRIu32 "\n", refusal, object, draws);
        return 1;
    }
    if (print_chart((size_t)length) != 0) return 1;
    printf("%" PRIu32 " draws, at most %" PRIu32 " in one search\n", draws, longest_search);
    if (count > 1) return 0;
    if (print_around((size_t)length) != 0) return 1;
    if (print_sheet((size_t)length) != 0) return 1;
    if (print_lines((size_t)length) != 0) return 1;
    if (print_old_chart() != 0) return 1;
    if (print_object() != 0) return 1;
    if (print_longest() != 0) return 1;
    return print_announced();
}
