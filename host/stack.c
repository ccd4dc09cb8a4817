/* Measures the stack that calls of the library take: each runs on a stack of its own, painted before, and what is no longer paint was used.
 * Fails where a call takes more than include/sumopine.h says.
 *     stack JOBS
 * The calls are every recorded job, reading its chart and looking for notes in it, and an object of each kind, a slider of the most repeats
 * among them. */
#include <inttypes.h>
#include <stdio.h>
#include <stdlib.h>
#include <string.h>
#include <ucontext.h>

#include "jobs.h"
#include "sumopine.h"

#define PAINT 0xa5
#define STACK (4 * SUMOPINE_STACK_BYTES)

static uint8_t stack[STACK];
static ucontext_t here, there;
static struct job job;
static uint8_t *chart;
static uint32_t kind;

/* Bytes of stack that a call takes, with those of the function that makes it. */
static size_t used(void (*call)(void)) {
    memset(stack, PAINT, STACK);
    getcontext(&there);
    there.uc_stack.ss_sp = stack;
    there.uc_stack.ss_size = STACK;
    there.uc_link = &here;
    makecontext(&there, call, 0);
    swapcontext(&here, &there);
    size_t left = 0;
    while (left < STACK && stack[left] == PAINT) left++;
    return STACK - left;
}

static void convert(void) {
    uint64_t length;
    uint32_t object, draws, longest_search;
    sumopine_convert(job.record, job.record_len, chart, job.chart_len, job.allowance, &length, &object, &draws, &longest_search);
}

static void look(void) {
    static uint32_t places[1 << 16];
    uint64_t count, start, duration;
    uint32_t version, columns, notes, draws, hold, has_object, object, found, place;
    sumopine_read_chart(chart, job.length, &version, &columns, &notes, &draws);
    sumopine_note(chart, job.length, 0, &columns, &hold, &start, &duration, &has_object, &object);
    sumopine_notes_between(chart, job.length, 0.0, 1e9, places, 1 << 16, &count);
    sumopine_holds_at(chart, job.length, 1000.0, places, 1 << 16, &count);
    sumopine_nearest_note(chart, job.length, 0, 1000.0, &found, &place);
}

static void one_object(void) {
    static uint8_t notes[2050 * SUMOPINE_NOTE_BYTES];
    uint32_t x = 0, y = 842502087, z = 3579807591, w = 273326509;
    uint32_t count, mask, last, stair, draws;
    sumopine_object(6.0, 1.0, 1000.0, 1.0, 1, 0.0, 0.0, 0.0f, 0.0f, 0, 0, 0, 9, 0.0f, 0.0f, 1000.0, 4, kind, 299, 1, 100.0, 1, 4, 300.0, 1000000,
                    &x, &y, &z, &w, notes, sizeof notes, &count, &mask, &last, &stair, &draws);
}

static void announced(void) {
    uint64_t earliest, latest;
    uint32_t counts;
    sumopine_column_counts(0.0f, 10.0f, 0.0f, 10.0f, 10, 2, &counts);
    sumopine_slider_ends(1.0, 1000.0, 1.0, 0.0f, 0.0f, 1000.0, 0, 299, 0, 0, 99.5, 100.5, &earliest, &latest);
}

static size_t larger(size_t a, size_t b) { return a < b ? b : a; }

int main(int count, char **arguments) {
    FILE *file = count == 2 ? fopen(arguments[1], "rb") : NULL;
    if (file == NULL) {
        fprintf(stderr, "stack JOBS\n");
        return 2;
    }
    size_t jobs = 0, others = used(announced);
    for (kind = SUMOPINE_CIRCLE; kind <= SUMOPINE_HOLD; kind++) others = larger(others, used(one_object));
    while (next_job(file, &job)) {
        chart = block(NULL, job.chart_len);
        jobs = larger(jobs, used(convert));
        others = larger(others, used(look));
        free(chart);
        free(job.record);
        free(job.chart);
    }
    fclose(file);
    printf("stack: a job takes up to %zu bytes, another call up to %zu\n", jobs, others);
    return jobs > SUMOPINE_STACK_BYTES || others > SUMOPINE_STACK_BYTES;
}
