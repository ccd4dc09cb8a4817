/* Replays recorded jobs through the library, each in memory of exactly its length, and compares the answers. Every job is converted twice: in a
 * chart buffer of known bytes, to see that those after the chart keep their values, and in one that was never written, so that valgrind sees
 * whether anything depends on what was lent.
 *     replay JOBS */
#include <inttypes.h>
#include <stdio.h>
#include <stdlib.h>
#include <string.h>

#include "jobs.h"
#include "sumopine.h"

#define KNOWN 1

static int all(const uint8_t *bytes, size_t length, uint8_t value) {
    for (size_t i = 0; i < length; i++)
        if (bytes[i] != value) return 0;
    return 1;
}

/* Converts a job in a chart buffer; whether it ended as recorded, in every number and every byte of the chart. */
static int converts(const struct job *job, uint8_t *chart) {
    uint64_t length;
    uint32_t object, draws, longest_search, version, columns, notes, made;
    uint32_t refusal = sumopine_convert(job->record, job->record_len, chart, job->chart_len, job->allowance, &length, &object, &draws, &longest_search);
    if (refusal != job->refusal || length != job->length || object != job->object) return 0;
    if (draws != job->draws || longest_search != job->longest_search) return 0;
    if (refusal != 0) return all(chart, job->chart_len, 0);
    if (memcmp(chart, job->chart, job->length) != 0) return 0;
    return sumopine_read_chart(chart, job->length, &version, &columns, &notes, &made) == 0 && version == 2 && draws == made;
}

/* Whether a job ends as recorded whatever it was lent. */
static int replay(const struct job *job) {
    uint8_t *known = block(NULL, job->chart_len), *unwritten = block(NULL, job->chart_len);
    memset(known, KNOWN, job->chart_len);
    int same = converts(job, known) && converts(job, unwritten);
    if (job->refusal == 0) same = same && all(known + job->length, job->chart_len - job->length, KNOWN);
    free(known);
    free(unwritten);
    return same;
}

int main(int count, char **arguments) {
    FILE *file = count == 2 ? fopen(arguments[1], "rb") : NULL;
    if (file == NULL) {
        fprintf(stderr, "replay JOBS\n");
        return 2;
    }
    unsigned jobs = 0, differ = 0;
    struct job job;
    while (next_job(file, &job)) {
        differ += !replay(&job);
        jobs++;
        free(job.record);
        free(job.chart);
    }
    fclose(file);
    printf("%u jobs, %u differ\n", jobs, differ);
    return differ != 0;
}
