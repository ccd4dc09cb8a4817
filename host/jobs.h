/* Recorded jobs. A file is its jobs one after the other. A job is three parts, each behind its length in 32 bits: the record; six numbers of
 * 32 bits, which are the buffer's length, the allowance, the answer's number (0: a chart), object, draws and longest search; and the chart.
 * Numbers have their highest byte first. */
#include <stdint.h>
#include <stdio.h>
#include <stdlib.h>

/* A job, and how it ended: with a chart of `length` bytes or refused, at an object, after so many draws. */
struct job {
    uint8_t *record, *chart;
    uint32_t record_len, chart_len, allowance;
    uint32_t refusal, length, object, draws, longest_search;
};

static uint32_t number(FILE *file) {
    uint32_t value = 0;
    for (int i = 0; i < 4; i++) value = value << 8 | (uint32_t)(fgetc(file) & 255);
    return value;
}

/* Memory of exactly this length, with the file's next bytes in it, or not initialised. */
static uint8_t *block(FILE *file, size_t length) {
    uint8_t *bytes = malloc(length);
    if (bytes == NULL || (file != NULL && fread(bytes, 1, length, file) != length)) {
        fprintf(stderr, "no memory, or the file is cut\n");
        exit(2);
    }
    return bytes;
}

static struct job read_job(FILE *file) {
    struct job job = {.record_len = number(file)};
    job.record = block(file, job.record_len);
    number(file); /* the length of the numbers */
    job.chart_len = number(file);
    job.allowance = number(file);
    job.refusal = number(file);
    job.object = number(file);
    job.draws = number(file);
    job.longest_search = number(file);
    job.length = number(file);
    job.chart = block(file, job.length);
    return job;
}

/* The next job; whether there is one. */
static int next_job(FILE *file, struct job *job) {
    int next = fgetc(file);
    if (next == EOF) return 0;
    ungetc(next, file);
    *job = read_job(file);
    return 1;
}
