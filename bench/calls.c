/* Times calls of include/fmem.h over a file that it reads: calls LAYOUT QUERY PATH FILE. It prints the least of five times of
 * the query in milliseconds, that of its numbers, and that of a resolved place's call in nanoseconds. `bash bench/calls`
 * builds and runs it. */
#define _POSIX_C_SOURCE 199309L
#include "fmem.h"

#include <stdio.h>
#include <stdlib.h>
#include <string.h>
#include <time.h>

static double now(void) {
    struct timespec at;
    clock_gettime(CLOCK_PROCESS_CPUTIME_ID, &at);
    return at.tv_sec * 1e9 + at.tv_nsec;
}

struct bytes {
    uint8_t *at;
    size_t count;
};
static struct bytes read_all(const char *name) {
    FILE *file = fopen(name, "rb");
    struct bytes all = {0};
    if (!file || fseek(file, 0, SEEK_END))
        exit(2);
    all.count = (size_t)ftell(file);
    rewind(file);
    all.at = malloc(all.count + !all.count);
    if (!all.at || fread(all.at, 1, all.count, file) != all.count)
        exit(2);
    fclose(file);
    return all;
}

int main(int argc, char **argv) {
    if (argc != 5)
        return 2;
    struct bytes layout = read_all(argv[1]), records = read_all(argv[4]);
    const uint8_t *query = (const uint8_t *)argv[2], *path = (const uint8_t *)argv[3];
    struct fm_report report;
    static uint8_t text[1 << 16];
    static int64_t numbers[1 << 12];
    double texts = 1e30, counts = 1e30, calls = 1e30;
    for (int run = 0; run < 5; run++) {
        double start = now();
        if (fm_query(layout.at, layout.count, query, strlen(argv[2]), records.at, records.count, text, sizeof text, &report))
            return 1;
        double took = now() - start;
        texts = took < texts ? took : texts;
        fwrite(text, 1, run ? 0 : report.length, stderr);
        start = now();
        if (fm_numbers(layout.at, layout.count, query, strlen(argv[2]), records.at, records.count, numbers, 1 << 12, &report))
            return 1;
        took = now() - start;
        counts = took < counts ? took : counts;
    }
    struct fm_place place;
    struct fm_stride each[4];
    if (fm_place(layout.at, layout.count, path, strlen(argv[3]), &place, each, 4, &report) || report.length > 4)
        return 1;
    size_t steps = report.length;
    uint64_t count = records.count / place.root_size, indices[4] = {0}, sum = 0;
    for (int run = 0; run < 5; run++) {
        struct fm_within within = {records.count, 0};
        double start = now();
        for (int k = 0; k < 10000000; k++) {
            uint64_t at;
            within.base = (uint64_t)k % count * place.root_size;
            if (steps)
                indices[0] = (uint64_t)k % each[0].bound;
            if (fm_at(&place, each, steps, indices, steps, &within, &at, &report))
                return 1;
            sum += at;
        }
        double took = (now() - start) / 1e7;
        calls = took < calls ? took : calls;
    }
    printf("query %.1f ms, numbers %.1f ms, at %.1f ns (%d)\n", texts / 1e6, counts / 1e6, calls, (int)(sum & 1));
    return 0;
}
