/* Answers a query over records, counts how often each number comes, and reads values by a place. `bash bindings/c/build` builds and runs it. */
#include "fmem.h"

#include <stdio.h>
#include <string.h>

static const char layout[] = "{\"type\":\"struct\",\"members\":[{\"type\":\"int\",\"name\":\"id\"},"
                             "{\"type\":\"sequence\",\"name\":\"tags\",\"count\":4,\"element\":{\"type\":\"byte\"}}]}";
static const uint8_t records[] = {1, 0, 0, 0, 1, 2, 3, 4, 2, 0, 0, 0, 5, 6, 7, 8};

static int fails(const struct fm_report *report) {
    char text[64];
    struct fm_report printed;
    fm_refusal(report, (uint8_t *)text, sizeof text, &printed);
    fprintf(stderr, "refused %.*s\n", (int)printed.length, text);
    return 1;
}

int main(void) {
    const char *query = "count,sum(.tags[]) where .id>=1";
    char text[256];
    struct fm_report report;
    if (fm_query((const uint8_t *)layout, strlen(layout), (const uint8_t *)query, strlen(query), records, sizeof records,
                 (uint8_t *)text, sizeof text, &report))
        return fails(&report);
    printf("%.*s", (int)report.length, text);

    struct fm_counted often[8];
    if (fm_groups((const uint8_t *)layout, strlen(layout), (const uint8_t *)".id", 3, records, sizeof records, often, 8, &report))
        return fails(&report);
    for (uint64_t k = 0; k < report.length; k++)
        printf("id %lld comes %llu times\n", (long long)often[k].number, (unsigned long long)often[k].count);

    struct fm_place tag;
    struct fm_stride each[1];
    if (fm_place((const uint8_t *)layout, strlen(layout), (const uint8_t *)".tags[]", 7, &tag, each, 1, &report))
        return fails(&report);
    struct fm_within within = {sizeof records, 0};
    for (; within.base < sizeof records; within.base += tag.root_size)
        for (uint64_t i = 0, at; i < each[0].bound; i++) {
            if (fm_at(&tag, each, 1, &i, 1, &within, &at, &report))
                return fails(&report);
            printf("%d ", (int8_t)records[at]);
        }
    printf("\n");
    return 0;
}
