/* A fuzzer of the calls of include/fmem.h: bytes are cut into a layout, a text, records and a room. What is put stands
 * within the room, the length is the same for every room, and a refused call puts nothing. `bash bench/callers` builds and
 * runs it. Without libFuzzer it makes its bytes itself. */
#include "fmem.h"

#include <stdio.h>
#include <stdlib.h>
#include <string.h>

static void want(int holds) {
    if (!holds)
        abort();
}

/* A copy of just its size, so that a read past its end is seen. */
static uint8_t *exact(const uint8_t *from, size_t count) {
    uint8_t *copy = malloc(count + !count);
    if (count)
        memcpy(copy, from, count);
    return copy;
}

/* How many bytes an item takes that each call puts. */
static const size_t wide[] = {1, 1, sizeof(int64_t), sizeof(struct fm_counted), 1};

static uint64_t puts_by(int call, const uint8_t *layout, size_t length, uint8_t *const *of, const size_t *parts, void *out,
                        size_t room, struct fm_report *report) {
    switch (call) {
    case 0: return fm_places(layout, length, out, room, report);
    case 1: return fm_query(layout, length, of[1], parts[1], of[2], parts[2], out, room, report);
    case 2: return fm_numbers(layout, length, of[1], parts[1], of[2], parts[2], out, room, report);
    case 3: return fm_groups(layout, length, of[1], parts[1], of[2], parts[2], out, room, report);
    default: return fm_texts(layout, length, of[1], parts[1], of[2], parts[2], out, room, report);
    }
}

/* A place of any numbers, which are the bytes: where it leads is in its record and in the bytes, or it is refused. */
static void at_any_numbers(const uint8_t *from, size_t count) {
    struct {
        struct fm_place place;
        struct fm_stride strides[2];
        uint64_t indices[2];
        struct fm_within within;
    } any = {0};
    memcpy(&any, from, count < sizeof any ? count : sizeof any);
    struct fm_report report;
    uint64_t found = 7;
    for (size_t steps = 0; steps <= 2; steps++)
        for (size_t indices = 0; indices <= 2; indices++) {
            uint64_t came = fm_at(&any.place, any.strides, steps, any.indices, indices, &any.within, &found, &report);
            want(came == 0 || came == FM_BOUNDS || (came == FM_INDEX_OUT && report.first <= steps));
            want(came ? found == 7 : found >= any.within.base && found < any.within.size && steps == indices);
            found = 7;
        }
}

int LLVMFuzzerTestOneInput(const uint8_t *data, size_t size) {
    static const char *const frames[] = {
        "%.*s", "{\"type\":\"struct\",\"members\":[%.*s]}", "{\"type\":\"sequence\",\"count\":3,\"element\":%.*s}",
        "{\"type\":\"int\",\"name\":\"a\",%.*s}",
        "{\"type\":\"struct\",\"members\":[{\"type\":\"int\",\"name\":\"a\"},{\"type\":\"sequence\","
        "\"name\":\"b\",\"count\":4,\"element\":{\"type\":\"byte\",\"name\":\"c%.*s\"}}]}",
    };
    if (size < 4)
        return 0;
    size_t parts[3] = {data[0] % 128, data[1] % 64, data[2] % 128}, room = data[3] % 80, at = 4;
    uint8_t *of[3];
    for (int k = 0; k < 3; k++) {
        if (parts[k] > size - at)
            parts[k] = size - at;
        of[k] = exact(data + at, parts[k]);
        at += parts[k];
    }
    char framed[512];
    int long_ = snprintf(framed, sizeof framed, frames[data[0] / 128 + data[1] / 64 % 4], (int)parts[0], (const char *)of[0]);
    size_t length = long_ < (int)sizeof framed ? (size_t)long_ : sizeof framed - 1;
    uint8_t *layout = exact((const uint8_t *)framed, length), *out = malloc(16 * room + 1), *whole = malloc(1 << 16);
    struct fm_report report, again;
    struct fm_extent extent;
    struct fm_place place;
    struct fm_stride stride[2];

    fm_layout(layout, length, &extent, &report);
    want(report.number || (extent.alignment && !(extent.alignment & (extent.alignment - 1))));
    fm_place(layout, length, of[1], parts[1], &place, stride, data[3] % 3, &report);
    want(report.number || (place.kind <= FM_LONG && place.order <= FM_BIG && place.offset <= place.root_size));
    at_any_numbers(of[2], parts[2]);
    for (int call = 0; call < 5; call++) {
        memset(out, '#', 16 * room + 1);
        uint64_t came = puts_by(call, layout, length, of, parts, out, room, &report);
        uint64_t same = puts_by(call, layout, length, of, parts, whole, (1 << 16) / 16, &again);
        size_t put = came ? 0 : (report.length < room ? report.length : room) * wide[call];
        want(came == same && !memcmp(&report, &again, sizeof report) && !memcmp(out, whole, put));
        for (size_t k = put; k <= 16 * room; k++)
            want(out[k] == '#');
        fm_refusal(&report, out, room, &again);
    }
    for (int k = 0; k < 3; k++)
        free(of[k]);
    free(layout);
    free(out);
    free(whole);
    return 0;
}

#ifdef ALONE
int main(int argc, char **argv) {
    static const char *const words[] = {"{\"type\":\"int\"}", "\"order\":\"big\"", "count", "sum(.a)", "list(.[])", ".b", ",", "[]", " where ", ".a>=1"};
    srand(argc > 2 ? atoi(argv[2]) : 1);
    for (long k = 0; k < (argc > 1 ? atol(argv[1]) : 100000); k++) {
        uint8_t data[512];
        size_t size = 4;
        for (size_t i = 0; i < 4; i++)
            data[i] = rand();
        while (size < 300) {
            const char *word = words[rand() % 10];
            if (rand() % 4)
                for (; *word; word++)
                    data[size++] = *word;
            else
                data[size++] = rand();
        }
        data[0] = data[0] / 128 * 128 + rand() % 40;
        LLVMFuzzerTestOneInput(data, size);
    }
    return 0;
}
#endif
