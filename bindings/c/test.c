/* Tests of the header's calls. Arguments: the file of a layout, that of its records, and one of refusals, a line
 * KIND TAB GIVEN TAB NUMBERS each, where KIND is layout, records or query. */
#include "fmem.h"

#include <pthread.h>
#include <stdio.h>
#include <stdlib.h>
#include <string.h>

static int wrong, tried;
static void check(int holds, const char *what) {
    tried++;
    if (!holds) {
        wrong = 1;
        fprintf(stderr, "wrong: %s\n", what);
    }
}

struct bytes {
    uint8_t *at;
    size_t count;
};
static struct bytes read_all(const char *name) {
    FILE *file = fopen(name, "rb");
    struct bytes all = {malloc(1 << 20), 0};
    if (!file || !all.at)
        exit(2);
    all.count = fread(all.at, 1, 1 << 20, file);
    fclose(file);
    /* Of just its size, so that the sanitizer sees a read past the end. */
    struct bytes exact = {malloc(all.count + !all.count), all.count};
    memcpy(exact.at, all.at, all.count);
    free(all.at);
    return exact;
}

static struct bytes layout, records;
static const char *const query = "count,sum(.price),list(.tags[]) where .kind>=2";
static const char *const wanted = "count 2\nsum(.price) 210\nlist(.tags[]) 1 2 3 4 5 0 0 -1\n";

static uint64_t ask(const char *text, struct bytes over, uint8_t *out, size_t room, struct fm_report *report) {
    return fm_query(layout.at, layout.count, (const uint8_t *)text, strlen(text), over.at, over.count, out, room, report);
}

/* Outputs of every size around the right one: a first part, nothing behind it, and the whole length. */
static void rooms(void) {
    size_t length = strlen(wanted);
    for (size_t room = 0; room <= length + 3; room++) {
        struct fm_report report;
        uint8_t *out = malloc(room + !room);
        memset(out, '#', room + !room);
        uint64_t came = ask(query, records, out, room, &report);
        size_t put = room < length ? room : length;
        check(came == 0 && report.number == 0 && report.length == length, "length is told");
        check(memcmp(out, wanted, put) == 0, "a first part is put");
        for (size_t k = put; k < room + !room; k++)
            check(out[k] == '#', "nothing is put behind it");
        free(out);
    }
}

/* The same of each call over records, whose items are so wide. */
typedef uint64_t over(const uint8_t *, size_t, const uint8_t *, size_t, const uint8_t *, size_t, void *, size_t,
                      struct fm_report *);
static uint64_t numbers(const uint8_t *l, size_t ln, const uint8_t *q, size_t qn, const uint8_t *r, size_t rn, void *out,
                        size_t room, struct fm_report *report) {
    return fm_numbers(l, ln, q, qn, r, rn, out, room, report);
}
static uint64_t groups(const uint8_t *l, size_t ln, const uint8_t *q, size_t qn, const uint8_t *r, size_t rn, void *out,
                       size_t room, struct fm_report *report) {
    return fm_groups(l, ln, q, qn, r, rn, out, room, report);
}
static uint64_t texts(const uint8_t *l, size_t ln, const uint8_t *q, size_t qn, const uint8_t *r, size_t rn, void *out,
                      size_t room, struct fm_report *report) {
    return fm_texts(l, ln, q, qn, r, rn, out, room, report);
}

static void rooms_of(over *call, const char *text, size_t wide, const void *right, size_t count) {
    for (size_t room = 0; room <= count + 3; room++) {
        struct fm_report report;
        uint8_t *out = malloc(room * wide + !room);
        memset(out, '#', room * wide + !room);
        uint64_t came =
            call(layout.at, layout.count, (const uint8_t *)text, strlen(text), records.at, records.count, out, room, &report);
        size_t put = (room < count ? room : count) * wide;
        check(came == 0 && report.number == 0 && report.length == count, text);
        check(memcmp(out, right, put) == 0, text);
        for (size_t k = put; k < room * wide + !room; k++)
            check(out[k] == '#', "nothing is put behind it");
        free(out);
    }
    struct fm_report report;
    uint8_t out[64] = "as it was";
    struct bytes none = {records.at, 0};
    check(!call(layout.at, layout.count, (const uint8_t *)text, strlen(text), none.at, 0, out, 0, &report), "no records");
    for (size_t rest = 1; rest < 24; rest++)
        check(call(layout.at, layout.count, (const uint8_t *)text, strlen(text), records.at, 24 + rest, out, 64 / wide,
                   &report) == FM_RAGGED && report.first == rest && !memcmp(out, "as it was", 10), "ragged");
}

static void other_forms(void) {
    static const int64_t found[] = {0, 1, 2, 1, 2, 210, 0, 2, 1, -40, 3, 1, 250, 4, 8, 1, 2, 3, 4, 5, 0, 0, -1};
    rooms_of(numbers, "count,sum(.price),min(.price),max(.price),list(.tags[])", sizeof *found, found,
             sizeof found / sizeof *found);
    static const struct fm_counted often[] = {{-1, 1}, {0, 2}, {1, 1}, {2, 1}, {3, 1}, {4, 1}, {5, 1}};
    rooms_of(groups, ".tags[]", sizeof *often, often, sizeof often / sizeof *often);
    static const char lines[] = "refused 61\ntext 05\n";
    rooms_of(texts, ".tags", 1, lines, strlen(lines));
    struct fm_report report;
    int64_t out[3];
    check(!numbers(layout.at, layout.count, (const uint8_t *)"min(.id) where .kind=9", 22, records.at, records.count, out, 3,
                   &report) && report.length == 2 && out[0] == FM_LEAST && out[1] == 0, "no least");
    check(texts(layout.at, layout.count, (const uint8_t *)".id", 3, records.at, records.count, out, 3, &report) == 6, "no bytes");
    check(texts(layout.at, layout.count, (const uint8_t *)".tags[]", 7, records.at, records.count, out, 3, &report) == 34 &&
              report.first == 1, "a step that is open");
}

/* Where a value stands at indices, by the place's own numbers and by any. */
static void indices(void) {
    struct fm_place place;
    struct fm_stride each[1];
    struct fm_report report;
    uint64_t at = 7, of[2] = {3, 0};
    check(!fm_place(layout.at, layout.count, (const uint8_t *)".tags[]", 7, &place, each, 1, &report), "a place");
    struct fm_within within = {records.count, 24};
    check(!fm_at(&place, each, 1, of, 1, &within, &at, &report) && at == 24 + 16 + 3, "where it stands");
    check(records.at[at] == 255, "what stands there");
    at = 7;
    of[0] = 4;
    check(fm_at(&place, each, 1, of, 1, &within, &at, &report) == FM_INDEX_OUT && report.first == 0, "not below its bound");
    check(fm_at(&place, each, 1, of, 0, &within, &at, &report) == FM_INDEX_OUT && report.first == 0, "missing");
    of[0] = 3;
    check(fm_at(&place, each, 1, of, 2, &within, &at, &report) == FM_INDEX_OUT && report.first == 1, "one too many");
    static const uint64_t past[] = {25, 48, 49, (uint64_t)-24, (uint64_t)-1};
    for (size_t k = 0; k < sizeof past / sizeof *past; k++) {
        within.base = past[k];
        check(fm_at(&place, each, 1, of, 1, &within, &at, &report) == FM_BOUNDS, "past the end");
    }
    within.base = 0;
    for (uint64_t stride = (uint64_t)1 << 62; stride; stride <<= 1) {
        struct fm_stride wild[2] = {{(int64_t)stride, -1}, {1, -1}};
        uint64_t high[2] = {(uint64_t)1 << 63, 1};
        check(fm_at(&place, wild, 2, high, 2, &within, &at, &report) == FM_BOUNDS, "numbers that lead nowhere");
    }
    check(at == 7, "a refused call puts nothing");
}

/* A path is refused alike by each call that takes one, but that texts want a sequence of bytes. */
static void refuses_path(const char *path, const char *numbers, const char *of_texts) {
    struct fm_place place = {.offset = 7};
    struct fm_stride each[1] = {{7, 7}};
    struct fm_counted often[1] = {{7, 7}};
    struct fm_report report[3], printed;
    uint8_t lines[10] = "as it was", out[64];
    const uint8_t *bytes = (const uint8_t *)path;
    const char *wants[3] = {numbers, numbers, of_texts};
    uint64_t came[3];
    came[0] = fm_place(layout.at, layout.count, bytes, strlen(path), &place, each, 1, &report[0]);
    came[1] = groups(layout.at, layout.count, bytes, strlen(path), records.at, records.count, often, 1, &report[1]);
    came[2] = texts(layout.at, layout.count, bytes, strlen(path), records.at, records.count, lines, sizeof lines, &report[2]);
    for (int k = 0; k < 3; k++) {
        if (!wants[k])
            continue;
        check(came[k] && came[k] == report[k].number && report[k].length == 0, path);
        check(!fm_refusal(&report[k], out, sizeof out, &printed), path);
        check(printed.length == strlen(wants[k]) && !memcmp(out, wants[k], printed.length), wants[k]);
    }
    check(place.offset == 7 && each[0].bound == 7, "a refused place puts nothing");
    check(!numbers || often[0].count == 7, "refused groups put nothing");
    check(!of_texts || !memcmp(lines, "as it was", 10), "refused texts put nothing");
}

static void refusals(const char *name) {
    char line[8192];
    int paths = 0;
    FILE *file = fopen(name, "r");
    if (!file)
        exit(2);
    while (fgets(line, sizeof line, file)) {
        char *kind = strtok(line, "\t"), *given = strtok(NULL, "\t"), *numbers = strtok(NULL, "\n");
        const uint8_t *bytes = (const uint8_t *)given;
        struct fm_report report, printed;
        struct fm_extent extent = {7, 7};
        uint8_t out[64] = "as it was";
        uint64_t came;
        if (!strcmp(kind, "layout"))
            came = fm_layout(bytes, strlen(given), &extent, &report);
        else if (!strcmp(kind, "records"))
            came = fm_query(bytes, strlen(given), (const uint8_t *)"count", 5, out, 0, out + 32, 32, &report);
        else
            came = ask(given, records, out, sizeof out, &report);
        check(came != 0 && came == report.number && report.length == 0, given);
        check(extent.size == 7 && !memcmp(out, "as it was", 10), "a refused call puts nothing");
        check(fm_refusal(&report, out, sizeof out, &printed) == 0, given);
        check(printed.length == strlen(numbers) && !memcmp(out, numbers, printed.length), numbers);
        /* The path of an item alone is refused as the query; but a text ends at a sequence, and none of its steps is open. */
        size_t length = strlen(given);
        if (!strcmp(kind, "query") && !strncmp(given, "sum(", 4) && given[length - 1] == ')') {
            given[length - 1] = 0;
            int open = !strcmp(numbers, "32 1") || !strcmp(numbers, "36 1");
            refuses_path(given + 4, numbers, open ? "34 1" : strcmp(numbers, "35") ? numbers : NULL);
            paths++;
        }
    }
    fclose(file);
    check(paths >= 6, "the rows have paths");
    refuses_path("tags", "50 0", "50 0");
    refuses_path(".\xff", "60 1", "60 1");
    refuses_path(".tags", "35", NULL);
}

static void records_of_all_sizes(void) {
    struct fm_report report;
    uint8_t out[64];
    struct bytes none = {records.at, 0};
    check(ask("count", none, out, 64, &report) == 0 && !memcmp(out, "count 0\n", 8), "no records");
    for (size_t rest = 1; rest < 24; rest++) {
        struct bytes ragged = {records.at, 24 + rest};
        check(ask("count", ragged, out, 64, &report) == FM_RAGGED && report.first == rest && report.arguments == 1, "ragged");
    }
    uint8_t *many = calloc(FM_MOST_RECORDS + 24, 1);
    struct bytes most = {many, FM_MOST_RECORDS / 24 * 24}, more = {many, FM_MOST_RECORDS + 8};
    check(ask("count", most, out, 64, &report) == 0 && !memcmp(out, "count 2796202\n", 14), "as many as there may be");
    check(ask("count", more, out, 64, &report) == FM_NO_ROOM && report.first == 0, "one byte too many");
    free(many);
    check(ask("sum(.\xff)", records, out, 64, &report) == FM_NOT_TEXT && report.first == 5, "no text");
}

static void places(void) {
    struct fm_place place;
    struct fm_stride each[2] = {{-1, 9}, {-1, 9}};
    struct fm_report report;
    check(!fm_place(layout.at, layout.count, (const uint8_t *)".tags[]", 7, &place, each, 0, &report), "a place");
    check(report.length == 1 && each[0].stride == -1, "no room for strides");
    check(!fm_place(layout.at, layout.count, (const uint8_t *)".tags[]", 7, &place, each, 2, &report), "a place");
    check(place.offset == 16 && place.kind == FM_BYTE && place.root_size == 24 && place.root_alignment == 8, "where it is");
    check(each[0].stride == 1 && each[0].bound == 4 && each[1].stride == -1, "its strides");
    check(fm_place(layout.at, layout.count, (const uint8_t *)".tags", 5, &place, each, 2, &report) == 35, "no value");
    check(place.offset == 16, "a refused call puts nothing");
    check(!fm_place(layout.at, layout.count, (const uint8_t *)".tags[3:-2]", 11, &place, each, 2, &report), "a step back");
    check(place.offset == 19 && each[0].stride == -2 && each[0].bound == 2, "where that is");
}

static struct fm_place shared;
static struct fm_stride its_strides[1];

static void *asks(void *count) {
    uint8_t out[128];
    struct fm_report report;
    struct fm_within within = {records.count, 24};
    for (uint64_t k = 0; k < 100000; k++) {
        uint64_t at, index = k % 4;
        if (fm_at(&shared, its_strides, 1, &index, 1, &within, &at, &report) || at != 40 + index)
            return NULL;
    }
    for (int k = 0; k < 200; k++)
        if (ask(query, records, out, sizeof out, &report) == 0 && !memcmp(out, wanted, strlen(wanted)))
            ++*(int *)count;
    return NULL;
}
static void threads(void) {
    pthread_t thread[8];
    int count[8] = {0};
    struct fm_report report;
    check(!fm_place(layout.at, layout.count, (const uint8_t *)".tags[]", 7, &shared, its_strides, 1, &report), "a place");
    for (int k = 0; k < 8; k++)
        pthread_create(&thread[k], NULL, asks, &count[k]);
    for (int k = 0; k < 8; k++) {
        pthread_join(thread[k], NULL);
        check(count[k] == 200, "eight threads over one layout and one place");
    }
}

static void *asks_by_its_own(void *count) {
    struct fm_handle handle = {0};
    struct fm_report report;
    uint8_t out[128];
    if (fm_query_make(layout.at, layout.count, (const uint8_t *)query, strlen(query), &handle, &report))
        return NULL;
    for (int k = 0; k < 200; k++)
        if (!fm_query_ask(&handle, records.at, records.count, out, sizeof out, &report) && !memcmp(out, wanted, strlen(wanted)))
            ++*(int *)count;
    fm_query_free(&handle);
    return NULL;
}

/* A query that is kept: asked many times, over all sizes of outputs and records, made again, and by eight threads. */
static void handles(void) {
    struct fm_handle handle = {0};
    struct fm_report report;
    uint8_t out[128];
    check(fm_query_make(layout.at, layout.count, (const uint8_t *)"sum(.nope)", 10, &handle, &report) == 31, "no member");
    check(!handle.query && report.first == 0, "a refused call leaves the handle");
    check(fm_query_make((const uint8_t *)"{", 1, (const uint8_t *)"count", 5, &handle, &report) == 40, "no layout");
    for (int times = 0; times < 3; times++) {
        check(!fm_query_make(layout.at, layout.count, (const uint8_t *)query, strlen(query), &handle, &report), "it is made");
        check(handle.query && report.length == 0, "a handle");
        for (size_t room = 0; room <= strlen(wanted) + 3; room++) {
            size_t put = room < strlen(wanted) ? room : strlen(wanted);
            memset(out, '#', sizeof out);
            check(!fm_query_ask(&handle, records.at, records.count, out, room, &report), "an answer");
            check(report.length == strlen(wanted) && !memcmp(out, wanted, put) && out[put] == '#', "a first part");
        }
        for (size_t rest = 1; rest < 24; rest++)
            check(fm_query_ask(&handle, records.at, 24 + rest, out, sizeof out, &report) == FM_RAGGED && report.first == rest,
                  "ragged");
        check(!fm_query_ask(&handle, records.at, 0, out, sizeof out, &report), "no records");
        check(fm_query_free(&handle) == 0, "it is freed");
    }
    uint8_t *many = calloc(FM_MOST_RECORDS + 8, 1);
    check(!fm_query_make(layout.at, layout.count, (const uint8_t *)"count", 5, &handle, &report), "it is made");
    check(fm_query_ask(&handle, many, FM_MOST_RECORDS + 8, out, sizeof out, &report) == FM_NO_ROOM, "too many");
    fm_query_free(&handle);
    free(many);
    pthread_t thread[8];
    int count[8] = {0};
    for (int k = 0; k < 8; k++)
        pthread_create(&thread[k], NULL, asks_by_its_own, &count[k]);
    for (int k = 0; k < 8; k++) {
        pthread_join(thread[k], NULL);
        check(count[k] == 200, "eight threads, each with a handle");
    }
}

/* Many calls leave no memory behind: the process holds as many pages in the end as after the first tenth of them. */
static long held(void) {
    long pages = 0;
    FILE *file = fopen("/proc/self/statm", "r");
    if (file && fscanf(file, "%*d %ld", &pages) != 1)
        pages = 0;
    if (file)
        fclose(file);
    return pages;
}
static void leaks(long calls) {
    struct fm_place place;
    struct fm_stride each[1];
    struct fm_report report;
    uint8_t out[128];
    long before = 0;
    for (long k = 0; k < calls; k++) {
        if (k == calls / 10)
            before = held();
        struct fm_handle handle = {0};
        check(!fm_query_make(layout.at, layout.count, (const uint8_t *)query, strlen(query), &handle, &report), "a handle");
        check(!fm_query_ask(&handle, records.at, records.count, out, sizeof out, &report), "it answers");
        fm_query_free(&handle);
        check(!fm_place(layout.at, layout.count, (const uint8_t *)".tags[]", 7, &place, each, 1, &report), "a place");
        check(ask(query, records, out, sizeof out, &report) == 0, "a query");
        check(ask("sum(.nope)", records, out, sizeof out, &report) == 31, "a refused query");
        check(!groups(layout.at, layout.count, (const uint8_t *)".id", 3, records.at, records.count, out, 2, &report), "groups");
        check(!texts(layout.at, layout.count, (const uint8_t *)".tags", 5, records.at, records.count, out, 64, &report), "texts");
    }
#ifdef __SANITIZE_ADDRESS__ /* it keeps what is freed for a while, and finds leaks by itself */
    before += held();
#endif
    check(held() <= before + 16, "memory stays flat");
}

int main(int argc, char **argv) {
    if (argc != 4)
        return 2;
    layout = read_all(argv[1]);
    records = read_all(argv[2]);
    rooms();
    other_forms();
    indices();
    refusals(argv[3]);
    records_of_all_sizes();
    places();
    threads();
    handles();
    leaks(getenv("FMEM_CALLS") ? atol(getenv("FMEM_CALLS")) : 2000);
    free(layout.at);
    free(records.at);
    printf("%d checks\n", tried);
    return wrong;
}
