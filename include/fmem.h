/*
 * Layouts, paths, queries, groups and texts over bytes in memory: the calls of the static library fm_c.
 *
 * Each call takes slices, as a pointer and a count, and puts what it finds into memory of the caller's. Its answer is 0,
 * or the number of a refusal; the report tells that number, the refusal's arguments, and how long the whole output is.
 *
 * Too little room: the output gets the first part that there is room for, what lies behind it stays, the answer is 0, and
 * `length` says how much the whole takes. So a call with no room asks for the length. A refused call puts nothing but
 * the report.
 *
 * Threads: a call shares nothing, and keeps nothing but what a handle keeps. Any number of threads may call at once, over the
 * same layout, path, query, records and place, as long as nobody changes these meanwhile, and each call has an output and a
 * report of its own. A handle is for one call at a time: each thread makes its own, or they take turns, ordered by a lock, by
 * a thread's start or join, or by a sequentially consistent atomic.
 *
 * Ownership: the caller owns all memory that it passes. Nothing needs to be given back but a handle that was made.
 *
 * What the caller owes: no pointer is NULL, not even where its count is 0; each points to as many items as the count says,
 * aligned for them; outputs and reports overlap neither each other nor what is read; a count is below 2^63. Calls come
 * neither from a signal handler nor from the forked child of a process with threads. malloc, realloc and free are of one
 * allocator. Values are never owed, but a handle's: whatever bytes and numbers are passed, the call answers as it says here.
 *
 * Refusals have the numbers and arguments that docs/REFUSALS.md lists. FM_MEMORY may come from any call but
 * fm_at and fm_query_free, which take no memory.
 */
#ifndef FMEM_H
#define FMEM_H

#include <stddef.h>
#include <stdint.h>

#ifdef __cplusplus
extern "C" {
#endif

enum {
    FM_BOUNDS = 3,    /* fm_at: the record passes the end of the bytes, or the value its record */
    FM_NO_ROOM = 10,  /* more than FM_MOST_RECORDS bytes of records; its argument is 0 */
    FM_INDEX_OUT = 33, /* fm_at: this index isn't below its bound, is missing, or is one too many */
    FM_RAGGED = 51,   /* the records end with this many bytes more than whole ones */
    FM_NOT_TEXT = 60, /* a path or a query isn't UTF-8 behind so many bytes */
    FM_MEMORY = 99    /* memory ran out */
};

/* The most bytes of records. */
#define FM_MOST_RECORDS 67108864

/* What came of a call. */
struct fm_report {
    uint64_t number;    /* 0 where the call was answered, else the refusal's number */
    uint64_t arguments; /* how many arguments the refusal has: 0, 1 or 2 */
    uint64_t first;     /* the first of them, else 0 */
    uint64_t second;    /* the second of them, else 0 */
    uint64_t length;    /* how long the whole output is, in bytes or items; 0 where the call was refused */
};

/* How long a layout is and how it is aligned, in bytes. */
struct fm_extent {
    uint64_t size;
    uint64_t alignment;
};

enum fm_kind { FM_BYTE, FM_BOOLEAN, FM_CHAR, FM_SHORT, FM_INT, FM_LONG };
enum fm_order { FM_LITTLE, FM_BIG };
enum fm_item { FM_COUNT, FM_SUM, FM_LEAST, FM_GREATEST, FM_LIST };

/* Where a path leads. Sizes and offsets are in bytes. It is plain data: copy it, share it, forget it. */
struct fm_place {
    uint64_t offset;         /* of the value in its record, at index 0 for each open step */
    uint64_t kind;           /* an enum fm_kind */
    uint64_t order;          /* an enum fm_order */
    uint64_t alignment;      /* of the value */
    uint64_t root_size;      /* of the record */
    uint64_t root_alignment; /* of the record */
};

/* An open step of a path: the value at index i, which is below the bound, stands i times the stride further on. */
struct fm_stride {
    int64_t stride;
    uint64_t bound;
};

/* Where a record stands: in `size` bytes, from the `base`th on. */
struct fm_within {
    uint64_t size;
    uint64_t base;
};

/* A number, and how often it comes. */
struct fm_counted {
    int64_t number;
    uint64_t count;
};

/* A query that is kept, or none where it is {0}. What it leads to is the library's alone. */
struct fm_handle {
    void *query;
};

/*
 * Puts how long the layout is whose JSON the bytes are, and how it is aligned.
 * Refused: 40, where the bytes are no JSON; 41, 20 to 24, where that is no layout.
 */
uint64_t fm_layout(const uint8_t *layout, size_t layout_length, struct fm_extent *extent, struct fm_report *report);

/*
 * Puts the text that lists the layout's places, as `fmem layout` prints it: its size, its alignment, and a line for each
 * value. Refused: as fm_layout.
 */
uint64_t fm_places(const uint8_t *layout, size_t layout_length, uint8_t *out, size_t room, struct fm_report *report);

/*
 * Puts where the path leads in the layout, and the strides of its open steps, in their order; `length` is how many
 * these are. At indices below the bounds the value lies inside the record, and no sum on the way passes 64 bits.
 * Refused, in this order: as fm_layout; 60, where the path isn't UTF-8; 50, where it is no path; 30 to 36, where it leads
 * to no value.
 */
uint64_t fm_place(const uint8_t *layout, size_t layout_length, const uint8_t *path, size_t path_length,
                  struct fm_place *place, struct fm_stride *strides, size_t room, struct fm_report *report);

/*
 * Puts where the value of a place stands at these indices, one for each stride: so many bytes from the start of those in
 * which its record stands. It is quick, takes no memory, and trusts no number that it is given. A kind above FM_LONG, which
 * fm_place never puts, counts as one of 8 bytes.
 * Refused, in this order: FM_INDEX_OUT with the first index, counted from 0, that isn't below its bound, is missing, or is
 * one too many; FM_BOUNDS, where the record passes the end of the bytes, or where the place's numbers lead out of the
 * record, which those that fm_place puts never do.
 */
uint64_t fm_at(const struct fm_place *place, const struct fm_stride *strides, size_t strides_count, const uint64_t *indices,
               size_t indices_count, const struct fm_within *within, uint64_t *at, struct fm_report *report);

/*
 * Puts the text of what the query answers over records of the layout, which lie side by side, as `fmem query` prints it.
 * The records are copied once, into memory of the call's own, so it takes as much memory as they do, and the text's.
 * Refused, in this order: as fm_layout; 25 or 22, where no records are of the layout; 60, where the query isn't UTF-8; 50,
 * where it is no query; 30 to 36, where it asks for no value; 10 with 0, where the records are longer than
 * FM_MOST_RECORDS; 51, where they are no whole number of records.
 */
uint64_t fm_query(const uint8_t *layout, size_t layout_length, const uint8_t *query, size_t query_length,
                  const uint8_t *records, size_t records_length, uint8_t *out, size_t room, struct fm_report *report);

/*
 * Keeps the query that the bytes spell, over records of the layout, behind the handle, which is one of {0} or one that was
 * freed; what a handle kept isn't freed. So a query that is asked often isn't read anew each time. `length` is 0.
 * Refused, in this order: as fm_layout; 25 or 22, where no records are of the layout; 60, where the query isn't UTF-8; 50,
 * where it is no query; 30 to 36, where it asks for no value. A refused call leaves the handle as it was.
 */
uint64_t fm_query_make(const uint8_t *layout, size_t layout_length, const uint8_t *query, size_t query_length,
                       struct fm_handle *handle, struct fm_report *report);

/*
 * Puts the text of what the kept query answers over records, as fm_query. Refused, in this order: 10 and 51, as fm_query.
 * The handle is one that was made and hasn't been freed since; else it is the caller's fault, and anything may happen.
 */
uint64_t fm_query_ask(struct fm_handle *handle, const uint8_t *records, size_t records_length, uint8_t *out, size_t room,
                      struct fm_report *report);

/*
 * Frees the kept query; the answer is 0. From here on the handle keeps none, and may be made again. A handle that is freed
 * twice, or was never made, is the caller's fault, and so is one that is used through a copy after it was freed.
 */
uint64_t fm_query_free(struct fm_handle *handle);

/*
 * Puts the numbers that the query's items find in records, as fm_query: for each item, in their order, first its form,
 * an enum fm_item, then how many numbers it has, and then these. A count has one, in 64 bits; a sum two, the low 64 bits and
 * then the high ones of a number of 128; a least or greatest one, or none where it is of no values; a list all of them.
 * `length` is how many numbers the whole has. Refused: as fm_query.
 */
uint64_t fm_numbers(const uint8_t *layout, size_t layout_length, const uint8_t *query, size_t query_length,
                    const uint8_t *records, size_t records_length, int64_t *out, size_t room, struct fm_report *report);

/*
 * Puts each number that comes among the values of the path in records of the layout, and how often, in rising order of the
 * numbers, as `fmem group` prints them, but that it prints their total behind them, and refuses more than 1,048,576 values:
 * here the records' own limit is the only one. The records aren't copied; at least 16 bytes a value are taken while the call
 * lasts.
 * Refused, in this order: as fm_layout; 25 or 22, where no records are of the layout; 60, where the path isn't UTF-8; 50,
 * where it is no path; 30 to 36, where it leads to no value; then 10 and 51 as fm_query.
 */
uint64_t fm_groups(const uint8_t *layout, size_t layout_length, const uint8_t *path, size_t path_length,
                   const uint8_t *records, size_t records_length, struct fm_counted *out, size_t room,
                   struct fm_report *report);

/*
 * Puts a line for each record of the layout, as `fmem texts` prints it: the text in the bytes to which the path leads, up to
 * the first that is 0, in hex behind `text`; or `refused` and its numbers, where no byte is 0 or the text isn't UTF-8.
 * Refused, in this order: as fm_layout; 25 or 22, where no records are of the layout; 60, where the path isn't UTF-8; 50,
 * where it is no path; 30 to 34, where a step can't be taken; 6, where it doesn't end at a sequence of bytes; then 10 and 51
 * as fm_query. The records aren't copied.
 */
uint64_t fm_texts(const uint8_t *layout, size_t layout_length, const uint8_t *path, size_t path_length,
                  const uint8_t *records, size_t records_length, uint8_t *out, size_t room, struct fm_report *report);

/* Puts the text of the refusal that a report tells, as the program prints it: its number and then its arguments. */
uint64_t fm_refusal(const struct fm_report *told, uint8_t *out, size_t room, struct fm_report *report);

#ifdef __cplusplus
}
#endif

#endif
