/*
 * A first heap from C: it places an object, asks how long the heap's page is, writes it, reads the page back, compares the heap with one that holds the same under another slot number, takes the object out again, runs a
 * script of calls, and lays out a record.
 *
 *     cc -std=c11 -Wall -Wextra -I host/include host/c/page.c target/staticlib/libyexwalu.a -o target/c-page
 *
 * at the top of the repository, after `host/archive`. It prints the page and ends with status 0; 1 if any answer is not the one expected.
 */
#include <stdio.h>
#include <string.h>
#include "yexwalu.h"

#define SLOTS 64
#define POOL 4096
#define TEXT (256 + 96 * SLOTS + 2 * POOL)

static uint32_t narrow[YEXWALU_NARROW_RUNS * SLOTS];
static uint64_t wide[YEXWALU_WIDE_RUNS * SLOTS], work[SLOTS];
static uint8_t pool[POOL], marks[SLOTS], text[TEXT], object[POOL], room[POOL];

static const yexwalu_memory memory = {SLOTS, POOL, narrow, wide, pool, marks, work};

/* memory for a second heap */
static uint32_t other_narrow[YEXWALU_NARROW_RUNS * SLOTS];
static uint64_t other_wide[YEXWALU_WIDE_RUNS * SLOTS], other_work[SLOTS];
static uint8_t other_pool[POOL], other_marks[SLOTS];

static const yexwalu_memory beside = {SLOTS, POOL, other_narrow, other_wide, other_pool, other_marks, other_work};

/* a type table without types: pointers are not null though the lengths are 0 */
static const uint64_t none_64[1] = {0};
static const uint32_t none_32[1] = {0};
static const uint8_t none_8[1] = {0};
#define NO_TYPES none_64, 0, none_32, 0, none_64, 0, none_8, 0

/* a type table: an Int from 0 to 7, an Access, and a Record of both */
static const uint64_t types[] = {
    YEXWALU_CLASS_INT, 0, 7, 0,
    YEXWALU_CLASS_ACCESS, 0, 0, 0,
    YEXWALU_CLASS_RECORD, 0, 2, 0
};
static const uint32_t fields[] = {0, YEXWALU_NO_CONSTANT, 1, YEXWALU_NO_CONSTANT};

static int failed(const char *call, yexwalu_answer a) {
    fprintf(stderr, "%s: %llu\n", call, (unsigned long long)a.number);
    return 1;
}

int main(void) {
    yexwalu_done made = yexwalu_new(1, YEXWALU_LISTS(memory), YEXWALU_MARKS(memory));
    if (made.answer.number != YEXWALU_OK) return failed("new", made.answer);

    static const uint8_t bytes[2] = {'A', 'B'};
    yexwalu_done placed = yexwalu_alloc_from(made.heap, YEXWALU_LISTS(memory), YEXWALU_BYTES, 0, 0, bytes, sizeof bytes, YEXWALU_MARKS(memory));
    if (placed.answer.number != YEXWALU_OK || placed.answer.first != 72057594037927937u) return failed("alloc_from", placed.answer);
    uint64_t handle = placed.answer.first;

    yexwalu_answer length = yexwalu_page_length(placed.heap, YEXWALU_LISTS(memory), false, YEXWALU_MARKS(memory));
    if (length.number != YEXWALU_OK || length.first > sizeof text) return failed("page_length", length);
    yexwalu_answer page = yexwalu_write_page(placed.heap, YEXWALU_LISTS(memory), false, text, length.first, YEXWALU_MARKS(memory));
    if (page.number != YEXWALU_OK || page.first != length.first) return failed("write_page", page);
    fwrite(text, 1, page.first, stdout);

    yexwalu_done read = yexwalu_read_page(placed.heap, YEXWALU_LISTS(memory), text, page.first, YEXWALU_MARKS(memory));
    if (read.answer.number != YEXWALU_OK || read.answer.first != 64 || read.answer.second != 1) return failed("read_page", read.answer);

    /* the same object in slot 1 of another heap, of another tag; then with another byte */
    yexwalu_done first = yexwalu_new(2, YEXWALU_LISTS(beside), YEXWALU_MARKS(beside));
    if (first.answer.number != YEXWALU_OK) return failed("new", first.answer);
    yexwalu_done filler = yexwalu_alloc(first.heap, YEXWALU_LISTS(beside), YEXWALU_BYTES, 0, bytes, 1, YEXWALU_MARKS(beside));
    if (filler.answer.number != YEXWALU_OK) return failed("alloc", filler.answer);
    yexwalu_done again = yexwalu_alloc(filler.heap, YEXWALU_LISTS(beside), YEXWALU_BYTES, 0, bytes, sizeof bytes, YEXWALU_MARKS(beside));
    if (again.answer.number != YEXWALU_OK) return failed("alloc", again.answer);
    uint64_t other = again.answer.first;
    yexwalu_answer same = yexwalu_same(NO_TYPES, read.heap, YEXWALU_LISTS(memory), again.heap, YEXWALU_LISTS(beside), &handle, 1, &other, 1, YEXWALU_MARKS(memory), YEXWALU_MARKS(beside));
    if (same.number != YEXWALU_OK || same.first != 1) return failed("same", same);
    yexwalu_answer written = yexwalu_write(again.heap, YEXWALU_LISTS(beside), 1, 0, (const uint8_t *)"B", 1, YEXWALU_MARKS(beside));
    if (written.number != YEXWALU_OK) return failed("write", written);
    yexwalu_answer order = yexwalu_order(NO_TYPES, read.heap, YEXWALU_LISTS(memory), again.heap, YEXWALU_LISTS(beside), &handle, 1, &other, 1, YEXWALU_MARKS(memory), YEXWALU_MARKS(beside));
    if (order.number != YEXWALU_OK || order.first != YEXWALU_LESS) return failed("order", order);

    yexwalu_done taken = yexwalu_take(read.heap, YEXWALU_LISTS(memory), handle, object, sizeof object, YEXWALU_MARKS(memory));
    if (taken.answer.number != YEXWALU_OK || taken.answer.first != 2 || memcmp(object, bytes, 2) != 0) return failed("take", taken.answer);

    yexwalu_answer gone = yexwalu_resolve(taken.heap, YEXWALU_LISTS(memory), handle, YEXWALU_MARKS(memory));
    if (gone.number != YEXWALU_STALE) return failed("resolve", gone);

    yexwalu_answer never = yexwalu_resolve(taken.heap, YEXWALU_LISTS(memory), handle + (UINT64_C(1) << 32), YEXWALU_MARKS(memory));
    if (never.number != YEXWALU_NEVER_ISSUED) return failed("resolve", never);

    static const char script[] = "recycle,0,0,\nalloc,0,2,4344\nseal,0,0,\n";
    yexwalu_done ran = yexwalu_run(taken.heap, YEXWALU_LISTS(memory), (const uint8_t *)script, sizeof script - 1, room, sizeof room, YEXWALU_MARKS(memory));
    if (ran.answer.number != YEXWALU_OK || ran.heap.sealed != 1 || memcmp(pool, "CD", 2) != 0) return failed("run", ran.answer);

    uint64_t offsets[2];
    yexwalu_layout_answer laid = yexwalu_layout(types, 12, fields, 4, none_64, 0, none_8, 0, 2, none_8, 0, offsets, 2);
    yexwalu_answer told = {laid.number, 0, 0};
    if (told.number != YEXWALU_OK || laid.size != 16 || laid.offsets != 2 || offsets[0] != 0 || offsets[1] != 8) return failed("layout", told);
    return 0;
}
