/* What header.c checks with, and the five calls on lists against the archive. */
#ifndef HEADER_LISTS_H
#define HEADER_LISTS_H

#include <stdio.h>
#include <string.h>

#include "musqerpi.h"

static int wrong;

static void check(const char *call, int right)
{
    if (!right) {
        printf("%s: wrong\n", call);
        wrong++;
    }
}

/* ---- lists */

static const uint32_t row[] = {0x10000000, 0x2000000f};
static const uint32_t back[] = {0x10000001, 0x20000001}; /* the point (-1, 0) */
static const uint32_t plan[] = {0x30000002, 0x40000f0f, 0x50000003, 0x50000005};
static uint32_t out[32];

/* The answer n and the words of out are those expected; the words past the list are as they were, and are made so again. */
static void expect(const char *call, int64_t n, int64_t answer, const uint32_t *words)
{
    uint32_t all[32];
    memset(all, 0xa5, sizeof all);
    if (answer > 0)
        memcpy(all, words, (size_t)answer * sizeof *words);
    check(call, n == answer && memcmp(out, all, sizeof all) == 0);
    memset(out, 0xa5, sizeof out);
}

static void lists(void)
{
    static const uint32_t apart[] = {0x10000000, 0x20000009};
    static const uint32_t two[] = {0x10000000, 0x20000001, 0x20010002}; /* the points (0, 0) and (1, 1) */
    static const uint32_t moved[] = {0x10000010, 0x200001e0};
    static const uint32_t longer[] = {0x10000001, 0x2000001f};
    static const uint32_t taller[] = {0x10000000, 0x2000000f, 0x20010002};
    static const uint32_t moved_back[] = {0x10000001, 0x2000000f};
    static const uint32_t twice[] = {0x10000000, 0x2000000f, 0x2001001e};
    static const uint32_t doubled[] = {0x10000000, 0x2000007f};

    memset(out, 0xa5, sizeof out);
    expect("musq_plan, short", musq_plan(row, 2, out, 31), -MUSQ_OUTPUT_LENGTH, NULL);
    expect("musq_plan, no chain", musq_plan(apart, 2, out, 32), -MUSQ_NO_CHAIN, NULL);
    expect("musq_plan", musq_plan(row, 2, out, 32), 4, plan);
    expect("musq_shape_of_plan, cut", musq_shape_of_plan(plan, 3, out, 17), -MUSQ_STAGE_COUNT, NULL);
    expect("musq_shape_of_plan", musq_shape_of_plan(plan, 4, out, 17), 2, row);
    expect("musq_move, far", musq_move(row, 2, 13, 0, out, 17), -MUSQ_OUT_OF_RANGE, NULL);
    expect("musq_move", musq_move(row, 2, 5, -1, out, 17), 2, moved);
    expect("musq_join, short", musq_join(row, 2, back, 2, out, 16), -MUSQ_OUTPUT_LENGTH, NULL);
    expect("musq_join, a point", musq_join(row, 2, back, 2, out, 17), 2, longer);
    expect("musq_join, two points", musq_join(row, 2, two, 3, out, 17), 3, taller);
    expect("musq_join, one list twice", musq_join(row, 2, row, 2, out, 17), 2, row);
    expect("musq_sum, a plan", musq_sum(row, 2, plan, 4, out, 17), -MUSQ_WORD_KIND, NULL);
    expect("musq_sum, a point", musq_sum(row, 2, back, 2, out, 17), 2, moved_back);
    expect("musq_sum, two points", musq_sum(row, 2, two, 3, out, 17), 3, twice);
    expect("musq_sum, one list twice", musq_sum(row, 2, row, 2, out, 17), 2, doubled);

    expect("musq_plan, no shape", musq_plan(NULL, 0, out, 32), -MUSQ_LIST_LENGTH, NULL);
    expect("musq_plan, no output", musq_plan(row, 2, NULL, 0), -MUSQ_OUTPUT_LENGTH, NULL);
    expect("musq_shape_of_plan, no plan", musq_shape_of_plan(NULL, 0, out, 17), -MUSQ_LIST_LENGTH, NULL);
    expect("musq_shape_of_plan, no output", musq_shape_of_plan(plan, 4, NULL, 0), -MUSQ_OUTPUT_LENGTH, NULL);
    expect("musq_move, no shape", musq_move(NULL, 0, 1, 1, out, 17), -MUSQ_LIST_LENGTH, NULL);
    expect("musq_move, no output", musq_move(row, 2, 1, 1, NULL, 0), -MUSQ_OUTPUT_LENGTH, NULL);
    expect("musq_join, no first", musq_join(NULL, 0, row, 2, out, 17), -MUSQ_LIST_LENGTH, NULL);
    expect("musq_join, no second", musq_join(row, 2, NULL, 0, out, 17), -MUSQ_LIST_LENGTH, NULL);
    expect("musq_join, no output", musq_join(row, 2, back, 2, NULL, 0), -MUSQ_OUTPUT_LENGTH, NULL);
    expect("musq_sum, no first", musq_sum(NULL, 0, row, 2, out, 17), -MUSQ_LIST_LENGTH, NULL);
    expect("musq_sum, no second", musq_sum(row, 2, NULL, 0, out, 17), -MUSQ_LIST_LENGTH, NULL);
    expect("musq_sum, no output", musq_sum(row, 2, back, 2, NULL, 0), -MUSQ_OUTPUT_LENGTH, NULL);
}

#endif
