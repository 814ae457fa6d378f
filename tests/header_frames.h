/* What header.c checks frames and images with, and load, share, putting and the single stage against the archive. */
#ifndef HEADER_FRAMES_H
#define HEADER_FRAMES_H

#include "header_lists.h"

/* ---- frames: one row of three columns, 1 0 1, in grids of 18 columns and 16 rows, with a byte past each */

enum { GRID = 288, IMAGE = 289 };

static const uint8_t frame[] = {1, 0, 1};
static uint8_t first[IMAGE], second[IMAGE];

static void dirty(void)
{
    memset(first, 0xa5, sizeof first);
    memset(second, 0xa5, sizeof second);
}

/* The answer n is the one expected, and neither image has changed. */
static void expect_none(const char *call, int64_t n, int64_t answer)
{
    uint8_t as_before[IMAGE];
    memset(as_before, 0xa5, sizeof as_before);
    check(call, n == answer && memcmp(first, as_before, IMAGE) == 0 && memcmp(second, as_before, IMAGE) == 0);
}

/* What stands where no remainder was written. */
static const uint32_t untouched = 0xa5a5a5a5;
static uint32_t share[3] = {0xa5a5a5a5, 0xa5a5a5a5, 0xa5a5a5a5};

/* The answer n and the remainder are those expected, and nothing beside it has changed; it is made as it was again. */
static void expect_share(const char *call, int64_t n, int64_t answer, uint32_t remainder)
{
    check(call, n == answer && share[0] == untouched && share[1] == remainder && share[2] == untouched);
    share[1] = untouched;
}

/* The answer n is 0, and the grid has these five cells and then free ones; the byte past it is as it was. */
static void expect_grid(const char *call, int64_t n, const uint8_t *image, const uint8_t *cells)
{
    uint8_t all[IMAGE] = {0};
    memcpy(all, cells, 5);
    all[GRID] = 0xa5;
    check(call, n == 0 && memcmp(image, all, IMAGE) == 0);
}

/* The same of the second kind of grid: its last five cells are these, columns -2 to 2 of row 0, and the others occupied. */
static void expect_second(const char *call, int64_t n, const uint8_t *image, const uint8_t *cells)
{
    uint8_t all[IMAGE];
    memset(all, 1, sizeof all);
    memcpy(all + GRID - 5, cells, 5);
    all[GRID] = 0xa5;
    check(call, n == 0 && memcmp(image, all, IMAGE) == 0);
}

static void masks(void)
{
    check("musq_normal_position, none", musq_normal_position(0) == 0);
    check("musq_normal_position, as it is", musq_normal_position(511) == 511);
    check("musq_normal_position, two rows", musq_normal_position(0x1c0) == 7);
    check("musq_normal_position, a column", musq_normal_position(0x124) == 0x49);
    check("musq_normal_position, a slant", musq_normal_position(80) == 10);
    check("musq_normal_position, nine bits", musq_normal_position(0xfe50) == 10);
}

static void frames(void)
{
    static const uint8_t put[] = {1, 0, 1, 0, 0};
    static const uint8_t dilated[] = {1, 1, 1, 1, 0};
    static const uint8_t eroded[] = {1, 1, 1, 0, 0};
    static const uint8_t erode[] = {1, 2, 128, 255};
    const uint32_t word = 0x50000003;
    size_t i;

    dirty();
    expect_none("musq_load", musq_load(3, 1, frame, 3), 2);
    expect_none("musq_load, 241", musq_load(241, 1, frame, 3), -MUSQ_FRAME_SIZE);
    expect_none("musq_load, no frame", musq_load(3, 1, NULL, 0), -MUSQ_FRAME_LENGTH);
    expect_none("musq_load, no frame of 0", musq_load(0, 0, NULL, 0), -MUSQ_FRAME_SIZE);
    expect_share("musq_share", musq_share(3, 1, frame, 3, &share[1]), 6666, 2);
    expect_share("musq_share, a cell of 165", musq_share(3, 1, first, 3, &share[1]), -MUSQ_CELL_VALUE, untouched);
    expect_share("musq_share, 0", musq_share(3, 0, frame, 3, &share[1]), -MUSQ_FRAME_SIZE, untouched);
    expect_share("musq_share, no frame", musq_share(3, 1, NULL, 0, &share[1]), -MUSQ_FRAME_LENGTH, untouched);
    expect_none("musq_put, short", musq_put(3, 1, frame, 3, MUSQ_AROUND_FREE, first, GRID - 1), -MUSQ_IMAGE_LENGTH);
    expect_none("musq_put, no frame", musq_put(3, 1, NULL, 0, MUSQ_AROUND_FREE, first, IMAGE), -MUSQ_FRAME_LENGTH);
    expect_none("musq_put, no image", musq_put(3, 1, frame, 3, MUSQ_AROUND_FREE, NULL, 0), -MUSQ_IMAGE_LENGTH);
    expect_grid("musq_put", musq_put(3, 1, frame, 3, MUSQ_AROUND_FREE, first, IMAGE), first, put);
    expect_grid("musq_stage, dilation", musq_stage(word, 0, MUSQ_AROUND_FREE, 3, 1, first, IMAGE, second, IMAGE), second, dilated);
    expect_grid("musq_stage, dilation, what was read", 0, first, put);
    for (i = 0; i < sizeof erode; i++) {
        memset(first, 0xa5, sizeof first);
        expect_grid("musq_stage, erosion", musq_stage(word, erode[i], MUSQ_AROUND_FREE, 3, 1, second, IMAGE, first, IMAGE), first, eroded);
    }
    expect_grid("musq_stage, erosion, what was read", 0, second, dilated);

    memset(first, 0, sizeof first);
    memset(second, 0xa5, sizeof second);
    check("musq_stage, one cell", musq_stage(0x50000001, 0, MUSQ_AROUND_FREE, 3, 1, first, IMAGE, second, IMAGE) == -MUSQ_STAGE_MASK && second[0] == 0xa5);
    check("musq_stage, no image read", musq_stage(word, 0, MUSQ_AROUND_FREE, 3, 1, NULL, 0, second, IMAGE) == -MUSQ_IMAGE_LENGTH && second[0] == 0xa5);
    check("musq_stage, none written", musq_stage(word, 1, MUSQ_AROUND_FREE, 3, 1, first, IMAGE, NULL, 0) == -MUSQ_IMAGE_LENGTH);
}

/* The second kind of grid, by each byte that says so. */
static void second_kind(void)
{
    static const uint8_t put[] = {1, 1, 1, 0, 1};
    static const uint8_t eroded[] = {1, 1, 0, 0, 1};
    static const uint8_t longer[] = {0, 0, 0, 0, 1}; /* by columns 0 to 2, twice eroded */
    static const uint8_t around[] = {MUSQ_AROUND_OCCUPIED, 2, 128, 255};
    const uint32_t two = 0x50000003, three = 0x50000007;
    size_t i;

    dirty();
    expect_none("musq_put, second, short", musq_put(3, 1, frame, 3, MUSQ_AROUND_OCCUPIED, first, GRID - 1), -MUSQ_IMAGE_LENGTH);
    expect_none("musq_put, second, no frame", musq_put(3, 1, NULL, 0, MUSQ_AROUND_OCCUPIED, first, IMAGE), -MUSQ_FRAME_LENGTH);
    expect_none("musq_put, second, no image", musq_put(3, 1, frame, 3, MUSQ_AROUND_OCCUPIED, NULL, 0), -MUSQ_IMAGE_LENGTH);
    for (i = 0; i < sizeof around; i++) {
        dirty();
        expect_second("musq_put, second", musq_put(3, 1, frame, 3, around[i], first, IMAGE), first, put);
        expect_second("musq_stage, second, erosion", musq_stage(two, 1, around[i], 3, 1, first, IMAGE, second, IMAGE), second, eroded);
        expect_second("musq_stage, second, erosion, what was read", 0, first, put);
        expect_second("musq_stage, second, erosion again", musq_stage(three, 255, around[i], 3, 1, second, IMAGE, first, IMAGE), first, longer);
        memset(second, 0xa5, sizeof second);
        expect_second("musq_stage, second, dilation", musq_stage(three, 0, around[i], 3, 1, first, IMAGE, second, IMAGE), second, eroded);
        expect_second("musq_stage, second, dilation, what was read", 0, first, longer);
    }
    check("musq_stage, second, no image read", musq_stage(two, 0, 1, 3, 1, NULL, 0, second, IMAGE) == -MUSQ_IMAGE_LENGTH);
    check("musq_stage, second, none written", musq_stage(two, 1, 1, 3, 1, first, IMAGE, NULL, 0) == -MUSQ_IMAGE_LENGTH);
}

/* Cells that weren't measured, in the load, its share and both calls on grids. */
static void unmeasured(void)
{
    static const uint8_t holes[] = {1, 2, 0}, none[] = {2, 2, 2}, worse[] = {2, 3, 2};
    static const uint8_t put[] = {1, 2, 0, 0, 0}, dilated[] = {1, 1, 2, 0, 0};
    const uint32_t word = 0x50000003;

    dirty();
    expect_none("musq_load, a cell of 2", musq_load(3, 1, holes, 3), 1);
    expect_none("musq_load, none measured", musq_load(3, 1, none, 3), 0);
    expect_none("musq_load, a cell of 3", musq_load(3, 1, worse, 3), -MUSQ_CELL_VALUE);
    expect_share("musq_share, a cell of 2", musq_share(3, 1, holes, 3, &share[1]), 5000, 0);
    expect_share("musq_share, none measured", musq_share(3, 1, none, 3, &share[1]), -MUSQ_NONE_MEASURED, untouched);
    expect_share("musq_share, a cell of 3", musq_share(3, 1, worse, 3, &share[1]), -MUSQ_CELL_VALUE, untouched);
    expect_none("musq_put, a cell of 3", musq_put(3, 1, worse, 3, MUSQ_AROUND_FREE, first, IMAGE), -MUSQ_CELL_VALUE);
    expect_grid("musq_put, a cell of 2", musq_put(3, 1, holes, 3, MUSQ_AROUND_FREE, first, IMAGE), first, put);
    expect_grid("musq_stage, 2 dilated", musq_stage(word, 0, MUSQ_AROUND_FREE, 3, 1, first, IMAGE, second, IMAGE), second, dilated);
    memset(first, 0xa5, sizeof first);
    expect_grid("musq_stage, 2 eroded", musq_stage(word, 1, MUSQ_AROUND_FREE, 3, 1, second, IMAGE, first, IMAGE), first, put);
}

#endif
