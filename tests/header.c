/* The header against the archive, from C and from C++: answers and refusals of each call by documents 01 and 02, a null pointer of length 0 in every
 * place, and a refusal given to the part. Exits with 0 if all are right. */
#include "header_frames.h"
#include "header_lists.h"

/* ---- operations: columns 0 to 2, and the point (1, 0), a plan without a stage */

static const uint32_t columns[] = {0x30000001, 0x40000f0f, 0x50000007};
static const uint32_t point[] = {0x30000000, 0x40000f10};

typedef int64_t operation(const uint32_t *, size_t, size_t, size_t, const uint8_t *, size_t, uint8_t *, size_t, uint8_t *, size_t);

/* The operation on these three columns runs so many stages, and the part is the three cells expected. */
static void expect_part(const char *call, operation *run, const uint32_t *words, size_t n, const uint8_t *cells, int64_t stages, const uint8_t *expected)
{
    uint8_t image = 0xa5;
    int64_t answer, length;
    const uint8_t *part;

    dirty();
    answer = run(words, n, 3, 1, cells, 3, first, IMAGE, second, IMAGE);
    length = musq_part(answer, 3, 1, first, IMAGE, second, IMAGE, &image);
    part = image == 1 ? first : second;
    check(call, answer == stages && length == 3 && image == (stages % 2 == 1 ? 1 : 2) && memcmp(part, expected, 3) == 0);
    check(call, first[GRID] == 0xa5 && second[GRID] == 0xa5);
}

/* The answer is this refusal, nothing has changed, and it gives an empty part: length 0, image 0, and nothing else changes. */
static void expect_refusal(const char *call, int64_t answer, int64_t ground)
{
    uint8_t image[3] = {0xa5, 0xa5, 0xa5};

    expect_none(call, answer, -ground);
    expect_none(call, musq_part(answer, 3, 1, first, IMAGE, second, IMAGE, &image[1]), 0);
    check(call, image[0] == 0xa5 && image[1] == 0 && image[2] == 0xa5);
}

/* What each of the four refuses, with a null pointer for each list, frame and image in turn. */
static void refusals(const char *call, operation *run)
{
    dirty();
    expect_refusal(call, run(columns, 2, 3, 1, frame, 3, first, IMAGE, second, IMAGE), MUSQ_STAGE_COUNT);
    expect_refusal(call, run(columns, 3, 3, 241, frame, 3, first, IMAGE, second, IMAGE), MUSQ_FRAME_SIZE);
    expect_refusal(call, run(columns, 3, 2, 1, frame, 3, first, IMAGE, second, IMAGE), MUSQ_FRAME_LENGTH);
    expect_refusal(call, run(columns, 3, 3, 1, frame, 3, first, IMAGE, second, GRID - 1), MUSQ_IMAGE_LENGTH);
    expect_refusal(call, run(NULL, 0, 3, 1, frame, 3, first, IMAGE, second, IMAGE), MUSQ_LIST_LENGTH);
    expect_refusal(call, run(columns, 3, 3, 1, NULL, 0, first, IMAGE, second, IMAGE), MUSQ_FRAME_LENGTH);
    expect_refusal(call, run(columns, 3, 3, 1, frame, 3, NULL, 0, second, IMAGE), MUSQ_IMAGE_LENGTH);
    expect_refusal(call, run(columns, 3, 3, 1, frame, 3, first, IMAGE, NULL, 0), MUSQ_IMAGE_LENGTH);
}

static void operations(void)
{
    static const uint8_t full[] = {1, 1, 1};
    static const uint8_t none[] = {0, 0, 0};
    static const uint8_t two[] = {1, 1, 0};
    static const uint8_t ahead[] = {0, 1, 1};
    static const uint8_t behind[] = {1, 0, 1}; /* what comes in at the end is occupied */
    static const uint8_t last[] = {0, 0, 1};   /* what runs off the end stays */

    refusals("musq_dilate, refused", musq_dilate);
    refusals("musq_erode, refused", musq_erode);
    refusals("musq_open, refused", musq_open);
    refusals("musq_close, refused", musq_close);
    expect_part("musq_dilate", musq_dilate, columns, 3, frame, 1, full);
    expect_part("musq_erode", musq_erode, columns, 3, frame, 1, last);
    expect_part("musq_erode, full", musq_erode, columns, 3, full, 1, full);
    expect_part("musq_open", musq_open, columns, 3, frame, 2, none);
    expect_part("musq_close", musq_close, columns, 3, frame, 2, full);
    expect_part("musq_dilate, a point", musq_dilate, point, 2, two, 0, ahead);
    expect_part("musq_erode, a point", musq_erode, point, 2, two, 0, behind);
    expect_part("musq_open, a point", musq_open, point, 2, two, 0, two);
    expect_part("musq_close, a point", musq_close, point, 2, two, 0, two);
}

/* Dilation gives 1 before 2 before 0, erosion 0 before 2 before 1. */
static void unmeasured_operations(void)
{
    static const uint8_t dilate[] = {2, 0, 1}, dilated[] = {2, 2, 1};
    static const uint8_t erode[] = {0, 1, 2}, eroded[] = {0, 2, 2};
    static const uint8_t open[] = {2, 1, 1}, opened[] = {2, 2, 2};
    static const uint8_t close[] = {1, 0, 2}, closed[] = {1, 2, 2};
    static const uint8_t worse[] = {2, 3, 2};

    expect_part("musq_dilate, a cell of 2", musq_dilate, columns, 3, dilate, 1, dilated);
    expect_part("musq_erode, a cell of 2", musq_erode, columns, 3, erode, 1, eroded);
    expect_part("musq_open, a cell of 2", musq_open, columns, 3, open, 2, opened);
    expect_part("musq_close, a cell of 2", musq_close, columns, 3, close, 2, closed);
    expect_part("musq_dilate, none measured", musq_dilate, columns, 3, opened, 1, opened);
    dirty();
    expect_refusal("musq_dilate, a cell of 3", musq_dilate(columns, 3, 3, 1, worse, 3, first, IMAGE, second, IMAGE), MUSQ_CELL_VALUE);
}

/* The part of three columns for this number and images of these lengths, null where they have none. */
static void expect_length(int64_t stages, size_t first_n, size_t second_n, int64_t length, uint8_t image)
{
    uint8_t set = 0xa5;
    const uint8_t *one = first_n == 0 ? NULL : first;
    const uint8_t *two = second_n == 0 ? NULL : second;

    expect_none("musq_part", musq_part(stages, 3, 1, one, first_n, two, second_n, &set), length);
    check("musq_part, the image", set == image);
}

static void parts(void)
{
    dirty();
    expect_length(1, 3, 0, 3, 1);
    expect_length(2, 0, 3, 3, 2);
    expect_length(3, 2, IMAGE, 0, 1);
    expect_length(4, IMAGE, 2, 0, 2);
    expect_length(1, 0, IMAGE, 0, 1);
    expect_length(0, IMAGE, 0, 0, 2);
    expect_length(0, 0, 0, 0, 2);
    expect_length(INT64_MAX, IMAGE, IMAGE, 3, 1);
    expect_length(-1, IMAGE, IMAGE, 0, 0);
    expect_length(-14, IMAGE, IMAGE, 0, 0);
    expect_length(-14, 0, 0, 0, 0);
    expect_length(INT64_MIN, IMAGE, IMAGE, 0, 0);
}

/* ---- arrivals: the points (0, 0) and (0, 1), and one column of three rows */

static const uint32_t below[] = {0x30000001, 0x40000f0f, 0x50000009};
static uint8_t live[4], kept[4];

/* The answer n is the one expected, and the frames have these cells; the byte past each is as it was. */
static void expect_frames(const char *call, int64_t n, int64_t answer, const uint8_t *rows, const uint8_t *dilated)
{
    check(call, n == answer && memcmp(live, rows, 3) == 0 && memcmp(kept, dilated, 3) == 0 && live[3] == 0xa5 && kept[3] == 0xa5);
}

static int64_t arrive(const uint8_t *row, size_t row_n)
{
    return musq_arrive(below, 3, 1, 3, row, row_n, live, 3, kept, 3);
}

static void arrivals(void)
{
    static const uint8_t none[] = {0, 0, 0}, one[] = {0, 0, 1}, two[] = {0, 1, 1}, next[] = {0, 1, 0};
    static const uint8_t last[] = {1, 0, 2}, hole[] = {1, 1, 2};
    static const uint8_t occupied[] = {1, 3}, empty[] = {0}, unknown[] = {2};

    memset(live, 0, 3);
    memset(kept, 0, 3);
    live[3] = kept[3] = 0xa5;
    expect_frames("musq_arrive, no row", arrive(NULL, 0), -MUSQ_ROW_LENGTH, none, none);
    expect_frames("musq_arrive, two cells", arrive(occupied, 2), -MUSQ_ROW_LENGTH, none, none);
    expect_frames("musq_arrive, a cell of 3", arrive(occupied + 1, 1), -MUSQ_CELL_VALUE, none, none);
    expect_frames("musq_arrive, no plan", musq_arrive(NULL, 0, 1, 3, empty, 1, live, 3, kept, 3), -MUSQ_LIST_LENGTH, none, none);
    expect_frames("musq_arrive, no live frame", musq_arrive(below, 3, 1, 3, empty, 1, NULL, 0, kept, 3), -MUSQ_FRAME_LENGTH, none, none);
    expect_frames("musq_arrive, no kept frame", musq_arrive(below, 3, 1, 3, empty, 1, live, 3, NULL, 0), -MUSQ_FRAME_LENGTH, none, none);
    expect_frames("musq_arrive", arrive(occupied, 1), 0, one, one);
    expect_frames("musq_arrive, the next", arrive(empty, 1), 0, next, two);
    expect_frames("musq_arrive, a cell of 2", arrive(unknown, 1), 0, last, hole);
}

int main(void)
{
    lists();
    masks();
    frames();
    second_kind();
    unmeasured();
    operations();
    unmeasured_operations();
    parts();
    arrivals();
    return wrong != 0;
}
