/* Musqerpi: mask shapes and their 3x3 stage plans, by the C ABI of x86-64.
 *
 * Lists are of 32-bit words; the top four bits of a word are its kind, and bits that its kind doesn't name are 0.
 *   kind 1, anchor: bits 0-3 ax, bits 4-7 ay
 *   kind 2, row:    bits 16-19 y, bits 0-15 columns (bit i is x = i)
 *   kind 3, head:   bits 0-7 the number n of stages
 *   kind 4, place:  bits 0-7 dx + 15, bits 8-15 dy + 15
 *   kind 5, stage:  bits 0-8 a mask; cell (i, j) is bit 3j + i
 * A shape list is one anchor and then its non-empty rows, y rising (2 to 17 words). A plan list is head, place and n
 * stages, masks never falling (2 to 32 words).
 *
 * Answers. Each call answers 0 or more, as is said there, or -N, where N is the ground on which it refuses (enum
 * musq_ground); musq_part and musq_normal_position refuse nothing. Grounds are tried in the order in which they stand at
 * each call, each over all that is given before the next, and the first that holds is the answer. A refusal changes
 * nothing. What is lent for reading (const) is never changed.
 *
 * Pointers. Each list, frame and image is a pointer and the number of its words or bytes. Where that number is 0 the
 * pointer may be null, in every call, and the call answers as for any empty list, frame or image. Else the pointer is
 * not null, all the words or bytes are there, and one to words is aligned for uint32_t. What a call writes must not
 * overlap anything else that it is given, not in a single byte: no call works in place. No ground tells of it, and
 * nothing is said of what a call does then. What a call only reads may overlap, or be the same.
 *
 * Threads. Nothing is kept from one call to the next, and no call allocates. Calls may run on several threads at the
 * same time, as long as none writes what another reads or writes.
 *
 * The archive is for x86-64 alone (ELF, as on Linux), compiled for no more than SSE2. Of the C library it needs memcpy,
 * memmove and memset.
 */
#ifndef MUSQERPI_H
#define MUSQERPI_H

#include <stddef.h>
#include <stdint.h>

#ifdef __cplusplus
extern "C" {
#endif

/* The grounds for refusal. They are tried in the order of their numbers, but for 15, which comes before 13. */
enum musq_ground {
    MUSQ_LIST_LENGTH = 1,    /* a list is too short or too long: a shape has 2 to 17 words, a plan 2 to 32 */
    MUSQ_WORD_KIND = 2,      /* a word's kind isn't the one its place calls for */
    MUSQ_EXTRA_BIT = 3,      /* a bit that its kind doesn't name is set */
    MUSQ_ROW_ORDER = 4,      /* a row has no column, or its y isn't above the row before */
    MUSQ_STAGE_COUNT = 5,    /* the head's count isn't the number of words less 2 */
    MUSQ_PLACE_FIELD = 6,    /* a place field is above 30 */
    MUSQ_STAGE_MASK = 7,     /* a mask has no cell with i = 0 or none with j = 0, has fewer than two cells, or is below
                                the mask before */
    MUSQ_OUT_OF_RANGE = 8,   /* the points of a plan or of the new shape have w or h above 15, or an x or y below -15 or
                                above 15 */
    MUSQ_OUTPUT_LENGTH = 9,  /* the output has fewer than 32 words for a plan, 17 for a shape */
    MUSQ_NO_CHAIN = 10,      /* no chain exists */
    MUSQ_FRAME_SIZE = 11,    /* W or H isn't 1 to 240 */
    MUSQ_FRAME_LENGTH = 12,  /* the frame's length isn't W x H */
    MUSQ_CELL_VALUE = 13,    /* a cell is above 2 */
    MUSQ_IMAGE_LENGTH = 14,  /* a work image has fewer than (W + 15) x (H + 15) bytes */
    MUSQ_ROW_LENGTH = 15,    /* the arriving row's length isn't W */
    MUSQ_NONE_MEASURED = 16  /* the frame has no measured cell */
};

/* The five calls on lists write a list to the start of out and answer its length in words; the words of out past it
 * are as they were. out must not overlap a list that is read; a and b may be the same list. out has 32 words or more
 * for a plan and 17 or more for a shape, however short the list. A shape is written with the least anchor: ax is 0, or
 * -x of its least x where that is below 0; ay likewise. */

/* Plans a shape: writes the plan with the fewest stages whose sum, moved by its offset, is exactly the shape's points;
 * of several such, the one whose masks, compared in order, are smallest at the first difference. Answers 2 to 32.
 * Grounds: 1, 2, 3, 4, 9, 10. Ground 10 says that no list of subsets of the 3x3 square, of any length and with any
 * offset, sums to the shape.
 * The search always ends, but has no limit of its own. Every shape of the benchmark was answered in a tenth of a second
 * at most: 75 hard shapes, and 6,415 shapes of its families, whose medians are below a tenth of a millisecond
 * (bench/README.md). */
int64_t musq_plan(const uint32_t *shape, size_t n, uint32_t *out, size_t out_n);

/* Turns a plan back into a shape: its points are the plan's offset added to the sum of its stages (one point if there
 * are none). Writes the shape's list with the least anchor and answers 2 to 17.
 * Grounds: 1, 2, 3, 5, 6, 7, 8, 9. */
int64_t musq_shape_of_plan(const uint32_t *plan, size_t n, uint32_t *out, size_t out_n);

/* The normal position of a mask, of which cell (i, j) is bit 3j + i: shifted down by rows until row 0 has a cell, then by
 * columns until column 0 has one; 0 for 0. Bits above the ninth are not read, so that the answer is always below 512.
 * Refuses nothing. */
uint16_t musq_normal_position(uint16_t mask);

/* Moves a shape: adds dx to the x and dy to the y of each of its points. Any dx and dy may be given; there is no
 * overflow. Writes the new shape's list with the least anchor and answers 2 to 17.
 * Grounds: 1, 2, 3, 4, 8, 9. */
int64_t musq_move(const uint32_t *shape, size_t n, int32_t dx, int32_t dy, uint32_t *out, size_t out_n);

/* Joins two shapes: the union of their points, each taken from its own anchor. Writes the new shape's list with the
 * least anchor and answers 2 to 17.
 * Grounds: 1, 2, 3, 4 (each over both lists before the next), 8, 9. */
int64_t musq_join(const uint32_t *a, size_t an, const uint32_t *b, size_t bn, uint32_t *out, size_t out_n);

/* Sums two shapes: all sums of a point of a and a point of b. Writes the new shape's list with the least anchor and
 * answers 2 to 17.
 * Grounds: 1, 2, 3, 4 (each over both lists before the next), 8, 9. */
int64_t musq_sum(const uint32_t *a, size_t an, const uint32_t *b, size_t bn, uint32_t *out, size_t out_n);

/* Frames: W columns and H rows, each 1 to 240, one byte a cell, row 0 first: 0 free, 1 occupied, 2 not measured. A grid
 * is the first (W + 15) x (H + 15) bytes of a work image, row by row, of the same three values. Bytes of an image past its
 * grid are never changed.
 *
 * What cells give. Dilation gives 1 if some covered cell is 1, else 2 if some is 2, else 0; erosion gives 0 if some
 * covered cell is 0, else 2 if some is 2, else 1. The cells covered at a point p are those at p - a for dilation and at
 * p + a for erosion, for each point a of the plan, or of the stage.
 *
 * There are two kinds of grid, by what is around the frame in it and outside it. A call that takes a kind takes a byte:
 * 0 is the first kind, anything else the second (enum musq_around).
 *   MUSQ_AROUND_FREE:     x and y count from 0; the rest of the grid is put as 0, and cells outside it are free
 *   MUSQ_AROUND_OCCUPIED: x and y count from -15, so the byte (y + 15) * (W + 15) + x + 15 is the cell (x, y), x from -15
 *                         to W - 1, y from -15 to H - 1; the rest of the grid is put as 1, and cells outside it are
 *                         occupied
 * No byte of an image tells of which kind its grid is: every call on one grid is given the same kind. Erosion works in
 * the second kind; dilation, opening and closing in the first. */
enum musq_around { MUSQ_AROUND_FREE = 0, MUSQ_AROUND_OCCUPIED = 1 };

/* The load: answers the number of occupied cells, those that are 1, and writes nothing.
 * Grounds: 11, 12, 13. */
int64_t musq_load(size_t w, size_t h, const uint8_t *frame, size_t frame_n);

/* The load in ten-thousandths of the measured cells: answers the quotient, 0 to 10,000, and sets *remainder, so that
 *     quotient * m + remainder = 10,000 * occupied cells
 * with the remainder below m, the number of cells that aren't 2. The two together are the plain count again, so shares
 * of several frames add up: add quotient * m + remainder of each. A refusal leaves *remainder as it is. remainder is not
 * null, is aligned for uint32_t, and must not overlap the frame.
 * Grounds: 11, 12, 13, 16. */
int64_t musq_share(size_t w, size_t h, const uint8_t *frame, size_t frame_n, uint32_t *remainder);

/* Puts a frame into the grid of an image, of the kind that around says, and answers 0. image must not overlap frame.
 * Grounds: 11, 12, 13, 14. */
int64_t musq_put(size_t w, size_t h, const uint8_t *frame, size_t frame_n, uint8_t around, uint8_t *image, size_t image_n);

/* Takes the grid of the image from through the single stage of a stage word into the grid of the image to, cut to the
 * grid; both are of the kind that around says. By dilation if erode is 0, by erosion if it is anything else. Answers 0.
 * to must not overlap from: there is no stage in place.
 * Grounds: 2, 3, 7, 11, 13 (over the grid read, as far as its image goes), 14 (over both images). */
int64_t musq_stage(uint32_t word, uint8_t erode, uint8_t around, size_t w, size_t h, const uint8_t *from, size_t from_n,
                   uint8_t *to, size_t to_n);

/* The four operations, by the points of the plan: its offset added to the sum of its stages. Cells outside the frame are
 * occupied for erosion, so that a carrier that runs off the edge stays there, and free for dilation, and for opening and
 * closing in both their halves.
 *   musq_dilate: at each point of the plane what dilation gives of the cells that it covers
 *   musq_erode:  what erosion gives
 *   musq_open:   erosion, and then dilation of what that gives
 *   musq_close:  dilation, and then erosion of what that gives
 * Nothing is cut off before the end. Where no cell is 2 dilation is all sums of a point of X and a point of A, and erosion
 * the points p for which p + a lies in X for every a of A, X being the points whose cells are occupied and A the plan's.
 * first and second are two work images, each of (W + 15) x (H + 15) bytes or more, whatever they hold. They must not
 * overlap each other, nor the plan, nor the frame. Each call answers the number of stages that it ran: n for dilation and
 * erosion, 2n for opening and closing, 0 included. The result is then had from musq_part; other bytes of the two grids
 * may be anything.
 * Grounds: 1, 2, 3, 5, 6, 7, 8, 11, 12, 13, 14 (over both images). */
int64_t musq_dilate(const uint32_t *plan, size_t n, size_t w, size_t h, const uint8_t *frame, size_t frame_n, uint8_t *first,
                    size_t first_n, uint8_t *second, size_t second_n);
int64_t musq_erode(const uint32_t *plan, size_t n, size_t w, size_t h, const uint8_t *frame, size_t frame_n, uint8_t *first,
                   size_t first_n, uint8_t *second, size_t second_n);
int64_t musq_open(const uint32_t *plan, size_t n, size_t w, size_t h, const uint8_t *frame, size_t frame_n, uint8_t *first,
                  size_t first_n, uint8_t *second, size_t second_n);
int64_t musq_close(const uint32_t *plan, size_t n, size_t w, size_t h, const uint8_t *frame, size_t frame_n, uint8_t *first,
                   size_t first_n, uint8_t *second, size_t second_n);

/* The part of a work image that is an operation's result, W x H bytes, row 0 first. It is given what the operation
 * answered, the same W and H, and both images as they were left. The part stands at the start of the second image if the
 * number is even, of the first if it is odd; *image is set to 2 or 1 to say which. Answers the part's length in bytes,
 * W x H. The part is empty, and the answer 0, if W or H isn't 1 to 240 or that image has fewer than W x H bytes; *image
 * is set all the same. Given a refusal, or any other negative number, the part is empty too: the answer is 0 and *image
 * is set to 0, so that an answer may be passed on unchecked. Refuses nothing, and changes nothing but *image, which is
 * not null and must not overlap the images. The cell (x, y) of the result is part[y * w + x] of
 *     const uint8_t *part = image == 1 ? first : second;
 */
int64_t musq_part(int64_t stages, size_t w, size_t h, const uint8_t *first, size_t first_n, const uint8_t *second,
                  size_t second_n, uint8_t *image);

/* A rolling waterfall: a row of W cells arrives in the frame live, and the frame kept beside it, which is the dilation of
 * live by the plan's points, is brought up to date. live has its rows 1 to H - 1 afterwards, and then the row. With Y the
 * greatest |y| of the plan's points, its offset included: row r of kept is its row r + 1 of before where r > Y and
 * H - 1 - r > Y, and every other row is worked out from live as it is then. So from two frames of free cells on, if
 * nobody else writes them and every row arrives with the same plan, W and H, kept is what musq_dilate gives of live after
 * every call, refused ones among them. A kept frame that was wrong has its rows near both ends right, and the others
 * moved. There is no work image. live and kept must not overlap each other, nor the plan, nor the row. Answers 0.
 * Grounds: 1, 2, 3, 5, 6, 7, 8, 11, 12 (over live and kept), 15, 13 (over live, kept and the row). */
int64_t musq_arrive(const uint32_t *plan, size_t n, size_t w, size_t h, const uint8_t *row, size_t row_n, uint8_t *live,
                    size_t live_n, uint8_t *kept, size_t kept_n);

#ifdef __cplusplus
}
#endif

#endif
