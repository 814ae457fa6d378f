/* Dilation and erosion by leptonica on images of one bit a cell. */
#include <leptonica/allheaders.h>

/* The version; it is kept for the whole run. */
const char *bench_leptonica_start(void)
{
    return getLeptonicaVersion();
}

/* An image of these cells, and back. */
PIX *bench_leptonica_image(const unsigned char *cells, int w, int h)
{
    PIX *image = pixCreate(w, h, 1);
    for (int y = 0; y < h; y++)
        for (int x = 0; x < w; x++)
            pixSetPixel(image, x, y, cells[y * w + x]);
    return image;
}

void bench_leptonica_cells(PIX *image, unsigned char *cells, int w, int h)
{
    for (int y = 0; y < h; y++)
        for (int x = 0; x < w; x++) {
            l_uint32 value;
            pixGetPixel(image, x, y, &value);
            cells[y * w + x] = (unsigned char)value;
        }
}

/* The cell (i, j) of the kernel stands for the point (i, j). */
SEL *bench_leptonica_sel(const unsigned char *kernel, int kw, int kh)
{
    SEL *sel = selCreate(kh, kw, "kernel");
    selSetOrigin(sel, 0, 0);
    for (int j = 0; j < kh; j++)
        for (int i = 0; i < kw; i++)
            selSetElement(sel, j, i, kernel[j * kw + i] ? SEL_HIT : SEL_DONT_CARE);
    return sel;
}

/* Cells outside the image have the value that is given; for dilation, where leptonica knows
 * no other, they are off. The condition is a global variable, so it is set each time. */
void bench_leptonica(PIX *from, PIX *to, SEL *sel, int erode, int outside)
{
    if (erode) {
        resetMorphBoundaryCondition(outside ? SYMMETRIC_MORPH_BC : ASYMMETRIC_MORPH_BC);
        pixErode(to, from, sel);
    } else {
        pixDilate(to, from, sel);
    }
}

void bench_leptonica_free(PIX *image, SEL *sel)
{
    if (image)
        pixDestroy(&image);
    if (sel)
        selDestroy(&sel);
}
