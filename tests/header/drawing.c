/* The drawers of a line in a whole window: by single steps, by double steps, and by a band of all rows. The lettered lines are
 * document 01's, with the halves of document 02, 4/13. */
#include "check.h"

/* The drawer that the checks call. */
static tc_drawn (*draw)(tc_ends e, tc_window w, uint8_t *raster, size_t len);

static tc_drawn draw_all_rows(tc_ends e, tc_window w, uint8_t *raster, size_t len)
{
    return tc_draw_band(e, w, 0, w.height, raster, len);
}

/* A raster that holds `before` is left with `after`. */
static void draws(tc_ends e, tc_window w, const char *before, const char *after, uint64_t count, uint64_t fresh)
{
    lent raster = lend_bytes(before);
    drawn_is(draw(e, w, raster.bytes, raster.len), 0, 0, count, fresh);
    holds("raster", raster, after);
}

static void refuses(uint32_t number, tc_ends e, tc_window w, const char *before)
{
    lent raster = lend_bytes(before);
    drawn_is(draw(e, w, raster.bytes, raster.len), number, 0, 0, 0);
    holds("raster", raster, before);
}

/* A to K, and exchanged ends. */
static void lettered_lines(void)
{
    CHECK(draws(line(5, 5, 5, 5), window(5, 5, 1, 1), "0", "128", 1, 1));
    CHECK(draws(line(5, 5, 5, 5), window(4, 4, 3, 3), "0, 0, 0", "0, 64, 0", 1, 1));
    CHECK(draws(line(0, 0, 10, 0), window(0, 0, 11, 1), "0 0", "255 224", 11, 11));
    CHECK(draws(line(0, 0, 3, 3), window(0, 0, 4, 4), "0, 0, 0, 0", "128, 64, 32, 16", 4, 4));
    CHECK(draws(line(0, 0, 2, 1), window(0, 0, 3, 2), "0, 0", "128, 96", 3, 3));
    CHECK(draws(line(2, 1, 0, 0), window(0, 0, 3, 2), "0, 0", "128, 96", 3, 3));
    CHECK(draws(line(0, 0, 4, 2), window(0, 0, 5, 3), "0, 0, 0", "128, 96, 24", 5, 5));
    CHECK(draws(line(4, 2, 0, 0), window(0, 0, 5, 3), "0, 0, 0", "128, 96, 24", 5, 5));
    CHECK(draws(line(0, 0, 3, 7), window(0, 0, 4, 8), "8x0", "2x128, 2x64, 2x32, 2x16", 8, 8));
    CHECK(draws(line(0, 0, 11, 3), window(0, 0, 12, 4), "8x0", "192 0, 60 0, 3 192, 0 48", 12, 12));
    CHECK(draws(line(0, 0, -11, -3), window(-11, -3, 12, 4), "8x0", "192 0, 60 0, 3 192, 0 48", 12, 12));
    CHECK(draws(line(-3, 0, 3, 0), window(0, 0, 4, 1), "0", "240", 4, 4));
}

/* Halves of lines that fall, along x and along y, and both ways. */
static void falling_halves(void)
{
    CHECK(draws(line(0, 1, 2, 0), window(0, 0, 3, 2), "0, 0", "32, 192", 3, 3));
    CHECK(draws(line(2, 0, 0, 1), window(0, 0, 3, 2), "0, 0", "32, 192", 3, 3));
    CHECK(draws(line(0, 0, 1, 2), window(0, 0, 2, 3), "0, 0, 0", "128, 64, 64", 3, 3));
    CHECK(draws(line(1, 0, 0, 2), window(0, 0, 2, 3), "0, 0, 0", "64, 64, 128", 3, 3));
    CHECK(draws(line(0, 2, 1, 0), window(0, 0, 2, 3), "0, 0, 0", "64, 64, 128", 3, 3));
    CHECK(draws(line(0, -1, -2, 0), window(-2, -1, 3, 2), "0, 0", "32, 192", 3, 3));
}

/* From (0,0), the middle of the window, in all directions. */
static void directions(void)
{
    const tc_window w = window(-3, -3, 7, 7);
    CHECK(draws(line(0, 0, 3, 1), w, "7x0", "0, 0, 0, 24, 6, 0, 0", 4, 4));
    CHECK(draws(line(0, 0, 3, -1), w, "7x0", "0, 0, 6, 24, 0, 0, 0", 4, 4));
    CHECK(draws(line(0, 0, -3, 1), w, "7x0", "0, 0, 0, 48, 192, 0, 0", 4, 4));
    CHECK(draws(line(0, 0, -3, -1), w, "7x0", "0, 0, 192, 48, 0, 0, 0", 4, 4));
    CHECK(draws(line(0, 0, 1, 3), w, "7x0", "0, 0, 0, 16, 16, 8, 8", 4, 4));
    CHECK(draws(line(0, 0, -1, 3), w, "7x0", "0, 0, 0, 16, 16, 32, 32", 4, 4));
    CHECK(draws(line(0, 0, 1, -3), w, "7x0", "8, 8, 16, 16, 0, 0, 0", 4, 4));
    CHECK(draws(line(0, 0, -1, -3), w, "7x0", "32, 32, 16, 16, 0, 0, 0", 4, 4));
    /* More than half a step down at each step, for an odd and an even number of steps. */
    CHECK(draws(line(0, 0, 5, 4), window(0, 0, 6, 5), "5x0", "128, 64, 48, 8, 4", 6, 6));
    CHECK(draws(line(0, 0, 4, 3), window(0, 0, 5, 4), "4x0", "128, 64, 48, 8", 5, 5));
}

/* Lines that the window cuts, or that lie outside of it. */
static void cut_lines(void)
{
    CHECK(draws(line(0, 0, 11, 3), window(2, 1, 4, 1), "0", "240", 4, 4));
    CHECK(draws(line(0, 0, 11, 3), window(5, 1, 2, 2), "0, 0", "128, 64", 2, 2));
    CHECK(draws(line(0, 0, 11, 3), window(0, 1, 2, 3), "170, 85, 0", "170, 85, 0", 0, 0));
    CHECK(draws(line(0, 0, 11, 3), window(100, 100, 12, 4), "8x170", "8x170", 0, 0));
    CHECK(draws(line(-16384, -16384, 16383, 16383), window(0, 0, 8, 8), "8x0", "128, 64, 32, 16, 8, 4, 2, 1", 8, 8));
    CHECK(draws(line(-16384, 16383, 16383, -16384), window(0, -8, 8, 8), "8x0", "1, 2, 4, 8, 16, 32, 64, 128", 8, 8));
    /* One row, or one column, further on from 0 on: at -1 the exact line is at 16383 / 32767, at 0 at 16384 / 32767. */
    CHECK(draws(line(-16384, 0, 16383, 1), window(-4, 0, 8, 2), "0, 0", "240, 15", 8, 8));
    CHECK(draws(line(16383, 1, -16384, 0), window(-4, 0, 8, 2), "0, 0", "240, 15", 8, 8));
    CHECK(draws(line(0, -16384, 1, 16383), window(0, -4, 2, 8), "8x0", "4x128, 4x64", 8, 8));
}

/* Marked pixels are not fresh. Padding stays as it is and is never counted. */
static void marked_pixels_and_padding(void)
{
    const tc_ends h = line(0, 0, 11, 3);
    const tc_window w = window(0, 0, 12, 4);
    CHECK(draws(line(5, 5, 5, 5), window(5, 5, 1, 1), "128", "128", 1, 0));
    CHECK(draws(line(-3, 0, 3, 0), window(0, 0, 4, 1), "69", "245", 4, 3));
    CHECK(draws(h, w, "0 15, 0 15, 0 15, 0 15", "192 15, 60 15, 3 207, 0 63", 12, 12));
    CHECK(draws(h, w, "0 5, 0 10, 0 5, 0 10", "192 5, 60 10, 3 197, 0 58", 12, 12));
    CHECK(draws(h, w, "63 255, 195 255, 252 63, 255 207", "8x255", 12, 12));
    CHECK(draws(h, w, "192 0, 60 0, 3 192, 0 48", "192 0, 60 0, 3 192, 0 48", 12, 0));
    CHECK(draws(h, w, "64 0, 0 0, 0 128, 0 32", "192 0, 60 0, 3 192, 0 48", 12, 9));
    CHECK(draws(h, w, "8x255", "8x255", 12, 0));
    CHECK(draws(line(0, 0, 3, 3), window(0, 0, 1, 4), "4x127", "255, 127, 127, 127", 1, 1));
    CHECK(draws(line(0, 0, 10, 0), window(0, 0, 16, 1), "0 1", "255 225", 11, 11));
}

/* At the limits of coordinates and of sides, up to the largest raster. */
static void limits(void)
{
    CHECK(draws(line(16383, -16384, 16383, -16384), window(16383, -16384, 1, 1), "0", "128", 1, 1));
    CHECK(draws(line(-16384, 16383, -16384, 16383), window(-16384, 16383, 1, 1), "0", "128", 1, 1));
    CHECK(draws(line(-16384, -16384, -8193, -16384), window(-16384, -16384, 8192, 1), "1024x0", "1024x255", 8192, 8192));
    CHECK(draws(line(16383, 16383, -16384, 16383), window(8192, 16383, 8192, 1), "1024x0", "1024x255", 8192, 8192));
    CHECK(draws(line(16383, -16384, 16383, 16383), window(16383, 8192, 1, 8192), "8192x0", "8192x128", 8192, 8192));
    CHECK(draws(line(16383, 16383, 16383, 16383), window(8192, 8192, 8192, 8192), "8388608x0", "8388607x0, 1", 1, 1));
}

/* 1 of each coordinate, also where a 16-bit number would be in range. */
static void refused_ends(void)
{
    const tc_window w = window(0, 0, 12, 4);
    CHECK(refuses(1, line(-16385, 0, 11, 3), w, "8x170"));
    CHECK(refuses(1, line(0, -16385, 11, 3), w, "8x170"));
    CHECK(refuses(1, line(0, 0, -16385, 3), w, "8x170"));
    CHECK(refuses(1, line(0, 0, 11, -16385), w, "8x170"));
    CHECK(refuses(1, line(16384, 0, 11, 3), w, "8x170"));
    CHECK(refuses(1, line(0, 16384, 11, 3), w, "8x170"));
    CHECK(refuses(1, line(0, 0, 16384, 3), w, "8x170"));
    CHECK(refuses(1, line(0, 0, 11, 16384), w, "8x170"));
    CHECK(refuses(1, line(65536, 0, 11, 3), w, "8x170"));
    CHECK(refuses(1, line(0, -65536, 11, 3), w, "8x170"));
    CHECK(refuses(1, line(0, 0, INT32_MIN, 3), w, "8x170"));
    CHECK(refuses(1, line(0, 0, 11, INT32_MAX), w, "8x170"));
}

static void refuses_frame(uint32_t number, tc_window w, const char *raster)
{
    refuses(number, line(0, 0, 11, 3), w, raster);
}

/* 1 comes before 2, 3 and 4. */
static void refuses_ends_first(uint32_t number, tc_window w, const char *raster)
{
    (void)number;
    refuses(1, line(0, 0, 16384, 3), w, raster);
}

/* The line of one pixel at the window's left and top. */
static void accepts_frame(tc_window w, const char *raster)
{
    lent buffer = lend_bytes(raster);
    drawn_is(draw(line(w.left, w.top, w.left, w.top), w, buffer.bytes, buffer.len), 0, 0, 1, 1);
    is("the first byte", buffer.bytes[0], 128);
    buffer.bytes[0] = 0;
    holds("raster", buffer, raster);
}

static void drawer(const char *name, tc_drawn (*function)(tc_ends e, tc_window w, uint8_t *raster, size_t len))
{
    function_is(name);
    draw = function;
    lettered_lines();
    falling_halves();
    directions();
    cut_lines();
    marked_pixels_and_padding();
    limits();
    refused_ends();
    refused_frames(refuses_frame);
    refused_frames(refuses_ends_first);
    accepted_frames(accepts_frame);
}

void drawing(void)
{
    drawer("tc_draw_single", tc_draw_single);
    drawer("tc_draw_double", tc_draw_double);
    drawer("tc_draw_band, all rows", draw_all_rows);
}
