/* The drawer of a line in a band of the window's rows. */
#include "check.h"

/* Line K of document 01: its raster is 192 0, 60 0, 3 192, 0 48. */
static tc_ends k(void)
{
    return line(0, 0, 11, 3);
}

static void draws(tc_ends e, tc_window w, uint32_t first, uint32_t rows, const char *before, const char *after, uint64_t count,
                  uint64_t fresh)
{
    lent raster = lend_bytes(before);
    drawn_is(tc_draw_band(e, w, first, rows, raster.bytes, raster.len), 0, 0, count, fresh);
    holds("raster", raster, after);
}

static void refuses(uint32_t number, tc_ends e, tc_window w, uint32_t first, uint32_t rows, const char *before)
{
    lent raster = lend_bytes(before);
    drawn_is(tc_draw_band(e, w, first, rows, raster.bytes, raster.len), number, 0, 0, 0);
    holds("raster", raster, before);
}

static void bands(void)
{
    const tc_window w = window(0, 0, 12, 4);
    CHECK(draws(k(), w, 0, 1, "8x0", "192 0, 0 0, 0 0, 0 0", 2, 2));
    CHECK(draws(k(), w, 1, 1, "8x0", "0 0, 60 0, 0 0, 0 0", 4, 4));
    CHECK(draws(k(), w, 1, 2, "8x0", "0 0, 60 0, 3 192, 0 0", 8, 8));
    CHECK(draws(k(), w, 3, 1, "8x0", "0 0, 0 0, 0 0, 0 48", 2, 2));
    CHECK(draws(k(), w, 1, 3, "8x0", "0 0, 60 0, 3 192, 0 48", 10, 10));
    CHECK(draws(k(), w, 0, 4, "8x0", "192 0, 60 0, 3 192, 0 48", 12, 12));
    /* Other rows and padding stay, and what is marked is not fresh. */
    CHECK(draws(k(), w, 1, 2, "1 5, 4 10, 0 79, 85 170", "1 5, 60 10, 3 207, 85 170", 8, 6));
    CHECK(draws(k(), w, 1, 2, "8x255", "8x255", 8, 0));
    /* Rows are counted from the window's top. */
    CHECK(draws(line(0, 0, -11, -3), window(-11, -3, 12, 4), 0, 1, "8x0", "192 0, 0 0, 0 0, 0 0", 2, 2));
    CHECK(draws(k(), window(0, 2, 12, 4), 0, 2, "8x0", "3 192, 0 48, 0 0, 0 0", 6, 6));
    CHECK(draws(k(), window(0, 2, 12, 4), 2, 2, "8x170", "8x170", 0, 0));
    /* The slope stays the whole line's, with document 02's halves: line F. */
    CHECK(draws(line(4, 2, 0, 0), window(0, 0, 5, 3), 1, 1, "0, 0, 0", "0, 96, 0", 2, 2));
}

/* 6: no rows, or an end below the window, also where 32 bits can't hold the end. */
static void refused_bands(void)
{
    const tc_window w = window(0, 0, 12, 4);
    CHECK(refuses(6, k(), w, 0, 0, "8x170"));
    CHECK(refuses(6, k(), w, 4, 0, "8x170"));
    CHECK(refuses(6, k(), w, 4, 1, "8x170"));
    CHECK(refuses(6, k(), w, 3, 2, "8x170"));
    CHECK(refuses(6, k(), w, 0, 5, "8x170"));
    CHECK(refuses(6, k(), w, 0xffffffff, 1, "8x170"));
    CHECK(refuses(6, k(), w, 0xffffffff, 2, "8x170"));
    CHECK(refuses(6, k(), w, 1, 0xffffffff, "8x170"));
    CHECK(refuses(6, k(), w, 0x80000000, 0x80000001, "8x170"));
    CHECK(refuses(6, k(), w, 0xffffffff, 0xffffffff, "8x170"));
    CHECK(refuses(1, line(0, 0, 16384, 3), w, 0, 5, "8x170"));
}

/* 2, 3 and 4 come before 6, and 1 before all. */
static void refuses_frame_first(uint32_t number, tc_window w, const char *raster)
{
    refuses(number, k(), w, 0, 0, raster);
    refuses(number, k(), w, w.height, 1, raster);
    refuses(1, line(16384, 0, 11, 3), w, 0, 0, raster);
}

void band(void)
{
    function_is("tc_draw_band");
    bands();
    refused_bands();
    refused_frames(refuses_frame_first);
}
