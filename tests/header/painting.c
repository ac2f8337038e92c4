/* The painter of a run list. */
#include "check.h"

/* The lists of lines H and G. */
#define H "0 0 2, 1 2 4, 2 6 4, 3 10 2"
#define G "0 0 2, 1 2 2, 2 4 2, 3 6 2"

/* A raster that holds `before` is left with `after`. The list is read only. */
static void paints(uint32_t axis, uint32_t runs, const char *list, tc_window w, const char *before, const char *after,
                   uint64_t count, uint64_t fresh)
{
    lent l = for_reading(lend_numbers(list)), raster = lend_bytes(before);
    drawn_is(tc_paint_runs(axis, runs, list_of(l), l.len, w, raster.bytes, raster.len), 0, 0, count, fresh);
    holds("raster", raster, after);
}

static void refuses(uint32_t number, uint32_t place, uint32_t runs, const char *list, tc_window w, const char *before)
{
    lent l = for_reading(lend_numbers(list)), raster = lend_bytes(before);
    drawn_is(tc_paint_runs(0, runs, list_of(l), l.len, w, raster.bytes, raster.len), number, place, 0, 0);
    holds("raster", raster, before);
}

/* Axis 0 is x, any other is y. */
static void axes(void)
{
    const tc_window w = window(0, 0, 4, 8);
    CHECK(paints(0, 4, H, window(0, 0, 12, 4), "8x0", "192 0, 60 0, 3 192, 0 48", 12, 12));
    CHECK(paints(0, 4, G, window(0, 0, 8, 4), "4x0", "192, 48, 12, 3", 8, 8));
    CHECK(paints(1, 4, G, w, "8x0", "2x128, 2x64, 2x32, 2x16", 8, 8));
    CHECK(paints(2, 4, G, w, "8x0", "2x128, 2x64, 2x32, 2x16", 8, 8));
    CHECK(paints(256, 4, G, w, "8x0", "2x128, 2x64, 2x32, 2x16", 8, 8));
    CHECK(paints(0x80000000, 4, G, w, "8x0", "2x128, 2x64, 2x32, 2x16", 8, 8));
    CHECK(paints(0xffffffff, 4, G, w, "8x0", "2x128, 2x64, 2x32, 2x16", 8, 8));
}

/* Only the counted runs are looked at; the rest may be no runs. */
static void counted_runs(void)
{
    const tc_window w = window(0, 0, 12, 4);
    CHECK(paints(0, 3, H, w, "8x0", "192 0, 60 0, 3 192, 0 0", 10, 10));
    CHECK(paints(0, 1, "0 0 2, 99999 -99999 0, 1", w, "8x0", "192 0, 6x0", 2, 2));
    CHECK(paints(0, 0, "99999 -99999 0", w, "8x170", "8x170", 0, 0));
    CHECK(paints(1, 0, "", w, "8x170", "8x170", 0, 0));
    /* Runs need not be a line's. An overlap counts each time, and is fresh once. */
    CHECK(paints(0, 2, "0 0 4, 0 2 4", window(0, 0, 8, 1), "0", "252", 8, 6));
    CHECK(paints(0, 3, "0 0 4, 0 0 4, 0 0 4", window(0, 0, 8, 1), "128", "240", 12, 3));
    CHECK(paints(1, 2, "0 0 4, 0 2 4", window(0, 0, 1, 8), "8x0", "6x128, 2x0", 8, 6));
    CHECK(paints(0, 2, "-2 -2 3, -3 0 1", window(-2, -3, 8, 3), "3x0", "32, 224, 0", 4, 4));
}

/* Runs that the window cuts, up to all coordinates; marked pixels and padding. */
static void cut_runs(void)
{
    CHECK(paints(0, 1, "0 -16384 32768", window(0, 0, 8, 1), "0", "255", 8, 8));
    CHECK(paints(1, 1, "0 -16384 32768", window(0, -4, 8, 8), "8x0", "8x128", 8, 8));
    CHECK(paints(0, 1, "0 -16384 32768", window(8192, 0, 8192, 1), "1024x0", "1024x255", 8192, 8192));
    CHECK(paints(0, 1, "1 -16384 32768", window(0, 0, 8, 1), "170", "170", 0, 0));
    CHECK(paints(0, 2, "-16384 -16384 1, 16383 16383 1", window(0, 0, 8, 1), "170", "170", 0, 0));
    CHECK(paints(0, 1, "0 -5 7", window(0, 0, 12, 1), "0 10", "192 10", 2, 2));
    CHECK(paints(0, 1, "0 -5 100", window(0, 0, 12, 1), "129 10", "255 250", 12, 10));
    CHECK(paints(0, 1, "0 3 4", window(0, 0, 12, 1), "0 15", "30 15", 4, 4));
    CHECK(paints(0, 1, "0 9 9", window(0, 0, 12, 1), "255 5", "255 117", 3, 3));
    CHECK(paints(1, 1, "0 -5 100", window(0, 0, 1, 4), "127, 255, 0, 64", "255, 255, 128, 192", 4, 3));
    CHECK(paints(0, 1, "0 6 20", window(0, 0, 32, 1), "4x0", "3 255 255 192", 20, 20));
}

/* 7: the list is shorter than three times the count, also where 32 bits can't hold that. */
static void short_lists(void)
{
    const tc_window w = window(0, 0, 12, 4);
    CHECK(refuses(7, 0, 4, "0 0 2, 1 2 4, 2 6 4, 3 10", w, "8x170"));
    CHECK(refuses(7, 0, 5, H, w, "8x170"));
    CHECK(refuses(7, 0, 1, "", w, "8x170"));
    CHECK(refuses(7, 0, 1, "0 0", w, "8x170"));
    CHECK(refuses(7, 0, 0x55555555, H, w, "8x170"));
    CHECK(refuses(7, 0, 0x55555556, H, w, "8x170"));
    CHECK(refuses(7, 0, 0xaaaaaaab, H, w, "8x170"));
    CHECK(refuses(7, 0, 0xffffffff, H, w, "8x170"));
    CHECK(refuses(7, 0, 0xffffffff, "", w, "8x170"));
    /* 7 comes before 8. */
    CHECK(refuses(7, 0, 3, "0 0 2, 0 0 0", w, "8x170"));
}

/* 8: a run without a pixel, or with one that is no coordinate, by the first such run's place. */
static void bad_runs(void)
{
    const tc_window w = window(0, 0, 12, 4);
    CHECK(refuses(8, 0, 1, "0 0 0", w, "8x170"));
    CHECK(refuses(8, 0, 1, "0 0 0", window(0, 0, 1, 1), "170"));
    CHECK(refuses(8, 0, 1, "0 0 -1", w, "8x170"));
    CHECK(refuses(8, 0, 1, "0 0 -2147483648", w, "8x170"));
    CHECK(refuses(8, 0, 1, "16384 0 1", w, "8x170"));
    CHECK(refuses(8, 0, 1, "-16385 0 1", w, "8x170"));
    CHECK(refuses(8, 0, 1, "0 16384 1", w, "8x170"));
    CHECK(refuses(8, 0, 1, "0 -16385 1", w, "8x170"));
    CHECK(refuses(8, 0, 1, "0 -16385 2", w, "8x170"));
    CHECK(refuses(8, 0, 1, "0 16383 2", w, "8x170"));
    CHECK(refuses(8, 0, 1, "0 -16384 32769", w, "8x170"));
    CHECK(refuses(8, 0, 1, "0 0 16385", w, "8x170"));
    CHECK(refuses(8, 0, 1, "65536 0 1", w, "8x170"));
    CHECK(refuses(8, 0, 1, "0 0 65537", w, "8x170"));
    CHECK(refuses(8, 0, 1, "0 2147483647 2147483647", w, "8x170"));
    CHECK(refuses(8, 0, 1, "0 -2147483648 2147483647", w, "8x170"));
    CHECK(refuses(8, 1, 3, "0 0 2, 1 0 0, 2 0 -1", w, "8x170"));
    CHECK(refuses(8, 2, 3, "0 0 2, 1 0 2, 2 0 -1", w, "8x170"));
    CHECK(refuses(8, 3, 4, "0 0 2, 1 2 4, 2 6 4, 3 10 0", w, "8x0"));
    CHECK(paints(0, 3, "0 0 2, 1 2 4, 2 6 4, 3 10 0", w, "8x0", "192 0, 60 0, 3 192, 0 0", 10, 10));
}

/* 2, 3 and 4 come before 7 and 8. */
static void refuses_frame(uint32_t number, tc_window w, const char *raster)
{
    refuses(number, 0, 4, H, w, raster);
    refuses(number, 0, 0, "", w, raster);
    refuses(number, 0, 5, H, w, raster);
    refuses(number, 0, 2, "0 0 2, 0 0 0", w, raster);
}

static void accepts_frame(tc_window w, const char *raster)
{
    paints(0, 0, "", w, raster, raster, 0, 0);
}

void painting(void)
{
    function_is("tc_paint_runs");
    axes();
    counted_runs();
    cut_runs();
    short_lists();
    bad_runs();
    refused_frames(refuses_frame);
    accepted_frames(accepts_frame);
}
