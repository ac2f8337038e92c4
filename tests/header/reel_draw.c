/* Drawing a frame's lines straight from a reel's file, in a band of the window's rows. The file is read only. */
#include "check.h"

/* Three frames: the lines D and E of document 01, which have the same pixels, (0,0) (1,1) (2,1); no line; line J, from (-3,0) to
 * (3,0). One frame: the line from (258,-2) to (261,-2). */
#define RECORDS "0 0 0 0 2 0 1 0, 2 0 1 0 0 0 0 0, 253 255 0 0 3 0 0 0, "
#define TABLE "2 0 0 0, 2 0 0 0, 3 0 0 0, "
#define LAST "24 0 0 0, 3 0 0 0, 77 82 75 83"
#define THREE RECORDS TABLE LAST
#define ONE "2 1 254 255 5 1 254 255, 1 0 0 0, 8 0 0 0, 1 0 0 0, 77 82 75 83"

/* The same without the letters, with a table that falls, and with a coordinate 16384. */
#define LETTERLESS RECORDS TABLE "24 0 0 0, 3 0 0 0, 77 82 75 0"
#define FALLING RECORDS "3 0 0 0, 2 0 0 0, 3 0 0 0, " LAST
#define OUTSIDE "0 0 0 0 2 0 1 0, 2 0 1 0 0 0 0 0, 253 255 0 0 3 0 0 64, " TABLE LAST

static void frame_drawn_is(tc_frame_drawn drawn, uint32_t refused, uint32_t found, uint64_t count, uint64_t fresh)
{
    is("refused", drawn.refused, refused);
    is("found", drawn.found, found);
    is("count", (int64_t)drawn.count, (int64_t)count);
    is("fresh", (int64_t)drawn.fresh, (int64_t)fresh);
}

/* A raster that holds `before` is left with `after`. */
static void draws(const char *bytes, uint32_t frame, tc_window w, uint32_t first, uint32_t rows, const char *before,
                  const char *after, uint64_t count, uint64_t fresh)
{
    lent file = for_reading(lend_bytes(bytes)), raster = lend_bytes(before);
    frame_drawn_is(tc_reel_draw(file.bytes, file.len, frame, w, first, rows, raster.bytes, raster.len), 0, 1, count, fresh);
    holds("raster", raster, after);
}

/* Not found where nothing is refused, else refused; the raster stays. */
static void leaves(uint32_t refused, const char *bytes, uint32_t frame, tc_window w, uint32_t first, uint32_t rows,
                   const char *before)
{
    lent file = for_reading(lend_bytes(bytes)), raster = lend_bytes(before);
    frame_drawn_is(tc_reel_draw(file.bytes, file.len, frame, w, first, rows, raster.bytes, raster.len), refused, 0, 0, 0);
    holds("raster", raster, before);
}

static void frames_drawn(void)
{
    const tc_window w = window(0, 0, 3, 2);
    CHECK(draws(THREE, 0, w, 0, 2, "0, 0", "128, 96", 6, 3));
    CHECK(draws(THREE, 0, w, 0, 1, "0, 0", "128, 0", 2, 1));
    CHECK(draws(THREE, 0, w, 1, 1, "0, 0", "0, 96", 4, 2));
    CHECK(draws(THREE, 0, w, 0, 2, "128, 63", "128, 127", 6, 1));
    CHECK(draws(THREE, 0, w, 0, 2, "31, 31", "159, 127", 6, 3));
    CHECK(draws(THREE, 0, w, 0, 2, "255, 255", "255, 255", 6, 0));
    CHECK(draws(THREE, 0, window(100, 100, 3, 2), 0, 2, "170, 85", "170, 85", 0, 0));
    CHECK(draws(THREE, 1, w, 0, 2, "170, 85", "170, 85", 0, 0));
    CHECK(draws(THREE, 2, w, 0, 2, "0, 0", "224, 0", 3, 3));
    CHECK(draws(THREE, 2, window(0, 0, 4, 1), 0, 1, "0", "240", 4, 4));
    CHECK(draws(THREE, 2, window(-3, -1, 7, 3), 1, 2, "170, 1, 85", "170, 255, 85", 7, 7));
    CHECK(draws(THREE, 2, window(-3, -1, 7, 3), 2, 1, "170, 1, 85", "170, 1, 85", 0, 0));
    CHECK(draws(ONE, 0, window(256, -3, 8, 3), 0, 3, "0, 0, 0", "0, 60, 0", 4, 4));
}

static void not_found(void)
{
    const tc_window w = window(0, 0, 3, 2);
    CHECK(leaves(0, THREE, 3, w, 0, 2, "170, 85"));
    CHECK(leaves(0, THREE, 0xffffffff, w, 0, 2, "170, 85"));
    CHECK(leaves(0, "8x0, 77 82 75 83", 0, w, 0, 2, "170, 85"));
}

/* Refused for a frame that the file has and for one that it doesn't have. */
static void refuses(uint32_t number, const char *file, tc_window w, uint32_t first, uint32_t rows, const char *before)
{
    leaves(number, file, 0, w, first, rows, before);
    leaves(number, file, 3, w, first, rows, before);
}

static void refusals(void)
{
    const tc_window w = window(0, 0, 3, 2);
    CHECK(refuses(6, THREE, w, 0, 0, "170, 85"));
    CHECK(refuses(6, THREE, w, 2, 1, "170, 85"));
    CHECK(refuses(6, THREE, w, 1, 2, "170, 85"));
    CHECK(refuses(6, THREE, w, 0xffffffff, 2, "170, 85"));
    CHECK(refuses(6, THREE, w, 1, 0xffffffff, "170, 85"));
    CHECK(refuses(10, LETTERLESS, w, 0, 2, "170, 85"));
    CHECK(refuses(10, "", w, 0, 2, "170, 85"));
    CHECK(refuses(10, "0 0 0, 0 0 0 0, 77 82 75 83", w, 0, 2, "170, 85"));
    CHECK(refuses(10, "65521x0, 254 31 0 0, 240 255 0 0, 1 0 0 0, 77 82 75 83", w, 0, 2, "170, 85"));
    CHECK(refuses(11, FALLING, w, 0, 2, "170, 85"));
    CHECK(refuses(11, RECORDS TABLE "24 0 0 0, 2 0 0 0, 77 82 75 83", w, 0, 2, "170, 85"));
    CHECK(refuses(12, OUTSIDE, w, 0, 2, "170, 85"));
    CHECK(refuses(12, "0 0 255 191 2 0 1 0, 2 0 1 0 0 0 0 0, 253 255 0 0 3 0 0 0, " TABLE LAST, w, 0, 2, "170, 85"));
}

/* The smaller number, where two are met. */
static void order(void)
{
    const tc_window w = window(0, 0, 3, 2);
    CHECK(refuses(6, LETTERLESS, w, 0, 0, "170, 85"));
    CHECK(refuses(6, "", w, 2, 1, "170, 85"));
    CHECK(refuses(6, FALLING, w, 2, 1, "170, 85"));
    CHECK(refuses(6, OUTSIDE, w, 0, 3, "170, 85"));
    CHECK(refuses(10, RECORDS "3 0 0 0, 2 0 0 0, 3 0 0 0, 24 0 0 0, 3 0 0 0, 77 82 75 0", w, 0, 2, "170, 85"));
    CHECK(refuses(10, "0 64 0 0 0 0 0 0, 1 0 0 0, 8 0 0 0, 1 0 0 0, 77 82 75 0", w, 0, 2, "170, 85"));
    CHECK(refuses(11, "0 64 0 0 0 0 0 0, 2 0 0 0, 8 0 0 0, 1 0 0 0, 77 82 75 83", w, 0, 2, "170, 85"));
}

/* 2, 3 and 4 come before 6, 10, 11 and 12. */
static void refuses_frame(uint32_t number, tc_window w, const char *raster)
{
    refuses(number, THREE, w, 0, 1, raster);
    refuses(number, THREE, w, 0, 0, raster);
    refuses(number, THREE, w, w.height, 1, raster);
    refuses(number, LETTERLESS, w, 0, 1, raster);
    refuses(number, "", w, 0, 1, raster);
    refuses(number, FALLING, w, 0, 1, raster);
    refuses(number, OUTSIDE, w, 0, 1, raster);
}

static void accepts_frame(tc_window w, const char *raster)
{
    draws(THREE, 1, w, 0, w.height, raster, raster, 0, 0);
}

void reel_draw(void)
{
    function_is("tc_reel_draw");
    frames_drawn();
    not_found();
    refusals();
    order();
    refused_frames(refuses_frame);
    accepted_frames(accepts_frame);
}
