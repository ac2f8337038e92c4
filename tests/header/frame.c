/* Windows with their rasters: which ones are refused with 2, 3 or 4, and tc_window_check. The window of most checks has 12
 * columns and 4 rows, two bytes to a row. */
#include "check.h"

/* 2: a side that isn't from 1 to 8192; the raster's length fits where it can. */
static void refused_sizes(void (*refuses)(uint32_t number, tc_window w, const char *raster))
{
    CHECK(refuses(2, window(0, 0, 0, 4), ""));
    CHECK(refuses(2, window(0, 0, 12, 0), ""));
    CHECK(refuses(2, window(0, 0, 0, 0), ""));
    CHECK(refuses(2, window(0, 0, 8193, 1), "1025x170"));
    CHECK(refuses(2, window(0, 0, 1, 8193), "8193x170"));
    CHECK(refuses(2, window(0, 0, 65537, 4), "4x170"));
    CHECK(refuses(2, window(0, 0, 12, 65540), "8x170"));
    CHECK(refuses(2, window(0, 0, 0xffffffff, 4), ""));
    CHECK(refuses(2, window(0, 0, 12, 0xffffffff), "8x170"));
    CHECK(refuses(2, window(0, 0, 0x80000000, 0x80000000), ""));
}

/* 3: left or top is not a coordinate, or the last column or row is above 16383. */
static void refused_places(void (*refuses)(uint32_t number, tc_window w, const char *raster))
{
    CHECK(refuses(3, window(-16385, 0, 12, 4), "8x170"));
    CHECK(refuses(3, window(0, -16385, 12, 4), "8x170"));
    CHECK(refuses(3, window(16384, 0, 1, 1), "170"));
    CHECK(refuses(3, window(0, 16384, 1, 1), "170"));
    CHECK(refuses(3, window(16373, 0, 12, 4), "8x170"));
    CHECK(refuses(3, window(0, 16381, 12, 4), "8x170"));
    CHECK(refuses(3, window(8193, 0, 8192, 1), "1024x170"));
    CHECK(refuses(3, window(0, 8193, 1, 8192), "8192x170"));
    CHECK(refuses(3, window(INT32_MIN, 0, 12, 4), "8x170"));
    CHECK(refuses(3, window(0, INT32_MIN, 12, 4), "8x170"));
    CHECK(refuses(3, window(INT32_MAX, 0, 12, 4), "8x170"));
    CHECK(refuses(3, window(0, INT32_MAX, 12, 4), "8x170"));
}

/* 4: the raster isn't height times the bytes of a row long; six bytes are 12 times 4 bits. */
static void refused_lengths(void (*refuses)(uint32_t number, tc_window w, const char *raster))
{
    CHECK(refuses(4, window(0, 0, 12, 4), "7x170"));
    CHECK(refuses(4, window(0, 0, 12, 4), "9x170"));
    CHECK(refuses(4, window(0, 0, 12, 4), "6x170"));
    CHECK(refuses(4, window(0, 0, 12, 4), "4x170"));
    CHECK(refuses(4, window(0, 0, 12, 4), ""));
    CHECK(refuses(4, window(0, 0, 1, 1), ""));
    CHECK(refuses(4, window(0, 0, 8, 1), "2x170"));
    CHECK(refuses(4, window(0, 0, 8192, 1), "1023x170"));
    CHECK(refuses(4, window(0, 0, 8192, 8192), "8x170"));
}

void refused_frames(void (*refuses)(uint32_t number, tc_window w, const char *raster))
{
    refused_sizes(refuses);
    refused_places(refuses);
    refused_lengths(refuses);
    /* The smaller number, where two are met. */
    CHECK(refuses(2, window(-16385, 0, 0, 4), ""));
    CHECK(refuses(2, window(0, 16384, 12, 8193), "16386x170"));
    CHECK(refuses(2, window(0, 0, 12, 0), "8x170"));
    CHECK(refuses(2, window(0, 0, 0, 4), "8x170"));
    CHECK(refuses(2, window(-16385, 0, 8193, 4), "8x170"));
    CHECK(refuses(3, window(0, -16385, 12, 4), "7x170"));
    CHECK(refuses(3, window(16373, 0, 12, 4), ""));
}

void accepted_frames(void (*accepts)(tc_window w, const char *raster))
{
    CHECK(accepts(window(-16384, -16384, 8192, 1), "1024x0"));
    CHECK(accepts(window(-16384, -16384, 1, 8192), "8192x0"));
    CHECK(accepts(window(8192, 16383, 8192, 1), "1024x0"));
    CHECK(accepts(window(16383, 8192, 1, 8192), "8192x0"));
    CHECK(accepts(window(16372, 16380, 12, 4), "8x0"));
    CHECK(accepts(window(-16384, 16383, 1, 1), "0"));
    CHECK(accepts(window(16383, -16384, 1, 1), "0"));
    CHECK(accepts(window(0, 0, 8, 1), "0"));
    CHECK(accepts(window(0, 0, 9, 1), "0 0"));
}

/* Without a raster the check never meets 4. */
static void check_refuses(uint32_t number, tc_window w, const char *raster)
{
    (void)raster;
    is("refused", tc_window_check(w.left, w.top, w.width, w.height), number == 4 ? 0 : number);
}

static void check_accepts(tc_window w, const char *raster)
{
    check_refuses(0, w, raster);
}

void frame(void)
{
    function_is("tc_window_check");
    refused_frames(check_refuses);
    accepted_frames(check_accepts);
    CHECK(check_accepts(window(-16384, -16384, 8192, 8192), ""));
    CHECK(check_accepts(window(8192, 8192, 8192, 8192), ""));
}
