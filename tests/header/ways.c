/* The equal-raster rule of document 01: by single steps, by double steps, by bands, and listed and painted, a line leaves the
 * same raster, with the same count. The fresh pixels of bands add up to those of the whole (document 02, 1/13). */
#include "check.h"

static void whole(tc_ends e, tc_window w, const char *before, const char *after, uint64_t count, uint64_t fresh)
{
    lent single = lend_bytes(before), twofold = lend_bytes(before);
    drawn_is(tc_draw_single(e, w, single.bytes, single.len), 0, 0, count, fresh);
    drawn_is(tc_draw_double(e, w, twofold.bytes, twofold.len), 0, 0, count, fresh);
    holds("raster of single steps", single, after);
    holds("raster of double steps", twofold, after);
}

/* Each row its own band, the last row first, and before each one a band that ends below the window. */
static void by_bands(tc_ends e, tc_window w, const char *before, const char *after, uint64_t count, uint64_t fresh)
{
    lent raster = lend_bytes(before);
    uint64_t counted = 0, marked = 0;
    for (uint32_t row = w.height; row-- > 0;) {
        drawn_is(tc_draw_band(e, w, row, w.height + 1, raster.bytes, raster.len), 6, 0, 0, 0);
        tc_drawn drawn = tc_draw_band(e, w, row, 1, raster.bytes, raster.len);
        is("a band's refused", drawn.refused, 0);
        is("a band's place", drawn.place, 0);
        counted += drawn.count;
        marked += drawn.fresh;
    }
    is("count of all bands", (int64_t)counted, (int64_t)count);
    is("fresh of all bands", (int64_t)marked, (int64_t)fresh);
    holds("raster of bands", raster, after);
}

/* The painter gets the list as the lister left it, with what the lister answered. */
static void by_list(tc_ends e, tc_window w, const char *before, const char *after, uint64_t count, uint64_t fresh)
{
    lent list = lend_numbers("30x-7"), raster = lend_bytes(before);
    tc_listed listed = tc_list_runs(e, list_of(list), list.len);
    is("the list's refused", listed.refused, 0);
    list = for_reading(list);
    drawn_is(tc_paint_runs(listed.axis, listed.runs, list_of(list), list.len, w, raster.bytes, raster.len), 0, 0, count, fresh);
    holds("painted raster", raster, after);
}

static void all_ways(tc_ends e, tc_window w, const char *before, const char *after, uint64_t count, uint64_t fresh)
{
    whole(e, w, before, after, count, fresh);
    by_bands(e, w, before, after, count, fresh);
    by_list(e, w, before, after, count, fresh);
}

void ways(void)
{
    function_is("the equal-raster rule");
    CHECK(all_ways(line(0, 0, 11, 3), window(0, 0, 12, 4), "128 5, 4 10, 0 0, 255 255", "192 5, 60 10, 3 192, 255 255", 12, 8));
    /* Falling, with halves, and cut by the window: (9,2) (8,2) (7,2), (6,1) to (3,1), (2,0) (1,0), and the same from (1,0). */
    CHECK(all_ways(line(9, 2, 1, 0), window(2, 0, 7, 3), "1, 8, 255", "129, 120, 255", 7, 4));
    CHECK(all_ways(line(1, 0, 9, 2), window(2, 0, 7, 3), "1, 8, 255", "129, 120, 255", 7, 4));
    /* Along y: column 1 in the rows 9 and 8, 2 in 7 to 4, 3 in 3 to 1. */
    CHECK(all_ways(line(1, 9, 3, 1), window(2, 2, 2, 7), "64, 0, 0, 192, 63, 0, 129", "64, 64, 128, 192, 191, 128, 129", 6, 4));
    CHECK(all_ways(line(3, 1, 1, 9), window(2, 2, 2, 7), "64, 0, 0, 192, 63, 0, 129", "64, 64, 128, 192, 191, 128, 129", 6, 4));
}
