/* What reads a raster: the view of a row, and the search for the first marked pixel. The raster is read only. */
#include "check.h"

static void views(tc_window w, const char *bytes, uint32_t row, size_t place, size_t len)
{
    lent raster = for_reading(lend_bytes(bytes));
    tc_part part = tc_row_view(w, raster.bytes, raster.len, row);
    is("place", (int64_t)part.place, (int64_t)place);
    is("len", (int64_t)part.len, (int64_t)len);
}

static void rows(void)
{
    const tc_window w = window(0, 0, 12, 4);
    CHECK(views(w, "192 0, 60 0, 3 192, 0 48", 0, 0, 2));
    CHECK(views(w, "192 0, 60 0, 3 192, 0 48", 1, 2, 2));
    CHECK(views(w, "192 0, 60 0, 3 192, 0 48", 2, 4, 2));
    CHECK(views(w, "192 0, 60 0, 3 192, 0 48", 3, 6, 2));
    CHECK(views(window(5, 100, 12, 4), "8x0", 1, 2, 2));
    CHECK(views(window(-11, -3, 12, 4), "8x0", 3, 6, 2));
    CHECK(views(window(0, 0, 8, 3), "3x0", 2, 2, 1));
    CHECK(views(window(0, 0, 9, 3), "6x0", 2, 4, 2));
    CHECK(views(window(0, 0, 1, 1), "0", 0, 0, 1));
    CHECK(views(window(0, 0, 8192, 8192), "8388608x0", 8191, 8387584, 1024));
}

/* 6: the row is not below the height. The empty part is 0, 0. */
static void refused_rows(void)
{
    const tc_window w = window(0, 0, 12, 4);
    CHECK(views(w, "8x0", 4, 0, 0));
    CHECK(views(w, "8x0", 5, 0, 0));
    CHECK(views(w, "8x0", 0x80000000, 0, 0));
    CHECK(views(w, "8x0", 0xffffffff, 0, 0));
    CHECK(views(window(5, 100, 12, 4), "8x0", 100, 0, 0));
    CHECK(views(window(0, 0, 1, 1), "0", 1, 0, 0));
    CHECK(views(window(0, 0, 0, 4), "8x0", 4, 0, 0));
    CHECK(views(window(16373, 0, 12, 4), "8x0", 4, 0, 0));
    CHECK(views(w, "7x0", 4, 0, 0));
}

/* No number tells the refusals apart here. */
static void view_refuses(uint32_t number, tc_window w, const char *raster)
{
    (void)number;
    views(w, raster, 0, 0, 0);
}

static void view_accepts(tc_window w, const char *raster)
{
    views(w, raster, 0, 0, (w.width + 7) / 8);
}

static void found_is(tc_found got, uint32_t refused, uint32_t found, int32_t column, int32_t row)
{
    is("refused", got.refused, refused);
    is("found", got.found, found);
    is("column", got.column, column);
    is("row", got.row, row);
}

static void finds(tc_window w, const char *bytes, uint32_t found, int32_t column, int32_t row)
{
    lent raster = for_reading(lend_bytes(bytes));
    found_is(tc_first_marked(w, raster.bytes, raster.len), 0, found, column, row);
}

/* Row by row and in each row from the left; column and row are the frame's. */
static void marked(void)
{
    const tc_window w = window(0, 0, 12, 4);
    CHECK(finds(w, "192 0, 60 0, 3 192, 0 48", 1, 0, 0));
    CHECK(finds(w, "0 0, 60 0, 3 192, 0 48", 1, 2, 1));
    CHECK(finds(w, "0 0, 0 0, 0 192, 0 48", 1, 8, 2));
    CHECK(finds(w, "0 0, 0 0, 0 0, 0 16", 1, 11, 3));
    CHECK(finds(w, "0 16, 128 0, 0 0, 0 0", 1, 11, 0));
    CHECK(finds(w, "1 128, 0 0, 0 0, 0 0", 1, 7, 0));
    CHECK(finds(window(-11, -3, 12, 4), "0 0, 0 0, 3 192, 0 48", 1, -5, -1));
    CHECK(finds(window(11, -3, 12, 4), "0 0, 0 0, 0 0, 64 0", 1, 12, 0));
    CHECK(finds(window(0, 0, 16, 2), "0 0, 0 1", 1, 15, 1));
    CHECK(finds(window(-16384, -16384, 1, 1), "128", 1, -16384, -16384));
    CHECK(finds(window(8192, 8192, 8192, 8192), "8388607x0, 1", 1, 16383, 16383));
    CHECK(finds(window(-16384, -16384, 8192, 8192), "1023x0, 1, 8387584x0", 1, -8193, -16384));
}

/* Padding is never found. */
static void none_marked(void)
{
    const tc_window w = window(-5, 7, 12, 4);
    CHECK(finds(w, "8x0", 0, 0, 0));
    CHECK(finds(w, "0 15, 0 15, 0 15, 0 15", 0, 0, 0));
    CHECK(finds(w, "0 15, 0 15, 1 15, 128 0", 1, 2, 9));
    CHECK(finds(w, "0 15, 0 15, 0 15, 0 31", 1, 6, 10));
    CHECK(finds(window(-5, 7, 1, 4), "4x127", 0, 0, 0));
    CHECK(finds(window(-5, 7, 1, 4), "127, 127, 127, 255", 1, -5, 10));
    CHECK(finds(window(-5, 7, 16, 2), "4x0", 0, 0, 0));
}

static void search_refuses(uint32_t number, tc_window w, const char *bytes)
{
    lent raster = for_reading(lend_bytes(bytes));
    found_is(tc_first_marked(w, raster.bytes, raster.len), number, 0, 0, 0);
}

static void search_accepts(tc_window w, const char *raster)
{
    finds(w, raster, 0, 0, 0);
}

void reading(void)
{
    function_is("tc_row_view");
    rows();
    refused_rows();
    refused_frames(view_refuses);
    accepted_frames(view_accepts);
    function_is("tc_first_marked");
    marked();
    none_marked();
    refused_frames(search_refuses);
    accepted_frames(search_accepts);
}
