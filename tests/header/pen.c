/* The pixel that the marking pen touches. */
#include <float.h>
#include <math.h>
#include "check.h"

/* What the pen's number says; each further number is a lifted pen too. */
enum { TOUCHING = 0, HOVERING = 1, LIFTED = 2 };

static void pixel_is(tc_pixel pixel, uint32_t refused, uint32_t touching, int32_t column, int32_t row)
{
    is("refused", pixel.refused, refused);
    is("touching", pixel.touching, touching);
    is("column", pixel.column, column);
    is("row", pixel.row, row);
}

static void touches(float x, float y, int32_t column, int32_t row)
{
    pixel_is(tc_pen(TOUCHING, x, y), 0, 1, column, row);
}

static void touches_none(uint32_t kind, float x, float y)
{
    pixel_is(tc_pen(kind, x, y), 0, 0, 0, 0);
}

static void refuses(uint32_t number, float x, float y)
{
    pixel_is(tc_pen(TOUCHING, x, y), number, 0, 0, 0);
}

/* The nearest whole number, a half the larger. */
static void rounded(void)
{
    CHECK(touches(1.0f, 2.0f, 1, 2));
    CHECK(touches(0.5f, 2.0f, 1, 2));
    CHECK(touches(0.49999997f, -0.5f, 0, 0));
    CHECK(touches(-0.0f, 0.0f, 0, 0));
    CHECK(touches(-0.50000006f, 0.50000006f, -1, 1));
    CHECK(touches(1.5f, -1.5f, 2, -1));
    CHECK(touches(2.5f, -2.5f, 3, -2));
    CHECK(touches(7.25f, -7.75f, 7, -8));
    CHECK(touches(-7.25f, 7.75f, -7, 8));
    CHECK(touches(FLT_TRUE_MIN, -FLT_TRUE_MIN, 0, 0));
    CHECK(touches(-FLT_MIN, FLT_MIN, 0, 0));
    /* The ends of the range; 16383.499 and 16384.5 are the last floats before the next coordinate. */
    CHECK(touches(16383.0f, -16384.0f, 16383, -16384));
    CHECK(touches(16383.499f, -16384.5f, 16383, -16384));
    CHECK(touches(-16384.5f, 16383.499f, -16384, 16383));
    CHECK(touches(-16383.5f, 16382.5f, -16383, 16383));
}

/* A pen that does not touch is never refused. */
static void not_touching(void)
{
    CHECK(touches_none(HOVERING, 0.5f, 2.0f));
    CHECK(touches_none(LIFTED, 0.5f, 2.0f));
    CHECK(touches_none(3, 0.5f, 2.0f));
    CHECK(touches_none(256, 0.5f, 2.0f));
    CHECK(touches_none(0x80000000, 0.5f, 2.0f));
    CHECK(touches_none(0xffffffff, 0.5f, 2.0f));
    CHECK(touches_none(HOVERING, NAN, 16383.5f));
    CHECK(touches_none(HOVERING, 16383.5f, INFINITY));
    CHECK(touches_none(LIFTED, -INFINITY, NAN));
    CHECK(touches_none(0xffffffff, FLT_MAX, -FLT_MAX));
}

/* 13 of either float, then 14 of either. */
static void refusals(void)
{
    CHECK(refuses(13, INFINITY, 0.0f));
    CHECK(refuses(13, 0.0f, INFINITY));
    CHECK(refuses(13, -INFINITY, 0.0f));
    CHECK(refuses(13, 0.0f, -INFINITY));
    CHECK(refuses(13, NAN, 0.0f));
    CHECK(refuses(13, 0.0f, NAN));
    CHECK(refuses(13, -NAN, 0.0f));
    CHECK(refuses(13, 0.0f, -NAN));
    CHECK(refuses(14, 16383.5f, 0.0f));
    CHECK(refuses(14, 0.0f, 16383.5f));
    CHECK(refuses(14, -16384.502f, 0.0f));
    CHECK(refuses(14, 0.0f, -16384.502f));
    CHECK(refuses(14, 65536.0f, 0.0f));
    CHECK(refuses(14, 0.0f, -2147483648.0f));
    CHECK(refuses(14, 4294967296.0f, 0.0f));
    CHECK(refuses(14, 0.0f, 18446744073709551616.0f));
    CHECK(refuses(14, FLT_MAX, -FLT_MAX));
    /* 13 comes before 14. */
    CHECK(refuses(13, 16383.5f, NAN));
    CHECK(refuses(13, NAN, 16383.5f));
    CHECK(refuses(13, -16385.0f, -INFINITY));
    CHECK(refuses(13, INFINITY, FLT_MAX));
}

void pen(void)
{
    function_is("tc_pen");
    rounded();
    not_touching();
    refusals();
}
