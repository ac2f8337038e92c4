/* The size of every struct of the C header, and each field's place and size, on x86-64. All is tested while compiling. */
#include <assert.h>
#include <stddef.h>
#include "tuffcotton.h"

#define SIZE(type, size) static_assert(sizeof(type) == (size), "the size of " #type)
#define FIELD(type, field, place, size)                                                                                          \
    static_assert(offsetof(type, field) == (place) && sizeof(((type *)0)->field) == (size), "the place of " #type "." #field)

SIZE(tc_ends, 16);
FIELD(tc_ends, x0, 0, 4);
FIELD(tc_ends, y0, 4, 4);
FIELD(tc_ends, x1, 8, 4);
FIELD(tc_ends, y1, 12, 4);

SIZE(tc_window, 16);
FIELD(tc_window, left, 0, 4);
FIELD(tc_window, top, 4, 4);
FIELD(tc_window, width, 8, 4);
FIELD(tc_window, height, 12, 4);

SIZE(tc_drawn, 24);
FIELD(tc_drawn, refused, 0, 4);
FIELD(tc_drawn, place, 4, 4);
FIELD(tc_drawn, count, 8, 8);
FIELD(tc_drawn, fresh, 16, 8);

SIZE(tc_listed, 12);
FIELD(tc_listed, refused, 0, 4);
FIELD(tc_listed, axis, 4, 4);
FIELD(tc_listed, runs, 8, 4);

SIZE(tc_found, 16);
FIELD(tc_found, refused, 0, 4);
FIELD(tc_found, found, 4, 4);
FIELD(tc_found, column, 8, 4);
FIELD(tc_found, row, 12, 4);

SIZE(tc_part, 16);
FIELD(tc_part, place, 0, 8);
FIELD(tc_part, len, 8, 8);

SIZE(tc_frame, 16);
FIELD(tc_frame, refused, 0, 4);
FIELD(tc_frame, found, 4, 4);
FIELD(tc_frame, place, 8, 4);
FIELD(tc_frame, len, 12, 4);

SIZE(tc_frame_drawn, 24);
FIELD(tc_frame_drawn, refused, 0, 4);
FIELD(tc_frame_drawn, found, 4, 4);
FIELD(tc_frame_drawn, count, 8, 8);
FIELD(tc_frame_drawn, fresh, 16, 8);

SIZE(tc_pixel, 16);
FIELD(tc_pixel, refused, 0, 4);
FIELD(tc_pixel, touching, 4, 4);
FIELD(tc_pixel, column, 8, 4);
FIELD(tc_pixel, row, 12, 4);
