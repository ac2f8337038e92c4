/* The lister of a line's runs. The lettered lines are document 01's, with the halves of document 02, 4/13. */
#include <stdio.h>
#include "check.h"

static void listed_is(tc_listed listed, uint32_t refused, uint32_t axis, uint32_t runs)
{
    is("refused", listed.refused, refused);
    is("axis", listed.axis, axis);
    is("runs", listed.runs, runs);
}

/* A list that holds `before` is left with `after`. */
static void lists(tc_ends e, const char *before, const char *after, uint32_t axis, uint32_t runs)
{
    lent list = lend_numbers(before);
    listed_is(tc_list_runs(e, list_of(list), list.len), 0, axis, runs);
    holds("list", list, after);
}

static void refuses(uint32_t number, tc_ends e, const char *before)
{
    lent list = lend_numbers(before);
    listed_is(tc_list_runs(e, list_of(list), list.len), number, 0, 0);
    holds("list", list, before);
}

/* Room for exactly the runs; a run is its short coordinate, its lowest long coordinate and its number of pixels. */
static void lettered_lines(void)
{
    CHECK(lists(line(5, 5, 5, 5), "3x-7", "5 5 1", 0, 1));
    CHECK(lists(line(0, 0, 10, 0), "3x-7", "0 0 11", 0, 1));
    CHECK(lists(line(0, 0, 3, 3), "12x-7", "0 0 1, 1 1 1, 2 2 1, 3 3 1", 0, 4));
    CHECK(lists(line(0, 0, 2, 1), "6x-7", "0 0 1, 1 1 2", 0, 2));
    CHECK(lists(line(2, 1, 0, 0), "6x-7", "1 1 2, 0 0 1", 0, 2));
    CHECK(lists(line(0, 0, 4, 2), "9x-7", "0 0 1, 1 1 2, 2 3 2", 0, 3));
    CHECK(lists(line(4, 2, 0, 0), "9x-7", "2 3 2, 1 1 2, 0 0 1", 0, 3));
    CHECK(lists(line(0, 0, 3, 7), "12x-7", "0 0 2, 1 2 2, 2 4 2, 3 6 2", 1, 4));
    CHECK(lists(line(3, 7, 0, 0), "12x-7", "3 6 2, 2 4 2, 1 2 2, 0 0 2", 1, 4));
    CHECK(lists(line(0, 0, 11, 3), "12x-7", "0 0 2, 1 2 4, 2 6 4, 3 10 2", 0, 4));
    CHECK(lists(line(11, 3, 0, 0), "12x-7", "3 10 2, 2 6 4, 1 2 4, 0 0 2", 0, 4));
    CHECK(lists(line(0, 0, -11, -3), "12x-7", "0 -1 2, -1 -5 4, -2 -9 4, -3 -11 2", 0, 4));
    CHECK(lists(line(-3, 0, 3, 0), "3x-7", "0 -3 7", 0, 1));
}

static void other_lines(void)
{
    /* Upright, falling diagonal, and halves of falling lines. */
    CHECK(lists(line(4, 2, 4, -2), "3x-7", "4 -2 5", 1, 1));
    CHECK(lists(line(0, 3, 3, 0), "12x-7", "3 0 1, 2 1 1, 1 2 1, 0 3 1", 0, 4));
    CHECK(lists(line(0, 1, 2, 0), "6x-7", "1 0 2, 0 2 1", 0, 2));
    CHECK(lists(line(1, 0, 0, 2), "6x-7", "1 0 2, 0 2 1", 1, 2));
    /* More room than the runs take: the rest of the list stays. */
    CHECK(lists(line(0, 0, 11, 3), "13x-7", "0 0 2, 1 2 4, 2 6 4, 3 10 2, -7", 0, 4));
    CHECK(lists(line(0, 0, 3, 7), "15x-7", "0 0 2, 1 2 2, 2 4 2, 3 6 2, -7 -7 -7", 1, 4));
    /* The longest lines, in both directions. */
    CHECK(lists(line(-16384, 0, 16383, 1), "6x-7", "0 -16384 16384, 1 0 16384", 0, 2));
    CHECK(lists(line(1, 16383, 0, -16384), "6x-7", "1 0 16384, 0 -16384 16384", 1, 2));
    CHECK(lists(line(-16384, 16383, 16383, 16383), "3x-7", "16383 -16384 32768", 0, 1));
}

/* The diagonal of all coordinates has the most runs, one for each pixel. */
static void longest_list(void)
{
    static char all[32768 * 18 + 1];
    char *end = all;
    for (int c = -16384; c <= 16383; c++)
        end += sprintf(end, "%d %d 1, ", c, c);
    CHECK(lists(line(-16384, -16384, 16383, 16383), "98304x-7", all, 0, 32768));
    CHECK(refuses(5, line(-16384, -16384, 16383, 16383), "98303x-7"));
}

static void refusals(void)
{
    CHECK(refuses(5, line(0, 0, 11, 3), "11x-7"));
    CHECK(refuses(5, line(0, 0, 11, 3), "10x-7"));
    CHECK(refuses(5, line(0, 0, 11, 3), "4x-7"));
    CHECK(refuses(5, line(0, 0, 3, 7), "11x-7"));
    CHECK(refuses(5, line(5, 5, 5, 5), "-7 -7"));
    CHECK(refuses(5, line(5, 5, 5, 5), ""));
    CHECK(refuses(1, line(-16385, 0, 11, 3), "98304x-7"));
    CHECK(refuses(1, line(0, -16385, 11, 3), "98304x-7"));
    CHECK(refuses(1, line(0, 0, -16385, 3), "98304x-7"));
    CHECK(refuses(1, line(0, 0, 11, -16385), "98304x-7"));
    CHECK(refuses(1, line(16384, 0, 11, 3), "98304x-7"));
    CHECK(refuses(1, line(0, 16384, 11, 3), "98304x-7"));
    CHECK(refuses(1, line(0, 0, 16384, 3), "98304x-7"));
    CHECK(refuses(1, line(0, 0, 11, 16384), "98304x-7"));
    CHECK(refuses(1, line(INT32_MIN, INT32_MIN, INT32_MAX, INT32_MAX), "98304x-7"));
    /* 1 comes before 5. */
    CHECK(refuses(1, line(16384, 0, 11, 3), "11x-7"));
    CHECK(refuses(1, line(0, 0, 0, 16384), ""));
}

void listing(void)
{
    function_is("tc_list_runs");
    lettered_lines();
    other_lines();
    longest_list();
    refusals();
}
