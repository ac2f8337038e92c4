/* What lineruns prints for its input. The input is read only. */
#include <stdio.h>
#include <string.h>
#include "check.h"

/* What the output holds before; the room that is enough, and one byte less. */
#define ENOUGH "110000x170"
#define LESS "109999x170"

/* The first len bytes of the input are answered with this text; the rest of the output stays. */
static void prints_for(const char *bytes, size_t len, const char *before, const char *text)
{
    lent input = for_reading(lend_text(bytes, len)), output = lend_bytes(before);
    is("answer", (int64_t)tc_lineruns(input.bytes, input.len, output.bytes, output.len), (int64_t)strlen(text));
    holds_text("output", output, text, 170);
}

static void prints(const char *input, const char *text)
{
    prints_for(input, strlen(input), ENOUGH, text);
}

static void lines(void)
{
    CHECK(prints("0 0 11 3", "axis x runs 4\n0 0 2\n1 2 4\n2 6 4\n3 10 2\n"));
    CHECK(prints("0 0 11 3\n", "axis x runs 4\n0 0 2\n1 2 4\n2 6 4\n3 10 2\n"));
    CHECK(prints("0 0 3 7", "axis y runs 4\n0 0 2\n1 2 2\n2 4 2\n3 6 2\n"));
    CHECK(prints("0 0 -11 -3\n", "axis x runs 4\n0 -1 2\n-1 -5 4\n-2 -9 4\n-3 -11 2\n"));
    CHECK(prints("2 1 0 0", "axis x runs 2\n1 1 2\n0 0 1\n"));
    CHECK(prints("5 5 5 5", "axis x runs 1\n5 5 1\n"));
    CHECK(prints("000005 -0 5 000000", "axis x runs 1\n0 5 1\n"));
    CHECK(prints("-016384 -16384 16383 -16384\n", "axis x runs 1\n-16384 -16384 32768\n"));
    CHECK(prints("-16384 0 16383 1", "axis x runs 2\n0 -16384 16384\n1 0 16384\n"));
}

/* 9: anything but four numbers of up to 6 digits, single blanks between, one newline or none, in at most 64 bytes. */
static void no_lines(void)
{
    CHECK(prints("", "refused 9\n"));
    CHECK(prints("\n", "refused 9\n"));
    CHECK(prints("0 0 11", "refused 9\n"));
    CHECK(prints("0 0 11 3 5", "refused 9\n"));
    CHECK(prints(" 0 0 11 3", "refused 9\n"));
    CHECK(prints("0 0 11 3 ", "refused 9\n"));
    CHECK(prints("0  0 11 3", "refused 9\n"));
    CHECK(prints("0\t0 11 3", "refused 9\n"));
    CHECK(prints("0 0\n11 3", "refused 9\n"));
    CHECK(prints("\n0 0 11 3", "refused 9\n"));
    CHECK(prints("0 0 11 3\n\n", "refused 9\n"));
    CHECK(prints("0 0 11 3\r\n", "refused 9\n"));
    CHECK(prints("0 0 11 3\n0", "refused 9\n"));
    CHECK(prints("+0 0 11 3", "refused 9\n"));
    CHECK(prints("- 0 11 3", "refused 9\n"));
    CHECK(prints("0 0 11 --3", "refused 9\n"));
    CHECK(prints("0 0 11 3-", "refused 9\n"));
    CHECK(prints("0 0 11 0x3", "refused 9\n"));
    CHECK(prints("0 0 11 3.0", "refused 9\n"));
    CHECK(prints("0 0 11 /", "refused 9\n"));
    CHECK(prints("0 0 11 :", "refused 9\n"));
    CHECK(prints("0000000 0 11 3", "refused 9\n"));
    CHECK(prints("0 0 11 -0000003", "refused 9\n"));
    CHECK(prints_for("0 0 11 3\0", 9, ENOUGH, "refused 9\n"));
    CHECK(prints("0 0 11 3\n                                                        ", "refused 9\n"));
    CHECK(prints("0000000000000000000000000000000000000000000000000000000000000000", "refused 9\n"));
}

/* 1, and 5 for more than 5000 runs; 9, 1 and 5 in this order. */
static void other_refusals(void)
{
    CHECK(prints("16384 0 11 3", "refused 1\n"));
    CHECK(prints("0 -16385 11 3\n", "refused 1\n"));
    CHECK(prints("0 0 999999 3", "refused 1\n"));
    CHECK(prints("0 0 11 -999999", "refused 1\n"));
    CHECK(prints("0 0 5000 5000", "refused 5\n"));
    CHECK(prints("16383 -16384 11383 -11384\n", "refused 5\n"));
    CHECK(prints("-16384 -16384 16383 16383\n", "refused 5\n"));
    CHECK(prints("16384 16384 0 0", "refused 1\n"));
    CHECK(prints("16384 16384 0 0 ", "refused 9\n"));
    CHECK(prints("0 0 5000 5000 ", "refused 9\n"));
    CHECK(prints("0 0 999999 9999999", "refused 9\n"));
}

/* 5000 runs, each of the longest numbers that are on a diagonal: 16 bytes, after a line of 17. */
static void most_runs(void)
{
    static char all[17 + 5000 * 16 + 1];
    char *end = all + sprintf(all, "axis x runs 5000\n");
    for (int c = -16384; c < -16384 + 5000; c++)
        end += sprintf(end, "%d %d 1\n", c, c);
    CHECK(is("length", (int64_t)strlen(all), 80017));
    CHECK(prints("-16384 -16384 -11385 -11385\n", all));
}

/* Under 110000 bytes of room nothing is written, whatever the input. */
static void rooms(void)
{
    CHECK(prints_for("0 0 11 3", 8, LESS, ""));
    CHECK(prints_for("0 0 11", 6, LESS, ""));
    CHECK(prints_for("16384 0 11 3", 12, LESS, ""));
    CHECK(prints_for("", 0, LESS, ""));
    CHECK(prints_for("0 0 11 3", 8, "39x170", ""));
    CHECK(prints_for("0 0 11 3", 8, "", ""));
    CHECK(prints_for("", 0, "", ""));
    CHECK(prints_for("0 0 11 3", 8, "110001x170", "axis x runs 4\n0 0 2\n1 2 4\n2 6 4\n3 10 2\n"));
    CHECK(prints_for("", 0, "110001x170", "refused 9\n"));
}

void text(void)
{
    function_is("tc_lineruns");
    lines();
    no_lines();
    other_refusals();
    most_runs();
    rooms();
}
