/* A reel's file: where a frame's records are, and writing it. */
#include "check.h"

/* Three frames: the lines D and E of document 01, no line, line J. Records, table, and the last 12 bytes. */
#define RECORDS "0 0 0 0 2 0 1 0, 2 0 1 0 0 0 0 0, 253 255 0 0 3 0 0 0, "
#define TABLE "2 0 0 0, 2 0 0 0, 3 0 0 0, "
#define LETTERS "77 82 75 83"
#define LAST "24 0 0 0, 3 0 0 0, " LETTERS
#define LIST "0 0 2 1, 2 1 0 0, -3 0 3 0"

/* No records, no frames. A record with numbers of two bytes, some below 0. The longest files, of one frame and of no records. */
#define EMPTY "0 0 0 0, 0 0 0 0, " LETTERS
#define ONE "2 1 0 192 255 63 254 255, 1 0 0 0, 8 0 0 0, 1 0 0 0, " LETTERS
#define LONGEST "65520x0, 254 31 0 0, 240 255 0 0, 1 0 0 0, " LETTERS
#define FRAMES "65524x0, 0 0 0 0, 253 63 0 0, " LETTERS

static void answers(const char *bytes, uint32_t frame, uint32_t refused, uint32_t found, uint32_t place, uint32_t len)
{
    lent file = for_reading(lend_bytes(bytes));
    tc_frame answer = tc_reel_find(file.bytes, file.len, frame);
    is("refused", answer.refused, refused);
    is("found", answer.found, found);
    is("place", answer.place, place);
    is("len", answer.len, len);
}

static void finds(const char *file, uint32_t frame, uint32_t place, uint32_t len)
{
    answers(file, frame, 0, 1, place, len);
}

static void finds_none(const char *file, uint32_t frame)
{
    answers(file, frame, 0, 0, 0, 0);
}

/* Refused for a frame that the file has and for one that it doesn't have. */
static void not_read(uint32_t number, const char *file)
{
    answers(file, 0, number, 0, 0, 0);
    answers(file, 0xffffffff, number, 0, 0, 0);
}

static void frames_found(void)
{
    CHECK(finds(RECORDS TABLE LAST, 0, 0, 16));
    CHECK(finds(RECORDS TABLE LAST, 1, 16, 0));
    CHECK(finds(RECORDS TABLE LAST, 2, 16, 8));
    CHECK(finds_none(RECORDS TABLE LAST, 3));
    CHECK(finds_none(RECORDS TABLE LAST, 65536));
    CHECK(finds_none(RECORDS TABLE LAST, 0xffffffff));
    CHECK(finds(ONE, 0, 0, 8));
    CHECK(finds_none(ONE, 1));
    CHECK(finds_none(EMPTY, 0));
    CHECK(finds_none(EMPTY, 0xffffffff));
    CHECK(finds(LONGEST, 0, 0, 65520));
    CHECK(finds_none(LONGEST, 1));
    CHECK(finds(FRAMES, 16380, 0, 0));
    CHECK(finds_none(FRAMES, 16381));
    /* 258 records, 1 x 256 + 2, in the second of two frames; their 2064 bytes are 8 x 256 + 16. */
    CHECK(finds("2064x0, 0 0 0 0, 2 1 0 0, 16 8 0 0, 2 0 0 0, " LETTERS, 1, 0, 2064));
}

/* 10: under 12 or over 65536 bytes, or without the letters. */
static void file_refused(void)
{
    CHECK(not_read(10, ""));
    CHECK(not_read(10, LETTERS));
    CHECK(not_read(10, "0 0 0, 0 0 0 0, " LETTERS));
    CHECK(not_read(10, RECORDS TABLE "24 0 0 0, 3 0 0 0, 109 82 75 83"));
    CHECK(not_read(10, RECORDS TABLE "24 0 0 0, 3 0 0 0, 77 0 75 83"));
    CHECK(not_read(10, RECORDS TABLE "24 0 0 0, 3 0 0 0, 77 82 74 83"));
    CHECK(not_read(10, RECORDS TABLE "24 0 0 0, 3 0 0 0, 77 82 75 84"));
    CHECK(not_read(10, RECORDS TABLE "24 0 0 0, 3 0 0 0, 83 75 82 77"));
    CHECK(not_read(10, RECORDS TABLE LAST ", 0"));
    CHECK(not_read(10, "0, " LONGEST));
    CHECK(not_read(10, "65520x0, 254 31 0 0, 254 31 0 0, 240 255 0 0, 2 0 0 0, " LETTERS));
}

/* 11: a table number falls, eight times the last is not the position, or position, table and 12 are not the whole. */
static void table_refused(void)
{
    CHECK(not_read(11, RECORDS "3 0 0 0, 2 0 0 0, 3 0 0 0, " LAST));
    CHECK(not_read(11, RECORDS "2 0 0 0, 4 0 0 0, 3 0 0 0, " LAST));
    CHECK(not_read(11, RECORDS "2 0 0 0, 2 0 0 0, 4 0 0 0, " LAST));
    CHECK(not_read(11, RECORDS "2 0 0 0, 2 0 0 0, 2 0 0 0, " LAST));
    CHECK(not_read(11, RECORDS "2 0 0 0, 2 0 0 0, 3 0 0 32, " LAST));
    CHECK(not_read(11, RECORDS TABLE "23 0 0 0, 3 0 0 0, " LETTERS));
    CHECK(not_read(11, RECORDS TABLE "24 0 0 128, 3 0 0 0, " LETTERS));
    CHECK(not_read(11, RECORDS TABLE "24 0 0 0, 2 0 0 0, " LETTERS));
    CHECK(not_read(11, RECORDS TABLE "24 0 0 0, 4 0 0 0, " LETTERS));
    CHECK(not_read(11, RECORDS TABLE "24 0 0 0, 3 0 0 64, " LETTERS));
    CHECK(not_read(11, RECORDS TABLE "28 0 0 0, 2 0 0 0, " LETTERS));
    CHECK(not_read(11, RECORDS TABLE "20 0 0 0, 4 0 0 0, " LETTERS));
    CHECK(not_read(11, RECORDS TABLE "36 0 0 0, 0 0 0 0, " LETTERS));
    CHECK(not_read(11, RECORDS TABLE "0 0 0 24, 0 0 0 3, " LETTERS));
    CHECK(not_read(11, "0, " EMPTY));
    CHECK(not_read(11, "8 0 0 0, 0 0 0 0, " LETTERS));
}

/* 12: 16384, -16385, 32767 or -32768 in any place of any record; 16383 and -16384 are accepted. */
static void record_refused(void)
{
    CHECK(not_read(12, "0 64 0 0 2 0 1 0, 2 0 1 0 0 0 0 0, 253 255 0 0 3 0 0 0, " TABLE LAST));
    CHECK(not_read(12, "0 0 255 191 2 0 1 0, 2 0 1 0 0 0 0 0, 253 255 0 0 3 0 0 0, " TABLE LAST));
    CHECK(not_read(12, "0 0 0 0 2 0 1 0, 2 0 1 0 255 127 0 0, 253 255 0 0 3 0 0 0, " TABLE LAST));
    CHECK(not_read(12, "0 0 0 0 2 0 1 0, 2 0 1 0 0 0 0 0, 253 255 0 0 3 0 0 128, " TABLE LAST));
    CHECK(not_read(12, "65512x0, 0 0 0 0 0 0 0 64, 254 31 0 0, 240 255 0 0, 1 0 0 0, " LETTERS));
    CHECK(finds("255 63 0 192 2 0 1 0, 0 192 255 63 0 0 0 0, 253 255 0 0 255 63 0 192, " TABLE LAST, 2, 16, 8));
    /* 10 comes before 11 and 12, 11 before 12. */
    CHECK(not_read(10, RECORDS "3 0 0 0, 2 0 0 0, 3 0 0 0, 24 0 0 0, 3 0 0 0, 77 82 75 115"));
    CHECK(not_read(10, "0 64 0 0 0 0 0 0, 1 0 0 0, 8 0 0 0, 1 0 0 0, 77 82 75 115"));
    CHECK(not_read(11, "0 64 0 0 0 0 0 0, 2 0 0 0, 8 0 0 0, 1 0 0 0, " LETTERS));
}

static uint32_t write(lent list, lent table, lent out)
{
    return tc_reel_write(list_of(list), list.len, table_of(table), table.len, out.bytes, out.len);
}

/* Writes exactly this file into a buffer of `before`. */
static void writes(const char *numbers, const char *ends, const char *before, const char *file)
{
    lent list = for_reading(lend_numbers(numbers)), table = for_reading(lend_numbers(ends)), out = lend_bytes(before);
    is("refused", write(list, table, out), 0);
    holds("file", out, file);
}

static void not_written(uint32_t number, const char *numbers, const char *ends, const char *before)
{
    lent list = for_reading(lend_numbers(numbers)), table = for_reading(lend_numbers(ends)), out = lend_bytes(before);
    is("refused", write(list, table, out), number);
    holds("file", out, before);
}

static void files_written(void)
{
    CHECK(writes(LIST, "2 2 3", "48x170", RECORDS TABLE LAST));
    CHECK(writes("", "", "12x170", EMPTY));
    CHECK(writes("258 -16384 16383 -2", "1", "24x170", ONE));
    CHECK(writes("32760x0", "8190", "65536x170", LONGEST));
    CHECK(writes("", "16381x0", "65536x170", FRAMES));
    CHECK(writes("1032x0", "0 258", "2084x170", "2064x0, 0 0 0 0, 2 1 0 0, 16 8 0 0, 2 0 0 0, " LETTERS));
    CHECK(writes("", "0 0", "20x170", "0 0 0 0, 0 0 0 0, 0 0 0 0, 2 0 0 0, " LETTERS));
}

/* 10: the file would be longer than 65536 bytes. */
static void too_long(void)
{
    CHECK(not_written(10, "32761x0", "8190", "65538x170"));
    CHECK(not_written(10, "32760x0", "8190 8190", "65540x170"));
    CHECK(not_written(10, "32764x0", "8191", "65544x170"));
    CHECK(not_written(10, "", "16382x0", "65540x170"));
    CHECK(not_written(10, "32764x0", "", "12x170"));
    CHECK(not_written(10, "98304x0", "24576", ""));
}

/* 11: a table number falls, the list isn't four times the last one long, or the room isn't the file's length. */
static void tables_refused(void)
{
    CHECK(not_written(11, LIST, "3 2 3", "48x170"));
    CHECK(not_written(11, LIST, "2 4 3", "48x170"));
    CHECK(not_written(11, LIST, "2 2 2", "48x170"));
    CHECK(not_written(11, LIST, "2 2 4", "48x170"));
    CHECK(not_written(11, LIST, "0 4294967295 3", "48x170"));
    CHECK(not_written(11, LIST, "1073741827", "40x170"));
    CHECK(not_written(11, LIST ", 0", "2 2 3", "50x170"));
    CHECK(not_written(11, "0 0 2 1, 2 1 0 0, -3 0 3", "2 2 3", "46x170"));
    CHECK(not_written(11, LIST, "", "36x170"));
    CHECK(not_written(11, LIST, "2 2 3", "47x170"));
    CHECK(not_written(11, LIST, "2 2 3", "49x170"));
    CHECK(not_written(11, LIST, "2 2 3", ""));
    CHECK(not_written(11, "", "", "11x170"));
    CHECK(not_written(11, "", "", "13x170"));
    CHECK(not_written(11, "", "", ""));
}

/* 12: a number is no coordinate, also where one of 16 bits would be. */
static void records_refused(void)
{
    CHECK(not_written(12, "16384 0 0 0", "1", "24x170"));
    CHECK(not_written(12, "0 -16385 0 0", "1", "24x170"));
    CHECK(not_written(12, "0 0 65536 0", "1", "24x170"));
    CHECK(not_written(12, "0 0 0 65535", "1", "24x170"));
    CHECK(not_written(12, "0 0 2 1, 2 1 0 0, -3 0 3 -2147483648", "2 2 3", "48x170"));
    CHECK(not_written(12, "0 0 2 1, 2147483647 1 0 0, -3 0 3 0", "2 2 3", "48x170"));
    /* 10 comes before 11 and 12, 11 before 12. */
    CHECK(not_written(10, "32764x0", "8192", "65544x170"));
    CHECK(not_written(10, "32764x16384", "8191", "65544x170"));
    CHECK(not_written(11, "16384 0 0 0", "2", "24x170"));
    CHECK(not_written(11, "16384 0 0 0", "1", "23x170"));
}

void reel(void)
{
    function_is("tc_reel_find");
    frames_found();
    file_refused();
    table_refused();
    record_refused();
    function_is("tc_reel_write");
    files_written();
    too_long();
    tables_refused();
    records_refused();
}
