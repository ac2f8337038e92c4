/* Tuffcotton: the scratch-mask library of a film scanner's panel, for programs in C.
 *
 * Link target/staticlib/libcapi.a, which `tools/archive` writes. It calls memset of the C library. Every function takes every
 * number: it answers, or it refuses with a number of document 01's list, which document 02 goes on with, and then no buffer has
 * changed. The buffers are the caller's: a function reads or writes the given number of elements and no others, keeps no pointer
 * after it has returned, and has no memory of its own but its stack (tc_lineruns about 60 KB). A pointer is never NULL, also where
 * its length is 0, and a buffer that is written does not overlap another.
 *
 * Columns grow rightwards, rows downwards; a coordinate is from -16384 to 16383. A raster has one bit a pixel, rows from the
 * top, each of (width + 7) / 8 bytes, the leftmost pixel of a byte worth 128; bits past the width are padding, never changed
 * and never counted.
 *
 * Refusals: 1 a coordinate of an end is out of range; 2 the window's width or height is not from 1 to 8192; 3 its left or top
 * is out of the coordinate range, or its last column or row is above 16383; 4 the raster's length is not height times the bytes
 * of a row; 5 the list is too short for the line's runs; 6 a band has no rows or ends below the window, or a row number is not
 * below the height; 7 three times the count of runs is more than the list's length; 8 a run has no pixel, or one out of the
 * coordinate range; 9 the input of lineruns is not one line of four numbers; 10 a reel's file is under 12 or over 65536 bytes
 * or lacks the letters, or would be longer; 11 its table falls, or table, position and lengths do not fit together; 12 a
 * record's coordinate is out of range; 13 a float of a touching pen is infinite or not a number; 14 a rounded coordinate of a
 * touching pen is out of range. They are tested in the order of the numbers. */
#ifndef TUFFCOTTON_H
#define TUFFCOTTON_H

#include <stddef.h>
#include <stdint.h>

#ifdef __cplusplus
extern "C" {
#endif

/* A line: column and row of the first and of the second end. It has a pixel for each step along the larger of both differences,
 * along x where they are equal. The other coordinate is the whole number nearest to the exact one, a half to the larger, so the
 * line with its ends exchanged has the same pixels. Where the second end moves by d in that coordinate alone and the larger
 * difference, L, stays along the same axis, the pixel at step i moves by at most i * d / L, rounded up. */
typedef struct { int32_t x0, y0, x1, y1; } tc_ends;

/* The part of the frame that a raster shows: its first column and row, its width and height in pixels. */
typedef struct { int32_t left, top; uint32_t width, height; } tc_window;

/* A drawing: 0 or the refusal's number; at 8 the place of the first bad run, from 0, else 0; the number of pixels; `fresh`, how
 * many of these pixels were unmarked at the call, each counted once. After the call the window has that many more marked pixels
 * than before. Both counts are 0 where refused. */
typedef struct { uint32_t refused, place; uint64_t count, fresh; } tc_drawn;

/* A listing: 0 or the refusal's number; the axis, 0 for x and 1 for y; the number of runs. Axis and runs are 0 where refused. */
typedef struct { uint32_t refused, axis, runs; } tc_listed;

/* A search: 0 or the refusal's number; 1 where a marked pixel was found, else 0; its column and row in the frame, 0 where none
 * was. */
typedef struct { uint32_t refused, found; int32_t column, row; } tc_found;

/* A part of a raster: the place of its first byte, and its length in bytes. 0, 0 is the empty part. */
typedef struct { size_t place, len; } tc_part;

/* Where a frame's records are in a reel's file: 0 or the refusal's number; 1 where the file has the frame, else 0; the place of
 * the first record's first byte, and the length of all of them, in bytes. Place and length are 0 where refused or not found. */
typedef struct { uint32_t refused, found; uint32_t place, len; } tc_frame;

/* A drawing of a frame's lines: 0 or the refusal's number; 1 where the file has the frame, else 0; the sum over the lines of
 * their pixels, an overlap counted each time; how many of these pixels were unmarked at the call, an overlap counted once. Both
 * counts are 0 where refused or not found. */
typedef struct { uint32_t refused, found; uint64_t count, fresh; } tc_frame_drawn;

/* What a report of the pen is answered with: 0 or the refusal's number; 1 where the pen touches a pixel, else 0; its column and
 * row, 0 where refused or not touching. */
typedef struct { uint32_t refused, touching; int32_t column, row; } tc_pixel;

/* Whether a window is within the limits: 0, or 2 or 3. */
uint32_t tc_window_check(int32_t left, int32_t top, uint32_t width, uint32_t height);

/* Marks the line's pixels that lie in the window, and answers how many they are and how many are fresh. Refuses 1, 2, 3, 4. The
 * second one goes two steps at a time; both mark and answer the same. */
tc_drawn tc_draw_single(tc_ends ends, tc_window window, uint8_t *raster, size_t len);
tc_drawn tc_draw_double(tc_ends ends, tc_window window, uint8_t *raster, size_t len);

/* Marks the line's pixels in the window's rows from `first` up to, but without, first + rows, counted from 0 at the window's
 * top, and answers how many they are and how many are fresh. `raster` is the whole window's; only the band's rows are written.
 * Refuses 1, 2, 3, 4, 6. */
tc_drawn tc_draw_band(tc_ends ends, tc_window window, uint32_t first, uint32_t rows, uint8_t *raster, size_t len);

/* Writes the line's runs, three numbers to a run (short coordinate, lowest long coordinate, number of pixels), in the line's
 * order from the first end, and leaves the rest of the list. With the ends exchanged the same runs come in the reverse order. `len`
 * counts numbers. Refuses 1, 5. */
tc_listed tc_list_runs(tc_ends ends, int32_t *list, size_t len);

/* Marks the pixels of a list's first `count` runs that lie in the window, and answers their sum over the runs, an overlap
 * counted each time, and how many are fresh, an overlap counted once. Axis 0 is x, any other is y. Numbers after the
 * counted runs are not looked at. All runs are checked before the first bit changes. Refuses 2, 3, 4, 7, 8. */
tc_drawn tc_paint_runs(uint32_t axis, uint32_t count, const int32_t *list, size_t list_len, tc_window window, uint8_t *raster,
                       size_t len);

/* Where the bytes of a row lie in the raster; the row is counted from 0 at the window's top. The empty part where 2, 3, 4 or 6
 * is met. */
tc_part tc_row_view(tc_window window, const uint8_t *raster, size_t len, uint32_t row);

/* The first marked pixel, row by row from the top and in each row from the left. Padding is never found. Refuses 2, 3, 4. */
tc_found tc_first_marked(tc_window window, const uint8_t *raster, size_t len);

/* The marks of a reel in one file. A record is 8 bytes, a line's first column, first row, second column and second row, each a
 * signed number of 16 bits. Behind the records stands the table: for each frame from 0 an unsigned number of 32 bits, the records
 * up to this frame's end. The last 12 bytes are the table's position in bytes, the number of frames, both like the table's
 * numbers, and the letters MRKS. Every number has its low byte first. */

/* Where the records of a frame, counted from 0, are in the file; not found where its number is not below the number of frames.
 * Every record of the file is tested, whatever the frame. Refuses 10, 11, 12. */
tc_frame tc_reel_find(const uint8_t *file, size_t len, uint32_t frame);

/* Writes the file of a list of `n` numbers, four to a record, and a table of `frames` numbers. `room` is exactly the file's
 * length, 2 * n + 4 * frames + 12. Answers 0, or 10, 11 or 12 with the buffer unaltered. */
uint32_t tc_reel_write(const int32_t *list, size_t n, const uint32_t *table, size_t frames, uint8_t *out, size_t room);

/* Marks the pixels of all lines of a frame in the window's rows from `first` up to, but without, first + rows, read straight from
 * the file. `raster` is the whole window's; only the band's rows are written. Where the file does not have the frame nothing
 * changes. Refuses 2, 3, 4, 6, 10, 11, 12. */
tc_frame_drawn tc_reel_draw(const uint8_t *file, size_t len, uint32_t frame, tc_window window, uint32_t first, uint32_t rows,
                            uint8_t *raster, size_t raster_len);

/* The pixel that the pen touches. `kind` is 0 for a pen that touches, 1 for one that hovers, any other for one that is lifted;
 * column and row are in pixels with a fraction. Each becomes the nearest whole number, a half the larger: 0.49999997, -0.5 and -0
 * give 0. A pen that does not touch is never refused, whatever its floats. Refuses 13 of either float, then 14 of either. */
tc_pixel tc_pen(uint32_t kind, float column, float row);

/* Writes what the program lineruns prints for its input, and answers the number of bytes written. Where room is under 110000
 * it writes nothing and answers 0; no printed text is longer. */
size_t tc_lineruns(const uint8_t *input, size_t len, uint8_t *output, size_t room);

#ifdef __cplusplus
}
#endif

#endif
