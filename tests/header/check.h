/* What the tests of the C header stand on: checks that name their line where something differs, and lent buffers between two
 * pages that can't be accessed, so that an access outside of one ends the program. */
#ifndef CHECK_H
#define CHECK_H

#include <stddef.h>
#include <stdint.h>
#include "tuffcotton.h"

/* Does a check, the call of a function that compares. What differs, or an access outside of a buffer, is printed with the check's
 * file, line and text, and ends the program. The buffers lent in a check are given back when the next one begins. */
#define CHECK(check) (begin_check(__FILE__, __LINE__, #check), (check))
void begin_check(const char *file, int line, const char *text);

/* The C function that the following checks call. It is printed as well. */
void function_is(const char *name);

/* Lets an access outside of a buffer, and a program that doesn't end, print the check. */
void catch_faults(void);

/* How many numbers and whole buffers were compared. */
unsigned long compared(void);
void compared_one(void);

/* Prints the check and what differs, and ends the program. */
void fail(const char *format, ...);

/* The number is the expected one. */
void is(const char *what, int64_t number, int64_t expected);

/* A drawing's answer is this one, field by field. */
void drawn_is(tc_drawn drawn, uint32_t refused, uint32_t place, uint64_t count, uint64_t fresh);

/* A line and a window, by their fields in order. */
tc_ends line(int32_t x0, int32_t y0, int32_t x1, int32_t y1);
tc_window window(int32_t left, int32_t top, uint32_t width, uint32_t height);

/* A lent buffer of len bytes or len numbers of 32 bits. Where len is 0 no byte at its pointer can be accessed. */
typedef struct {
    uint8_t *bytes;
    size_t len;
    size_t size;    /* an element's bytes */
    uint8_t *pages; /* the pages that the buffer lies in, without those before and behind */
    size_t room;    /* their bytes */
} lent;

/* Whether buffers lent from now on end at a page that can't be accessed, or begin at one. */
enum guard { ENDS_AT_GUARD, BEGINS_AT_GUARD };
void guard_is(enum guard guard);

/* A buffer is lent, and compared, by a text of its numbers: "192 0, 60 0", or "1024x255" for 1024 numbers 255. */
lent lend_bytes(const char *numbers);
lent lend_numbers(const char *numbers);

/* A buffer of a text's first len characters. */
lent lend_text(const char *text, size_t len);

/* The same buffer, which can't be written any more. */
lent for_reading(lent buffer);

/* The numbers of a list, signed, and of a table, unsigned. */
int32_t *list_of(lent buffer);
uint32_t *table_of(lent buffer);

/* The buffer holds these numbers, and the rest of its pages is as it was. */
void holds(const char *what, lent buffer, const char *numbers);

/* The buffer of bytes begins with a text, each byte after it is `rest`, and the rest of its pages is as it was. */
void holds_text(const char *what, lent buffer, const char *text, uint8_t rest);

/* Gives all buffers back. */
void give_back(void);

/* Fails where the address lies in a buffer's pages or in the two around them, by the place in the buffer. */
void fail_at(const void *address);

/* Hands to a check windows with rasters that are refused with 2, 3 or 4, two of them met among these; and such that are
 * accepted, with a clear raster. */
void refused_frames(void (*refuses)(uint32_t number, tc_window w, const char *raster));
void accepted_frames(void (*accepts)(tc_window w, const char *raster));

/* The checks, in files of the same names. */
void frame(void);
void drawing(void);
void band(void);
void listing(void);
void painting(void);
void ways(void);
void reading(void);
void reel(void);
void reel_draw(void);
void pen(void);
void text(void);

#endif
