/* Writes the mask of some lines as a PBM picture (P4), whose rows are a raster's rows. The frame is drawn band by band, and
 * only one band of it is ever held: a band is drawn as a window of its own rows.
 *
 *     mask LEFT TOP WIDTH HEIGHT [X0 Y0 X1 Y1]... > mask.pbm */
#include <stdio.h>
#include <stdlib.h>
#include <string.h>
#include "tuffcotton.h"

enum { BAND = 16, WIDEST = 8192 };

static uint8_t band[BAND * WIDEST / 8];

static void usage(void)
{
    fprintf(stderr, "usage: mask LEFT TOP WIDTH HEIGHT [X0 Y0 X1 Y1]...\n");
    exit(2);
}

static void refuse(uint32_t number)
{
    fprintf(stderr, "refused %u\n", number);
    exit(1);
}

/* A word's number. One that no coordinate or size can be becomes another such, which the library refuses. */
static int32_t number(const char *word)
{
    char *end;
    long n = strtol(word, &end, 10);
    if (end == word || *end != 0)
        usage();
    return n < -99999 ? -99999 : n > 99999 ? 99999 : (int32_t)n;
}

/* Draws all lines in a window, and leaves where one is refused. The raster is the window's, cleared first. */
static size_t draw_lines(tc_window window, int lines, char **words)
{
    size_t len = (size_t)window.height * ((window.width + 7) / 8);
    memset(band, 0, len);
    for (int i = 0; i < lines; i++, words += 4) {
        tc_ends ends = {number(words[0]), number(words[1]), number(words[2]), number(words[3])};
        tc_drawn drawn = tc_draw_single(ends, window, band, len);
        if (drawn.refused != 0)
            refuse(drawn.refused);
    }
    return len;
}

int main(int count, char **words)
{
    if (count < 5 || count % 4 != 1)
        usage();
    int lines = (count - 5) / 4;
    tc_window window = {number(words[1]), number(words[2]), (uint32_t)number(words[3]), (uint32_t)number(words[4])};
    uint32_t refused = tc_window_check(window.left, window.top, window.width, window.height);
    if (refused != 0)
        refuse(refused);
    /* In a window of one pixel first, so that nothing is written where a line is refused. */
    tc_window pixel = {window.left, window.top, 1, 1};
    draw_lines(pixel, lines, words + 5);
    printf("P4\n%u %u\n", window.width, window.height);
    for (uint32_t first = 0; first < window.height; first += BAND) {
        uint32_t rest = window.height - first;
        tc_window rows = {window.left, window.top + (int32_t)first, window.width, rest < BAND ? rest : BAND};
        size_t len = draw_lines(rows, lines, words + 5);
        fwrite(band, 1, len, stdout);
    }
    return 0;
}
