/* Calls every function of the C header, on buffers that end at a page that can't be accessed and again on such that begin at one.
 * Prints how many numbers and buffers were compared, or ends at the first one that differs. */
#include <stdio.h>
#include "check.h"

int main(void)
{
    const enum guard guards[] = {ENDS_AT_GUARD, BEGINS_AT_GUARD};
    catch_faults();
    for (int i = 0; i < 2; i++) {
        guard_is(guards[i]);
        frame();
        drawing();
        band();
        listing();
        painting();
        ways();
        reading();
        reel();
        reel_draw();
        pen();
        text();
    }
    printf("%lu\n", compared());
    return 0;
}
