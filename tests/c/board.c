/* The monitor's board on the machine that tests it.

   tests/c/run compiles it with examples/monitor. */

#include "board.h"
#include <stdio.h>

void board_say(const char *text) { fputs(text, stdout); }

void board_wait(void) {}
