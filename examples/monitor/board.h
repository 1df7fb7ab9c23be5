/* What the monitor needs of its board. */

#ifndef BOARD_H
#define BOARD_H

#include <stdbool.h>
#include <stdint.h>

extern const uint8_t board_table[2048]; /* the table that the divider was burned with */

void board_say(const char *text);
void board_wait(void);                                       /* until the next second */
bool board_sample(uint64_t *current, uint64_t *sensitivity); /* false: the cell is switched off */

#endif
