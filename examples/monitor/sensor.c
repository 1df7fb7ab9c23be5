/* In place of a cell and its converter: the bits of a current in nA and of a sensitivity in nA a part per billion, a
   pair for each second. */

#include "board.h"

#define NAN_BITS 0x7FF8000000000000u
#define INFINITE 0x7FF0000000000000u
#define PER_PPB 0x3FE6666666666666u /* 0.7 */

static const uint64_t samples[][2] = {
    {0x0000000000000000u, PER_PPB},                       /* clean air */
    {0xBFF0000000000000u, PER_PPB},                       /* -1: drift */
    {0x409B580000000000u, PER_PPB},                       /* 1750 */
    {0x40BB570000000000u, PER_PPB},                       /* 6999: just below the alarm */
    {0x40BB580000000000u, PER_PPB},                       /* 7000: just at it */
    {0x40CF400000000000u, PER_PPB},                       /* 16000 */
    {NAN_BITS, PER_PPB},                                  /* the converter's answer is lost: the alarm goes on */
    {0x40AF400000000000u, PER_PPB},                       /* 4000: it ends */
    {0x40AF400000000000u, 0},                             /* the sensitivity is lost: dead */
    {0, 0},                                               /* and no current */
    {0x40AF400000000000u, INFINITE},                      /* the third second: a fault */
    {0x40AF400000000000u, 0x8000000000000000u},           /* minus zero */
    {0x40AF400000000000u, 0x0000000000000001u},           /* almost dead: the quotient overflows */
    {0x40AF400000000000u, 0x3EB0000000000000u},           /* 2^-20: no sensitivity of this cell */
    {0x4156E36000000000u, PER_PPB},                       /* 6000000: no reading of this cell */
    {0x40AF400000000000u, PER_PPB + ((uint64_t)1 << 62)}, /* almost infinite: the quotient looks like clean air */
    {0x40AF400000000000u, 0xBFE6666666666666u},           /* -0.7 */
    {INFINITE, PER_PPB},
    {0x40AF400000000000u, PER_PPB}, /* back: the fault ends */
    {0x0000000000000001u, PER_PPB}, /* a quotient that underflows: clean air */
};

bool board_sample(uint64_t *current, uint64_t *sensitivity) {
  static unsigned next;
  if (next == sizeof samples / sizeof samples[0])
    return false;
  *current = samples[next][0], *sensitivity = samples[next++][1];
  return true;
}
