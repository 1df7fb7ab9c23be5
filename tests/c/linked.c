/* A program of one call, which must not be linked with an archive of another version than the header's.

   tests/c/run compiles it with this header and with one of another version. It never names the version itself. */

#include "quendaric.h"

int main(void) { return quendaric_root_whole(81).root == 9 ? 0 : 1; }
