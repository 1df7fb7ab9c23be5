/* Would catch a target on which a call answers, refuses or writes otherwise than on x86-64. Every call is made on
   SETS drawn sets of operands (draw.h; those that go over a whole table: on TABLE_SETS), refused ones among them. For each
   call the program prints how often it was made, how many calls were not refused, which refusals were given (bit n
   for refusal n) and a digest of every field of every answer and of every byte of every list that was lent.
   tests/cross/run compares what it prints on each target with what it prints on x86-64. */

#include "draw.h"

static inline void before_call(void) {}
static inline void after_call(void) {}

int main(void) {
  uint64_t given = 0;
  const bool tables = make_tables();
  for (size_t which = 0; which < sizeof turns / sizeof turns[0]; which++) {
    state = 1 + which, digest = refusals = clear = 0;
    for (long set = 0; set < turns[which].sets; set++) {
      begin(turns[which].name);
      turns[which].turn();
    }
    given |= refusals;
    say(turns[which].name), say(" "), say_number((uint64_t)turns[which].sets), say(" sets, "), say_number(clear);
    say(" not refused, refusals "), say_hex(refusals), say(", digest "), say_hex(digest), say("\n");
  }
  say("refusals: "), say_hex(given), say("\n");
  say(tables ? "tables: right\n" : "tables: wrong\n");
  return !tables;
}
