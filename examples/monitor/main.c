/* A monitor: the burned table is checked at start, then there is a reading a second. README.md has the two commands
   that run it on a Cortex-M3 under qemu. Status: 0, or 1 where the table was refused. */

#include "board.h"
#include "monitor.h"

static void say_number(uint64_t number) {
  char text[21];
  int at = 20;
  text[at] = 0;
  do
    text[--at] = (char)('0' + number % 10);
  while ((number /= 10) != 0);
  board_say(text + at);
}

int main(void) {
  monitor self = monitor_start(board_table, sizeof board_table);
  uint64_t current, sensitivity;
  board_say("burned table: refusal "), say_number(self.table.refusal);
  board_say(", bad cells "), say_number(self.table.count), board_say("\n");
  while (board_sample(&current, &sensitivity)) {
    const monitor_second shown = monitor_sample(&self, current, sensitivity);
    if (shown.reading)
      say_number(shown.ppb), board_say(" ppb");
    else
      board_say("no reading");
    board_say(shown.alarm ? " ALARM" : ""), board_say(shown.fault ? " FAULT\n" : "\n");
    board_wait();
  }
  return self.table.refusal != 0;
}
